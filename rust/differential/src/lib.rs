//! The proved library beside the independent implementation.
//!
//! * [`dice`] and [`streams`]: generated HP-GL, by seed.
//! * [`partner`]: the calls of documents 01 and 02, as the proved library answers them.
//! * [`due`]: the answers that the baseline gives, and the exact checker of condition 3.
//! * [`ways`]: how a stream is put through the calls, and every answer compared.
//! * [`difference`] and [`shrink`]: a wrong answer with its calls; the shortest input that has one.
//! * [`hunt`]: a budget of streams, each in every way; a [`hunt::Finding`] reproduces a difference.
//! * [`lists`] and [`redraw`]: generated strokes, written as HP-GL and painted again.
//! * [`record`]: the answers on fixed streams, to compare two versions of the library.
//! * [`loads`]: the loads of the benchmark; [`least`]: the least time of each call of a run.
//!
//! The tests are `cargo test`, the benchmark `cargo run --release`.

#![forbid(unsafe_code)]

pub mod dice;
pub mod difference;
pub mod due;
pub mod hunt;
pub mod least;
mod line_types;
pub mod lists;
pub mod loads;
pub mod partner;
pub mod record;
pub mod redraw;
mod replies;
pub mod shrink;
pub mod streams;
pub mod ways;
