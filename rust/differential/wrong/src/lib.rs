//! Wrong machines are found: copies of the baseline with one fault each (`build.rs`) take the library's
//! place, and each fault must be found and brought down to a short input.

#[cfg(test)]
#[macro_use]
mod copies;

#[cfg(test)]
mod arcs;
#[cfg(test)]
mod decimals;
#[cfg(test)]
mod line_types;
#[cfg(test)]
mod redraw;
#[cfg(test)]
mod replies;
#[cfg(test)]
mod turns;
