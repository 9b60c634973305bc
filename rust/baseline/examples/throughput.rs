//! Time a byte over 20 MB of `PD x,y;` moves: by take and draw, and by feed.
//!
//! `cargo run --release --example throughput`

use baseline::{Drawn, Machine, Stroke};
use std::hint::black_box;
use std::time::{Duration, Instant};

/// Time used on a processor if the system tells it, which other programs do not disturb, else
/// the time of day.
fn now(start: Instant) -> Duration {
    std::fs::read_to_string("/proc/thread-self/schedstat")
        .ok()
        .and_then(|text| text.split(' ').next()?.parse().ok())
        .map_or_else(|| start.elapsed(), Duration::from_nanos)
}

/// About `size` bytes of moves with so many decimals; some leave the limits if `reach` does.
fn moves(size: usize, reach: i64, decimals: usize) -> Vec<u8> {
    let mut text = b"IN;SP1;PA0,0;".to_vec();
    let mut seed = 88_172_645_463_325_252_u64;
    let mut next = || {
        seed ^= seed << 13;
        seed ^= seed >> 7;
        seed ^= seed << 17;
        (seed >> 24) as i64
    };
    while text.len() < size {
        let (x, y) = (next() % (2 * reach + 1) - reach, next() % (2 * reach + 1) - reach);
        if decimals > 0 {
            let part = 10_i64.pow(decimals as u32);
            let (u, v) = (next() % part, next() % part);
            text.extend(format!("PD{x}.{u:0decimals$},{y}.{v:0decimals$};").bytes());
        } else {
            text.extend(format!("PD{x},{y};").bytes());
        }
    }
    text
}

fn calls(machine: &mut Machine, text: &[u8]) -> (u64, i64) {
    let (mut strokes, mut sum) = (0, 0);
    for &byte in text {
        assert_eq!(machine.take(byte), 0);
        loop {
            match machine.draw() {
                Drawn::Idle => break,
                Drawn::Hidden => {}
                Drawn::Stroke(stroke) => {
                    strokes += 1;
                    sum += stroke.x1 ^ stroke.y1;
                }
            }
        }
    }
    (strokes, sum)
}

fn feeds(machine: &mut Machine, text: &[u8]) -> (u64, i64) {
    let mut list = [Stroke::default(); 1024];
    let (mut strokes, mut sum, mut rest) = (0, 0, text);
    loop {
        let fed = machine.feed(rest, &mut list);
        rest = &rest[fed.taken..];
        strokes += fed.stored as u64;
        sum += list[..fed.stored].iter().map(|s| s.x1 ^ s.y1).sum::<i64>();
        if fed.number == 0 {
            return (strokes, sum);
        }
        assert_eq!(fed.number, 21);
    }
}

fn main() {
    for (name, reach, decimals) in [
        ("whole, inside", 6_999, 0),
        ("2 decimals, inside", 6_998, 2),
        ("4 decimals, inside", 6_998, 4),
        ("6 decimals, inside", 6_998, 6),
        ("whole, many clipped", 20_000, 0),
    ] {
        let text = moves(20_000_000, reach, decimals);
        for (way, run) in [
            ("take+draw", calls as fn(&mut Machine, &[u8]) -> (u64, i64)),
            ("feed", feeds as fn(&mut Machine, &[u8]) -> (u64, i64)),
        ] {
            let mut best = f64::INFINITY;
            let mut seen = (0, 0);
            for _ in 0..7 {
                let (mut machine, _) = Machine::fresh(-10_000, -7_000, 10_000, 7_000);
                let origin = Instant::now();
                let start = now(origin);
                seen = black_box(run(&mut machine, black_box(&text)));
                best = best.min((now(origin) - start).as_secs_f64());
            }
            println!(
                "{name:20} {way:10} {:6.2} ns a byte, {:6.1} MB/s, {} strokes",
                best * 1e9 / text.len() as f64,
                text.len() as f64 / best / 1e6,
                seen.0,
            );
        }
    }
}
