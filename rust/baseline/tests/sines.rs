//! The table of sines: compared with another source, and the rules of document 01.

use baseline::sines::{cosine, sine, SINES};

#[test]
fn nearest_whole_of_the_sine() {
    for (i, &entry) in SINES.iter().enumerate() {
        let exact = (i as f64 * std::f64::consts::PI / 1800.0).sin() * 100_000.0;
        assert_eq!(i64::from(entry), exact.round() as i64, "entry {i}");
        // The nearest whole is not in doubt: no value comes close to a half.
        assert!(((exact - exact.floor()) - 0.5).abs() > 0.001, "entry {i}");
    }
}

#[test]
fn never_falls_from_0_to_100000() {
    assert_eq!(SINES[0], 0);
    assert_eq!(SINES[300], 50_000);
    assert_eq!(SINES[900], 100_000);
    assert!(SINES.windows(2).all(|w| w[0] <= w[1]));
}

#[test]
fn squares() {
    let mut most = 0;
    for i in 0..=900 {
        let (s, c) = (i64::from(SINES[i]), i64::from(SINES[900 - i]));
        let off = (s * s + c * c - 10_000_000_000).abs();
        assert!(off <= 150_000, "entry {i}");
        most = most.max(off);
    }
    assert_eq!(most, 131_620);
}

#[test]
fn addition() {
    let mut worst = Vec::new();
    for j in [1, 10, 100, 300] {
        let mut most = 0;
        for i in 0..=900 - j {
            let at = |k: usize| i64::from(SINES[k]);
            let sum = at(i) * at(900 - j) + at(900 - i) * at(j);
            let off = (at(i + j) * 100_000 - sum).abs();
            assert!(off <= 200_000, "{i} + {j}");
            most = most.max(off);
        }
        worst.push(most);
    }
    assert_eq!(worst, [138_125, 111_265, 121_902, 141_746]);
}

#[test]
fn quarters() {
    for i in 0..=900 {
        assert_eq!(sine(i), i64::from(SINES[i]));
        assert_eq!(cosine(i), i64::from(SINES[900 - i]));
    }
    for i in 0..3600 {
        assert_eq!(sine(900 + i), cosine(i));
        assert_eq!(cosine(900 + i), -sine(i));
        let angle = i as f64 * std::f64::consts::PI / 1800.0;
        assert!((sine(i) as f64 - angle.sin() * 100_000.0).abs() < 0.51);
        assert!((cosine(i) as f64 - angle.cos() * 100_000.0).abs() < 0.51);
    }
}
