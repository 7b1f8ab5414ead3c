//! What the times are held against. A figure that misses its target or limit is marked `over`; nothing else hangs on it.

use compare::hard::Solver;

/// The most of the Rust's time that the port may take, without zeroing.
const HALF: f64 = 0.5;

/// The most that the port may take of the time of a C program by the same rules, without zeroing; on the two layered games
/// more, by Zielonka's recursion and by promotion.
const BESIDE_C: [f64; 2] = [1.1, 1.1];
const BESIDE_C_44: [f64; 2] = [1.5, 1.5];
const BESIDE_C_39: [f64; 2] = [1.3, 2.0];

/// The share of the Rust's time that an unproved C program by the same rules took, without zeroing and with a strategy: by
/// Zielonka's recursion and by promotion; and how many times that share the port may take. They were measured apart, on other
/// games of the same sizes and kinds; the padded one had 32 hard vertices. For the other games half of the Rust's time is the
/// whole target.
const C_SHARES: [(&str, usize, [f64; 2], [f64; 2]); 11] = [
    ("random dense", 4_096, [0.44, 0.32], BESIDE_C),
    ("random sparse", 4_096, [0.23, 0.11], BESIDE_C),
    ("few priorities", 4_096, [0.47, 0.30], BESIDE_C),
    ("ladder", 4_096, [0.36, 0.25], BESIDE_C),
    ("chain", 4_096, [0.21, 0.16], BESIDE_C),
    ("near neighbours", 1_024, [0.17, 0.09], BESIDE_C),
    ("random", 200, [0.20, 0.14], BESIDE_C),
    ("random", 40, [0.27, 0.33], BESIDE_C),
    ("hard 44", 44, [0.12, 0.17], BESIDE_C_44),
    ("hard 39", 39, [0.13, 0.09], BESIDE_C_39),
    ("hard for Zielonka, padded", 4_096, [0.085, 0.20], BESIDE_C),
];

/// The C program's share on the family's game of n vertices, and how many times that share the port may take.
fn c_row(family: &str, n: usize, solver: Solver) -> Option<(f64, f64)> {
    let row = C_SHARES.iter().find(|row| row.0 == family && row.1 == n)?;
    Some((row.2[solver as usize], row.3[solver as usize]))
}

/// The C program's share on the family's game of n vertices.
pub fn c_share(family: &str, n: usize, solver: Solver) -> Option<f64> {
    c_row(family, n, solver).map(|row| row.0)
}

/// The most that the ratio without zeroing may be.
pub fn at_most(family: &str, n: usize, solver: Solver) -> f64 {
    c_row(family, n, solver).map_or(HALF, |(share, times)| HALF.min(times * share))
}

/// What a function timed alone has to reach, in millions of edges or of bytes a second without the zeroing of the W words: the
/// reader's is its aim, each other is about half of what was measured.
#[cfg(feature = "port")]
const LIMITS: [(&str, &str, f64); 10] = [
    ("attractor", "random dense", 35.0),
    ("attractor", "chain", 45.0),
    ("checker", "random dense", 40.0),
    ("checker", "chain", 40.0),
    ("solitaire", "random dense", 40.0),
    ("solitaire", "chain", 30.0),
    ("second opinion", "random dense", 16.0),
    ("second opinion", "random sparse", 2.5),
    ("reader", "text of random dense", 200.0),
    ("writer", "text of random dense", 180.0),
];

/// The limit of a function on a game or text; none for what is only there to compare with.
#[cfg(feature = "port")]
pub fn at_least(function: &str, on: &str) -> Option<f64> {
    LIMITS.iter().find(|limit| limit.0 == function && limit.1 == on).map(|limit| limit.2)
}
