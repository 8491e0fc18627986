//! Spectra from Rust: how finely a plot breaks up, in lists of every length; a filled opening; operands that are refused; an entry of more
//! cells than 32 bits count; and the most entries that a spectrum has.
use crate::koxirmeta as kx;
use crate::koxirmeta::{Bounds, Refusal, Spectrum};
use crate::{CROSSED, K4, K13, ORIGIN, octagon_at, words};

/// A plot of 45 cells and a frame of 5; a plot of 380 and a frame of 18, whose bounds all differ.
const SMALL: Bounds = [0, -1, 1, 7, 6, 11, 5, 4];
const CAP: Bounds = [0, 1, 1, 1, 1, 2, 1, 1];
const LARGE: Bounds = [-9, -14, 2, 32, 37, 43, 13, 4];
const SLANT: Bounds = [3, 4, 1, 7, 6, 5, 0, 2];

/// How many places are shown, those that are lent and those past them.
const PLACES: usize = 6;
/// How many entries a spectrum has at most.
const MOST: usize = 2 * kx::MAP_LIMIT as usize + 1;

/// How a call ended on a list: the trims and the ending, or the refusal.
fn ended(plot: &Bounds, frame: &Bounds, list: &mut [u64]) -> String {
    match kx::spectrum(plot, frame, list) {
        Err(why) => format!("refused {}", why.number()),
        Ok(Spectrum::Finished(trims)) => format!("trims {trims}, finished"),
        Ok(Spectrum::Spent(trims)) => format!("trims {trims}, spent"),
    }
}

/// Writes how a call ended on a list of this length, and then every place.
fn show_spectrum(what: &str, plot: &Bounds, frame: &Bounds, len: usize) {
    let mut places: [u64; PLACES] = std::array::from_fn(|k| 901 + k as u64);
    println!("{what}, list of {len}: {}; places {}", ended(plot, frame, &mut places[..len]), words(&places));
}

/// The same for a list of [`MOST`] places or about as many, and then its last place.
fn show_last(what: &str, plot: &Bounds, frame: &Bounds, len: usize) {
    let mut list = vec![907; len];
    println!("{what}, list of {len}: {}; last place {}", ended(plot, frame, &mut list), list[len - 1]);
}

/// Lists of every length from 0 to one past the last entry; shorter and longer ones; and an opening that is filled.
fn entries() {
    let (k4, k13) = (octagon_at(0, 0, &K4), octagon_at(0, 0, &K13));
    for len in 0..=5 {
        show_spectrum("small plot by the cap", &SMALL, &CAP, len);
    }
    for len in [3, PLACES] {
        show_spectrum("large plot by the slanted frame", &LARGE, &SLANT, len);
    }
    for len in [1, PLACES] {
        show_spectrum("K13 by K4", &k13, &k4, len);
    }
}

/// Frames without the cell (0, 0), and one that has no other; then what is refused before these.
fn refused_spectra() {
    assert_eq!(kx::spectrum(&SMALL, &LARGE, &mut []), Err(Refusal::NoOrigin));
    assert_eq!(kx::spectrum(&SMALL, &ORIGIN, &mut []), Err(Refusal::NoOtherCell));
    show_spectrum("small plot by the large one", &SMALL, &LARGE, PLACES);
    show_spectrum("small plot by (1,0)", &SMALL, &octagon_at(1, 0, &[0; 8]), PLACES);
    show_spectrum("small plot by (0,0)", &SMALL, &ORIGIN, PLACES);
    show_spectrum("small plot by (0,0)", &SMALL, &ORIGIN, 0);
    show_spectrum("small plot by crossed bounds", &SMALL, &CROSSED, PLACES);
    show_spectrum("crossed bounds by (0,0)", &CROSSED, &ORIGIN, PLACES);
}

/// A block by another, which stands in it once but not twice: one fold loses nothing, and the second all.
fn large_entry() {
    let block = octagon_at(-1900001, -1700005, &[3700004, 0, 3300012, 0, 3700004, 0, 3300012, 0]);
    let frame = octagon_at(-40009, -1100003, &[2000003, 0, 3000001, 0, 2000003, 0, 3000001, 0]);
    for len in [1, PLACES] {
        show_spectrum("a block by a block", &block, &frame, len);
    }
}

/// Two rows as wide as the map, by the cells (0, 0) and (1, 0).
fn most_entries() {
    let width = 2 * kx::MAP_LIMIT as u32;
    let rows = octagon_at(-kx::MAP_LIMIT, 0, &[width, 0, 1, 0, width, 0, 1, 0]);
    let two = octagon_at(0, 0, &[1, 0, 0, 0, 1, 0, 0, 0]);
    for len in [MOST - 1, MOST, MOST + 1] {
        show_last("two rows as wide as the map by two cells", &rows, &two, len);
    }
}

pub fn spectra() {
    entries();
    refused_spectra();
    large_entry();
    most_entries();
}
