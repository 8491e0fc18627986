//! The library from Rust: the cases of example.c and, in example_spectra.rs, example_surveys.rs, example_sheets.rs and example_joins.rs,
//! those of the files of these names in C. `build.sh` compares what they write with expected.txt.
mod example_joins;
mod example_sheets;
mod example_spectra;
mod example_surveys;
mod koxirmeta;

use koxirmeta as kx;
use koxirmeta::{Bounds, Plot, Refusal, Sides, Spread};

const ORIGIN: Bounds = [0; 8];
const CROSSED: Bounds = [5, 0, 5, 1, 5, 0, 5, -1];
const K2: Sides = [0, 1, 0, 0, 0, 1, 0, 0];
const K4: Sides = [0, 0, 0, 1, 0, 0, 0, 1];
const K13: Sides = [0, 1, 0, 1, 0, 1, 0, 1];
const BLOCK: Sides = [2, 0, 1, 0, 2, 0, 1, 0];
const SQUARE: Sides = [2, 0, 2, 0, 2, 0, 2, 0];
const UNEVEN: Plot = Plot { number: 70001, start: [-4, -5], sides: [3, 1, 14, 2, 5, 4, 6, 7], fee_row: 40961 };
const COUNTY: Plot =
    Plot { number: 31337, start: [-1234567, 1654321], sides: [100003, 20011, 70001, 30013, 100013, 40009, 29995, 50021], fee_row: 4077 };
const FRAME: Bounds = [-4, -1, 5, 11, 7, 4, -2, -7];
const RISING: Sides = [0, 4, 0, 0, 0, 4, 0, 0];
const FALLING: Sides = [0, 0, 0, 2, 0, 0, 0, 2];

fn octagon_at(i: i32, j: i32, sides: &Sides) -> Bounds {
    kx::to_octagon(&[i, j], sides).unwrap()
}

fn words<T: ToString>(numbers: &[T]) -> String {
    numbers.iter().map(T::to_string).collect::<Vec<_>>().join(" ")
}

fn number<T>(answer: &Result<T, Refusal>) -> u32 {
    answer.as_ref().err().map_or(0, |why| why.number())
}

fn refused(what: &str, why: Refusal) {
    println!("{what}: refused {}", why.number());
}

fn drawn(b: &Bounds) -> String {
    let (start, sides) = kx::to_outline(b).unwrap();
    format!("start {} sides {} cells {}", words(&start), words(&sides), kx::count(b).unwrap())
}

fn show(what: &str, answer: Result<Bounds, Refusal>) {
    match answer {
        Err(why) => refused(what, why),
        Ok(b) => println!("{what}: {}", drawn(&b)),
    }
}

/// Writes the answer of a call with a spread in it, and its mark.
fn show_spread(what: &str, answer: Result<Spread, Refusal>) {
    match answer {
        Err(why) => refused(what, why),
        Ok(Spread::Exact(b)) => println!("{what}: {}, exact", drawn(&b)),
        Ok(Spread::Filled(b)) => println!("{what}: {}, filled", drawn(&b)),
    }
}

fn show_bounds(what: &str, bounds: &Bounds) {
    match kx::normalise(bounds) {
        Err(why) => refused(what, why),
        Ok(b) => println!("{what}: {} cells {}", words(&b), kx::count(&b).unwrap()),
    }
}

fn octagons() {
    let block = octagon_at(0, 0, &BLOCK);
    let (k2, k4, k13) = (octagon_at(0, 0, &K2), octagon_at(0, 0, &K4), octagon_at(0, 0, &K13));
    show_bounds("all bounds 0", &ORIGIN);
    show_bounds("slack bounds", &[0, 0, 9, 1, 2, 9, 0, 0]);
    show_bounds("crossed bounds", &CROSSED);
    show("n0=1 alone", kx::to_octagon(&[0, 0], &[1, 0, 0, 0, 0, 0, 0, 0]));
    show_spread("block spread by K13", kx::dilate(&block, &k13));
    let spread = kx::dilate(&block, &k13).unwrap().bounds();
    show("that trimmed by K13", kx::erode(&spread, &k13));
    show_spread("block closed by K13", kx::closing(&block, &k13));
    if let Ok([east, north]) = kx::vertex_place(&spread, 2) {
        println!("corner 2 of the spread: {east:.2} east {north:.2} north");
    }
    refused("corner 8", kx::vertex_place(&spread, 8).unwrap_err());
    show("block trimmed by 3 by 3", kx::erode(&block, &octagon_at(0, 0, &SQUARE)));
    show_spread("K2 spread by K4", kx::dilate(&k2, &k4));
    show_spread("K13 opened by K4", kx::opening(&k13, &k4));
    show_spread("K2 closed by K4", kx::closing(&k2, &k4));
    let (west, east, one) = (octagon_at(-kx::MAP_LIMIT, 0, &[0; 8]), octagon_at(kx::MAP_LIMIT, 0, &[0; 8]), octagon_at(1, 0, &[0; 8]));
    show("(-2000000,0) trimmed by (1,0)", kx::erode(&west, &one));
    show_spread("(2000000,0) spread by (0,0)", kx::dilate(&east, &ORIGIN));
    show_spread("(2000000,0) spread by (1,0)", kx::dilate(&east, &one));
    show_spread("origin spread 4000001 times", kx::dilate_n(&ORIGIN, &ORIGIN, kx::FOLD_LIMIT));
    show_spread("origin spread 4000002 times", kx::dilate_n(&ORIGIN, &ORIGIN, kx::FOLD_LIMIT + 1));
    show("block trimmed twice by 3 by 1", kx::erode_n(&block, &[0, 2, 2, 2, 0, 0, 0, 0], 2));
    println!("seven bounds: {}", number(&kx::normalise(&ORIGIN[..7])));
}

/// A plot far off the old map, of more cells than 32 bits count: its bounds, its outline, a corner, and what a row trims off it.
fn county() {
    let plot = kx::to_octagon(&COUNTY.start, &COUNTY.sides).unwrap();
    show_bounds("county plot", &plot);
    show("its outline", Ok(plot));
    let [east, north] = kx::vertex_place(&plot, 4).unwrap();
    println!("corner 4: {east:.2} east {north:.2} north");
    show("trimmed by a rising row", kx::erode(&plot, &octagon_at(7, -3, &RISING)));
}

/// A plot and a frame whose numbers all differ.
fn uneven() {
    let plot = kx::to_octagon(&UNEVEN.start, &UNEVEN.sides).unwrap();
    show_bounds("uneven plot", &plot);
    show_bounds("slack bounds that differ", &[5, 4, 0, 10, 40, 27, 11, 20]);
    show("its outline", Ok(plot));
    show_spread("spread by the frame", kx::dilate(&plot, &FRAME));
    show("trimmed by the frame", kx::erode(&plot, &FRAME));
    show_spread("opened by the frame", kx::opening(&plot, &FRAME));
    let larger = kx::dilate(&FRAME, &octagon_at(7, -3, &RISING));
    show_spread("the frame spread by a rising row", larger);
    show_spread("opened by that", larger.and_then(|frame| kx::opening(&plot, &frame.bounds())));
    show_spread("closed by the frame", kx::closing(&plot, &FRAME));
    show_spread("spread twice by the frame", kx::dilate_n(&plot, &FRAME, 2));
    let twice = kx::dilate_n(&plot, &FRAME, 2).unwrap().bounds();
    show_spread("that spread 3 times by the frame", kx::dilate_n(&twice, &FRAME, 3));
    show_spread("spread 5 times by the frame", kx::dilate_n(&plot, &FRAME, 5));
    show("trimmed twice by the frame", kx::erode_n(&plot, &FRAME, 2));
    show("trimmed once and once more", kx::erode(&plot, &FRAME).and_then(|left| kx::erode(&left, &FRAME)));
    show("the frame trimmed by the plot", kx::erode(&FRAME, &plot));
    for k in 0..8 {
        let [east, north] = kx::vertex_place(&plot, k).unwrap();
        println!("corner {k}: {east:.2} east {north:.2} north");
    }
}

/// Opposed rows whose numbers all differ: their spreads are filled. Those of a row by itself and by a cell are exact. A filled spread
/// that leaves the map is refused.
fn opposed_rows() {
    let (rising, falling) = (octagon_at(4, -11, &RISING), octagon_at(9, 2, &FALLING));
    let (edge, past) = (octagon_at(kx::MAP_LIMIT - 13, 5, &RISING), octagon_at(kx::MAP_LIMIT - 12, 5, &RISING));
    show_bounds("rising row", &rising);
    show_bounds("falling row", &falling);
    show_spread("rising spread by falling", kx::dilate(&rising, &falling));
    show_spread("falling spread by rising", kx::dilate(&falling, &rising));
    let both = kx::dilate(&rising, &falling).unwrap();
    assert!(both.is_filled());
    show("the spread trimmed by rising", kx::erode(&both.bounds(), &rising));
    show_spread("the spread opened by falling", kx::opening(&both.bounds(), &falling));
    show_spread("the spread opened by itself", kx::opening(&both.bounds(), &both.bounds()));
    show_spread("falling closed by rising", kx::closing(&falling, &rising));
    show_spread("rising opened by falling", kx::opening(&rising, &falling));
    show_spread("rising spread by itself", kx::dilate(&rising, &rising));
    show_spread("rising spread by (0,0)", kx::dilate(&rising, &ORIGIN));
    show_spread("rising spread 3 times by falling", kx::dilate_n(&rising, &falling, 3));
    show_spread("rising spread once and then 2 times", kx::dilate_n(&both.bounds(), &falling, 2));
    show_spread("rising spread 0 times by falling", kx::dilate_n(&rising, &falling, 0));
    show_spread("to the edge of the map", kx::dilate(&edge, &falling));
    show_spread("past it", kx::dilate(&past, &falling));
    show_spread("closed past it", kx::closing(&past, &falling));
}

fn show_split(what: &str, bounds: &Bounds) {
    match kx::decompose(bounds) {
        Err(why) => refused(what, why),
        Ok((start, counts)) => println!("{what}: start {} counts {}", words(&start), words(&counts)),
    }
}

fn splits() {
    show_split("split of sides 0 2 0 2 0 2 0 2", &octagon_at(0, 0, &[0, 2, 0, 2, 0, 2, 0, 2]));
    show_split("split of sides 3 0 1 1 0 2 0 0", &octagon_at(0, 0, &[3, 0, 1, 1, 0, 2, 0, 0]));
    show_split("split of the uneven plot", &kx::to_octagon(&UNEVEN.start, &UNEVEN.sides).unwrap());
    show_split("split of crossed bounds", &CROSSED);
}

/// Each number of a refusal has a name and words, and no other number has, 4 among them; and a tape's and a tree's are given by their names.
fn refusals() {
    assert_eq!(kx::enclose(&[]), Err(Refusal::NoPoint));
    assert_eq!(kx::enclose(&[1.5]), Err(Refusal::HalfPoint));
    assert_eq!(kx::enclose(&[500500.0, f64::NAN]), Err(Refusal::NotFinite));
    assert_eq!(kx::enclose(&[500500.0, 1.5]), Err(Refusal::OffMap));
    assert_eq!(kx::clearance(i32::MIN, 5, kx::RADIUS_LIMIT + 1), Err(Refusal::TooWide));
    assert_eq!(kx::clearance(i32::MIN, 5, kx::RADIUS_LIMIT), Err(Refusal::OffMap));
    for number in 1..=255 {
        let why = Refusal::from_number(number);
        let error: &dyn std::error::Error = &why;
        assert_eq!(why.number(), number);
        assert_eq!(why.name() != "Unknown", (number <= 21 && number != 4) || number == 255);
        assert!(error.to_string().starts_with(&format!("refused {number}: ")));
    }
}

fn main() {
    octagons();
    county();
    uneven();
    opposed_rows();
    splits();
    example_spectra::spectra();
    example_surveys::tapes();
    example_surveys::trees();
    example_sheets::sheets();
    example_sheets::base_sheets();
    example_joins::joins();
    example_joins::conversions();
    example_sheets::limits();
    refusals();
}
