//! Two sheets joined in a third buffer, and sheets copied with records of [`kx::FEE_RECORD`] into a second, from Rust.
use crate::COUNTY;
use crate::example_sheets::{listing, show_bytes};
use crate::koxirmeta as kx;
use crate::koxirmeta::{Plot, Refusal};

/// The northern half of a churchyard, in records of [`kx::BASE_RECORD`] bytes: the plots 770 and 70001.
const NORTH: &[u8; 69] = b"north\
    \x02\x03\0\0\x15\0\xdf\xff\x0f\0\x0b\0\x12\0\x09\0\x16\0\x08\0\x11\0\x0d\0\
    \x71\x11\x01\0\xfc\xff\xfb\xff\x03\0\x01\0\x0e\0\x02\0\x05\0\x04\0\x06\0\x07\0\
    \x30\0\0\0\x02\0\0\0\x18\0\0\0GRND";

/// The plots of the southern half. Plot 770 has the northern outline and fee row.
const SOUTH: [Plot; 3] = [
    Plot { number: 9054, start: [1290, -812], sides: [51, 28, 53, 37, 16, 45, 54, 19], fee_row: 515 },
    Plot { number: 41, start: [-700, 95], sides: [31, 301, 40, 20, 74, 263, 73, 25], fee_row: 40961 },
    Plot { number: 770, start: [21, -33], sides: [15, 11, 18, 9, 22, 8, 17, 13], fee_row: 0 },
];

/// The southern half, in records of [`kx::RECORD`] bytes, with this fee row for plot 770.
fn southern(fee_row: u16) -> [u8; 164] {
    let mut sheet = [0u8; 164];
    sheet[..10].copy_from_slice(b"south half");
    let len = kx::sheet_start(&mut sheet, 10).unwrap();
    let plots = [SOUTH[0], SOUTH[1], Plot { fee_row, ..SOUTH[2] }];
    assert_eq!(plots.iter().fold(len, |len, plot| kx::sheet_insert(&mut sheet, len, plot).unwrap()), sheet.len());
    sheet
}

/// Writes what the join of two sheets, each as long as its slice, answers.
fn show_join(what: &str, first: &[u8], second: &[u8], joined: &mut [u8]) {
    match kx::sheet_join(first, first.len(), second, second.len(), joined) {
        Err(why) => println!("join {what}: {}", why.number()),
        Ok(len) => println!("join {what}: 0 length {len}"),
    }
}

/// Both halves in one sheet, under the heading of either; then plot 770 with two fee rows, and sheets that are refused.
pub fn joins() {
    let (south, mut joined) = (southern(0), [0xeeu8; 216]);
    listing(NORTH, NORTH.len());
    listing(&south, south.len());
    show_join("north and south, one byte short", NORTH, &south, &mut joined[..204]);
    show_bytes(&joined);
    show_join("north and south", NORTH, &south, &mut joined[..205]);
    show_bytes(&joined);
    listing(&joined, 205);
    show_join("south and north", &south, NORTH, &mut joined[..210]);
    show_bytes(&joined);
    show_join("north and itself", NORTH, NORTH, &mut joined[..113]);
    show_bytes(&joined);
    let mut other = southern(258);
    assert_eq!(kx::sheet_join(NORTH, 69, &other, 164, &mut joined), Err(Refusal::TwoRecords));
    show_join("where 770 has two fee rows", NORTH, &other, &mut joined);
    show_join("the same with no buffer", NORTH, &other, &mut []);
    other[163] = b'E';
    show_join("of wrong letters and a length of 15", &other, &NORTH[..15], &mut joined);
    show_join("of a length of 15 and wrong letters", &NORTH[..15], &other, &mut joined);
    show_bytes(&joined);
}

/// Writes what the conversion of a sheet, as long as its slice, answers.
fn show_conversion(what: &str, sheet: &[u8], copy: &mut [u8]) {
    match kx::sheet_convert(sheet, sheet.len(), copy) {
        Err(why) => println!("convert {what}: {}", why.number()),
        Ok(len) => println!("convert {what}: 0 length {len}"),
    }
}

/// Both halves written with [`kx::FEE_RECORD`] bytes a record, and a copy joined with what it was made of; then a plot off the old map,
/// and a sheet that is refused.
pub fn conversions() {
    let (south, mut copy, mut again, mut joined) = (southern(258), [0xeeu8; 108], [0xddu8; 108], [0u8; 164]);
    show_conversion("south, one byte short", &south, &mut copy[..103]);
    show_bytes(&copy);
    show_conversion("south", &south, &mut copy[..104]);
    show_bytes(&copy);
    listing(&copy, 104);
    show_conversion("the copy", &copy[..104], &mut again);
    show_bytes(&again);
    show_join("the copy and south", &copy[..104], &south, &mut joined);
    show_bytes(&joined);
    show_conversion("north, one byte short", NORTH, &mut copy[..72]);
    show_conversion("north", NORTH, &mut copy[..73]);
    show_bytes(&copy);
    let mut far = [0u8; 210];
    far[..164].copy_from_slice(&south);
    assert_eq!(kx::sheet_insert(&mut far, south.len(), &COUNTY), Ok(far.len()));
    listing(&far, far.len());
    assert_eq!(kx::sheet_convert(&far, far.len(), &mut copy), Err(Refusal::OffOldMap));
    show_conversion("where 31337 is off the old map", &far, &mut copy);
    show_conversion("the same with no buffer", &far, &mut []);
    far[209] = b'E';
    show_conversion("of wrong letters", &far, &mut copy);
    show_bytes(&copy);
}
