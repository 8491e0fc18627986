//! Octagon plots on the quarter-metre grid, for Rust: safe functions over the calls that koxirmeta.h describes.
//!
//! Each function answers what the call wrote, or the [`Refusal`]. It compiles under the editions 2021 and 2024, with Rust 1.82 or
//! newer, and links with `libkoxirmeta.a`, which archive.sh makes.
#![warn(missing_docs)]

use std::error::Error;
use std::fmt;

/// How far a cell's coordinates go from the middle of the map, up and down.
pub const MAP_LIMIT: i32 = 2000000;
/// The same on the old map: that of the records of [`BASE_RECORD`] and of [`FEE_RECORD`].
pub const OLD_LIMIT: i32 = 16000;
/// The most folds of one n-fold call.
pub const FOLD_LIMIT: u32 = 4000001;
/// The greatest radius of a tree, in cells.
pub const RADIUS_LIMIT: u32 = 255;
/// The length of the longest sheet, in bytes.
pub const SHEET_LIMIT: usize = 65536;
/// The length of document 01's record, in bytes: numbers of 16 bits, and no fee row.
pub const BASE_RECORD: usize = 24;
/// The length of U2's, which ends with a fee row.
pub const FEE_RECORD: usize = 26;
/// The length of U10's: numbers of 32 bits, and a fee row.
pub const COUNTY_RECORD: usize = 46;
/// The length of a record of a sheet that is started, grown or joined.
pub const RECORD: usize = COUNTY_RECORD;
/// The length of the trailer of a sheet, in bytes.
pub const TRAILER: usize = 16;
/// The length of the longest line of a listing, in bytes.
pub const LINE: usize = 273;
/// The length of the text that a listing is written to, in bytes: a line for each record that a sheet can hold, of the shortest ones,
/// and two.
pub const TEXT: usize = LINE * ((SHEET_LIMIT - TRAILER) / BASE_RECORD + 2);

/// An octagon: the cells (x, y) with -y <= c0, x-y <= c1, x <= c2, x+y <= c3, y <= c4, -x+y <= c5, -x <= c6 and -x-y <= c7.
pub type Bounds = [i32; 8];
/// The start of an outline: its lowest corner, and of the lowest the leftmost.
pub type Start = [i32; 2];
/// The side lengths of an outline, counter-clockwise from the step (1, 0).
pub type Sides = [u32; 8];
/// How many there are of the pieces K1 to K13.
pub type Counts = [u32; 13];
/// A place on the ground in metres, east and north.
pub type Place = [f64; 2];

/// A record of a sheet: a plot number, an outline and a fee row.
#[derive(Clone, Copy, Debug, Default, PartialEq, Eq)]
pub struct Plot {
    /// The plot number.
    pub number: u32,
    /// The start of the outline.
    pub start: Start,
    /// The side lengths of the outline.
    pub sides: Sides,
    /// The row in the tariff of fees: any number. It is 0 where it was read from a record of [`BASE_RECORD`] bytes.
    pub fee_row: u16,
}

/// What a spread gives: an octagon, and whether it is exact.
///
/// A diagonal row is an octagon of two or more cells, all on one line x-y = constant or all on one line x+y = constant; two rows are
/// opposed when one is of each kind. The sums of the cells of opposed rows have holes between them, so that no octagon has just these
/// cells. A spread of opposed rows is filled, and every other spread is exact. [`opening`], [`closing`] and [`dilate_n`] say what the
/// spread in them says.
#[derive(Clone, Copy, Debug, PartialEq, Eq, Hash)]
pub enum Spread {
    /// The octagon's cells are those of the set definition, and no others.
    Exact(Bounds),
    /// Opposed diagonal rows were spread: the octagon is the smallest that holds the cells of the set definition.
    Filled(Bounds),
}

impl Spread {
    /// The octagon, exact or filled.
    pub fn bounds(self) -> Bounds {
        match self {
            Spread::Exact(bounds) | Spread::Filled(bounds) => bounds,
        }
    }

    /// Whether it is filled.
    pub fn is_filled(self) -> bool {
        matches!(self, Spread::Filled(_))
    }

    /// What a call wrote: the bounds and the mark, which is 0 where they are exact and 1 where they are filled.
    fn marked((bounds, mark): (Bounds, u32)) -> Spread {
        match mark {
            0 => Spread::Exact(bounds),
            _ => Spread::Filled(bounds),
        }
    }
}

/// How a [`spectrum`] ended, with the number of trims that were made: as many entries are written.
#[derive(Clone, Copy, Debug, PartialEq, Eq, Hash)]
pub enum Spectrum {
    /// Nothing is left: the last entry is written, and may fill the list.
    Finished(usize),
    /// The list is full, and a further entry was due.
    Spent(usize),
}

impl Spectrum {
    /// What a call wrote: the trims and the ending, which is 0 where the list is spent and 1 where the spectrum is finished.
    fn ended((trims, ending): (usize, u32)) -> Spectrum {
        match ending {
            0 => Spectrum::Spent(trims),
            _ => Spectrum::Finished(trims),
        }
    }
}

macro_rules! refusals {
    ($($(#[$attribute:meta])* $name:ident = $number:literal,)*) => {
        /// Why a call was refused: a number of documents 01 and 02, or the caller's mistake. No call answers 4.
        #[non_exhaustive]
        #[derive(Clone, Copy, Debug, PartialEq, Eq, Hash)]
        pub enum Refusal {
            $($(#[$attribute])* $name,)*
            /// A number that these functions do not know: that of another version of the library.
            Unknown(u32),
        }

        impl Refusal {
            /// The refusal with this number.
            pub fn from_number(number: u32) -> Refusal {
                match number {
                    $($number => Refusal::$name,)*
                    _ => Refusal::Unknown(number),
                }
            }

            /// Its number.
            pub fn number(self) -> u32 {
                match self {
                    $(Refusal::$name => $number,)*
                    Refusal::Unknown(number) => number,
                }
            }

            /// Its name.
            pub fn name(self) -> &'static str {
                match self {
                    $(Refusal::$name => stringify!($name),)*
                    Refusal::Unknown(_) => "Unknown",
                }
            }
        }
    };
}

refusals! {
    /// The bounds hold no cell.
    NoCell = 1,
    /// Some cell lies off the map: a coordinate is beyond [`MAP_LIMIT`]; in a record of [`BASE_RECORD`] or [`FEE_RECORD`] bytes, beyond
    /// [`OLD_LIMIT`].
    OffMap = 2,
    /// The outline does not close.
    NotClosed = 3,
    /// No position fits.
    NothingLeft = 5,
    /// n is above [`FOLD_LIMIT`].
    TooManyFolds = 6,
    /// The corner number is above 7.
    NoVertex = 7,
    /// The sheet's length is below [`TRAILER`], above [`SHEET_LIMIT`] or above the buffer's.
    BadLength = 8,
    /// Letters, record length or zero bytes of the trailer are wrong.
    BadTrailer = 9,
    /// The distance is not the record length times the count, or exceeds the length less [`TRAILER`].
    BadDistance = 10,
    /// A plot number is 0, out of order or present.
    BadNumber = 11,
    /// The buffer or the sheet has no room.
    NoRoom = 12,
    /// There is no such record.
    NoRecord = 13,
    /// A coordinate of a tape is an infinity or no number.
    NotFinite = 14,
    /// The tape is empty.
    NoPoint = 15,
    /// The tape's length is odd: it ends in half a point.
    HalfPoint = 16,
    /// The tree's radius is above [`RADIUS_LIMIT`].
    TooWide = 17,
    /// One plot number stands for two differing records.
    TwoRecords = 18,
    /// The frame of a spectrum lacks the cell (0, 0).
    NoOrigin = 19,
    /// The frame of a spectrum has no other cell than (0, 0).
    NoOtherCell = 20,
    /// A plot that is to be converted leaves the old map: a coordinate is beyond [`OLD_LIMIT`].
    OffOldMap = 21,
    /// A slice of the wrong length: the caller's mistake, and no number of the documents.
    WrongLength = 255,
}

impl fmt::Display for Refusal {
    fn fmt(&self, f: &mut fmt::Formatter<'_>) -> fmt::Result {
        write!(f, "refused {}: ", self.number())?;
        match self {
            Refusal::NoCell => write!(f, "the bounds hold no cell"),
            Refusal::OffMap => write!(f, "some cell lies off the map, a coordinate beyond {MAP_LIMIT} either way, or {OLD_LIMIT} in an old sheet"),
            Refusal::NotClosed => write!(f, "the outline does not close"),
            Refusal::NothingLeft => write!(f, "no position fits"),
            Refusal::TooManyFolds => write!(f, "more than {FOLD_LIMIT} folds"),
            Refusal::NoVertex => write!(f, "the corner number is above 7"),
            Refusal::BadLength => write!(f, "the length of the sheet is below {TRAILER}, above {SHEET_LIMIT} or above the buffer's"),
            Refusal::BadTrailer => write!(f, "letters, record length or zero bytes of the trailer are wrong"),
            Refusal::BadDistance => write!(f, "the distance is not the record length times the count, or exceeds the length less {TRAILER}"),
            Refusal::BadNumber => write!(f, "a plot number is 0, out of order or present"),
            Refusal::NoRoom => write!(f, "the buffer or the sheet has no room"),
            Refusal::NoRecord => write!(f, "there is no such record"),
            Refusal::NotFinite => write!(f, "a coordinate of the tape is an infinity or no number"),
            Refusal::NoPoint => write!(f, "the tape is empty"),
            Refusal::HalfPoint => write!(f, "the length of the tape is odd, so that it ends in half a point"),
            Refusal::TooWide => write!(f, "the radius of the tree is above {RADIUS_LIMIT}"),
            Refusal::TwoRecords => write!(f, "one plot number stands for two differing records"),
            Refusal::NoOrigin => write!(f, "the frame of the spectrum lacks the cell (0, 0)"),
            Refusal::NoOtherCell => write!(f, "the frame of the spectrum has no other cell than (0, 0)"),
            Refusal::OffOldMap => write!(f, "a plot that is to be converted leaves the old map, a coordinate beyond {OLD_LIMIT} either way"),
            Refusal::WrongLength => write!(f, "a slice has the wrong length"),
            Refusal::Unknown(_) => write!(f, "a number of another version of the library"),
        }
    }
}

impl Error for Refusal {}

mod calls {
    unsafe extern "C" {
        pub fn kx_normalise(bounds: *const i32, bounds_len: usize, out: *mut i32, out_len: usize) -> u32;
        pub fn kx_count(bounds: *const i32, bounds_len: usize, cells: *mut u64) -> u32;
        pub fn kx_dilate(p: *const i32, p_len: usize, f: *const i32, f_len: usize, out: *mut i32, out_len: usize, mark: *mut u32) -> u32;
        pub fn kx_erode(p: *const i32, p_len: usize, f: *const i32, f_len: usize, out: *mut i32, out_len: usize) -> u32;
        pub fn kx_opening(p: *const i32, p_len: usize, f: *const i32, f_len: usize, out: *mut i32, out_len: usize, mark: *mut u32) -> u32;
        pub fn kx_closing(p: *const i32, p_len: usize, f: *const i32, f_len: usize, out: *mut i32, out_len: usize, mark: *mut u32) -> u32;
        pub fn kx_dilate_n(p: *const i32, p_len: usize, f: *const i32, f_len: usize, n: u32, out: *mut i32, out_len: usize, mark: *mut u32) -> u32;
        pub fn kx_erode_n(p: *const i32, p_len: usize, f: *const i32, f_len: usize, n: u32, out: *mut i32, out_len: usize) -> u32;
        pub fn kx_spectrum(p: *const i32, p_len: usize, f: *const i32, f_len: usize, list: *mut u64, list_len: usize, trims: *mut usize, ending: *mut u32) -> u32;
        pub fn kx_to_octagon(start: *const i32, start_len: usize, sides: *const u32, sides_len: usize, out: *mut i32, out_len: usize) -> u32;
        pub fn kx_to_outline(bounds: *const i32, bounds_len: usize, start: *mut i32, start_len: usize, sides: *mut u32, sides_len: usize) -> u32;
        pub fn kx_vertex_place(bounds: *const i32, bounds_len: usize, k: u32, place: *mut f64, place_len: usize) -> u32;
        pub fn kx_decompose(bounds: *const i32, bounds_len: usize, start: *mut i32, start_len: usize, counts: *mut u32, counts_len: usize) -> u32;
        pub fn kx_enclose(tape: *const f64, tape_len: usize, out: *mut i32, out_len: usize) -> u32;
        pub fn kx_clearance(x: i32, y: i32, radius: u32, out: *mut i32, out_len: usize) -> u32;
        pub fn kx_sheet_check(sheet: *const u8, sheet_len: usize, len: usize, count: *mut u32) -> u32;
        pub fn kx_sheet_fetch(sheet: *const u8, sheet_len: usize, len: usize, k: u32, number: *mut u32, start: *mut i32, start_len: usize, sides: *mut u32, sides_len: usize, fee_row: *mut u16) -> u32;
        pub fn kx_sheet_read(sheet: *const u8, sheet_len: usize, len: usize, k: u32, number: *mut u32, start: *mut i32, start_len: usize, sides: *mut u32, sides_len: usize, fee_row: *mut u16) -> u32;
        pub fn kx_sheet_start(sheet: *mut u8, sheet_len: usize, heading: usize, len: *mut usize) -> u32;
        pub fn kx_sheet_insert(sheet: *mut u8, sheet_len: usize, len: usize, number: u32, start: *const i32, start_len: usize, sides: *const u32, sides_len: usize, fee_row: u16, grown: *mut usize) -> u32;
        pub fn kx_sheet_join(first: *const u8, first_room: usize, first_len: usize, second: *const u8, second_room: usize, second_len: usize, joined: *mut u8, joined_room: usize, len: *mut usize) -> u32;
        pub fn kx_sheet_convert(first: *const u8, first_room: usize, first_len: usize, second: *mut u8, second_room: usize, len: *mut usize) -> u32;
        pub fn kx_list(sheet: *const u8, sheet_len: usize, len: usize, text: *mut [u8; super::TEXT], written: *mut usize) -> u32;
    }
}

/// What a call wrote to a fresh value, or the refusal that it answered.
fn answer<T: Default>(call: impl FnOnce(&mut T) -> u32) -> Result<T, Refusal> {
    let mut value = T::default();
    match call(&mut value) {
        0 => Ok(value),
        number => Err(Refusal::from_number(number)),
    }
}

// SAFETY, of every call below: each pointer is to a whole slice or array, beside its length, or to one whole value; and what is
// written to is a fresh value or a unique reference, and so no other argument.

/// The normal form of eight bounds. A slice of another length is refused with [`Refusal::WrongLength`].
///
/// Refusals: `NoCell`, `OffMap`.
pub fn normalise(bounds: &[i32]) -> Result<Bounds, Refusal> {
    answer(|out: &mut Bounds| unsafe { calls::kx_normalise(bounds.as_ptr(), bounds.len(), out.as_mut_ptr(), out.len()) })
}

/// The number of cells. Refusals: `NoCell`, `OffMap`.
pub fn count(bounds: &Bounds) -> Result<u64, Refusal> {
    answer(|cells: &mut u64| unsafe { calls::kx_count(bounds.as_ptr(), bounds.len(), cells) })
}

macro_rules! trims {
    ($(#[$attribute:meta])* $name:ident, $call:ident $(, $times:ident)?) => {
        $(#[$attribute])*
        pub fn $name(plot: &Bounds, element: &Bounds $(, $times: u32)?) -> Result<Bounds, Refusal> {
            answer(|out: &mut Bounds| unsafe {
                calls::$call(plot.as_ptr(), plot.len(), element.as_ptr(), element.len(), $($times,)? out.as_mut_ptr(), out.len())
            })
        }
    };
}

macro_rules! spreads {
    ($(#[$attribute:meta])* $name:ident, $call:ident $(, $times:ident)?) => {
        $(#[$attribute])*
        pub fn $name(plot: &Bounds, element: &Bounds $(, $times: u32)?) -> Result<Spread, Refusal> {
            answer(|(out, mark): &mut (Bounds, u32)| unsafe {
                calls::$call(plot.as_ptr(), plot.len(), element.as_ptr(), element.len(), $($times,)? out.as_mut_ptr(), out.len(), mark)
            })
            .map(Spread::marked)
        }
    };
}

spreads! {
    /// Every sum of a cell of the plot and a cell of the element (document 01's spread); where the two are opposed diagonal rows, and
    /// only there, the smallest octagon that holds the sums, which is filled.
    ///
    /// Refusals: the plot's `NoCell` and `OffMap`, the element's, and `OffMap` for the result.
    dilate, kx_dilate
}
trims! {
    /// The positions at which the whole element stands inside the plot (document 01's trim).
    ///
    /// Refusals: the plot's `NoCell` and `OffMap`, the element's, `NothingLeft`, and `OffMap` for the result.
    erode, kx_erode
}
spreads! {
    /// The erosion, and where that is accepted the dilation of what it left: filled where that dilation is.
    ///
    /// An element spread with another opens no more than it does alone: the plot opened by the octagon that [`dilate`] gives for the two
    /// lies inside the plot opened by either, filled or not, where all these calls are accepted. Where the opening by both is accepted,
    /// the erosion by either is not refused with `NothingLeft`. An element that merely holds another may open more.
    ///
    /// Refusals: those of the erosion, and no other.
    opening, kx_opening
}
spreads! {
    /// The dilation, and where that is accepted the erosion of what it gave: filled where that dilation is. The cells are exact either
    /// way, for they are the plot's own.
    ///
    /// Refusals: those of the dilation, and no other.
    closing, kx_closing
}
spreads! {
    /// The dilation n times by the same element: filled where n is at least 1 and the two are opposed diagonal rows. It is then the
    /// smallest octagon that holds every sum of a cell of the plot and n cells of the element.
    ///
    /// Folds add up: with m + n up to [`FOLD_LIMIT`], m folds, and then n of what came of them, give the octagon of m + n folds or are
    /// refused as these are. m + n folds are filled exactly where one of the two calls is, and after one fold or more the second call is
    /// exact, whatever the first was.
    ///
    /// Refusals: `TooManyFolds`, each operand's; then `OffMap` for the final set.
    dilate_n, kx_dilate_n, n
}
trims! {
    /// The erosion n times by the same element. Folds add up as those of [`dilate_n`] do; but where the first of two calls is refused
    /// with `OffMap`, one call may be accepted, or refused with `NothingLeft`.
    ///
    /// Refusals: `TooManyFolds`, each operand's; then `NothingLeft` and `OffMap`, both for the final set.
    erode_n, kx_erode_n, n
}

/// The pattern spectrum of the plot by the frame, from the first place of the list on: how finely the plot breaks up.
///
/// Entry n, from 0 on, is the number of cells that are lost between the plot opened by n folds of the frame and by n + 1; by n folds is
/// n trims, and then n spreads of what they leave. A filled opening counts the cells of its octagon. Where n + 1 folds leave nothing,
/// their count is 0, and entry n is the last. A plot moved on the map has the same spectrum.
///
/// One trim is made for each entry. The spectrum is finished where the last entry is written, also where that fills the list, and spent
/// where the list is full and a further entry was due; a list of length 0 is spent at 0. Finished entries sum to the plot's cells, and
/// those of a spent list to these less the cells still open. Places past the last entry keep their values. No spectrum has more entries
/// than the map is wide, 2 * [`MAP_LIMIT`] + 1; a list of as many takes 32 megabytes, more than most stacks have.
///
/// Refusals: the plot's `NoCell` and `OffMap`, the frame's, `NoOrigin`, `NoOtherCell`; all of them for a list of length 0 too. A refused
/// call leaves the list as it was.
pub fn spectrum(plot: &Bounds, frame: &Bounds, list: &mut [u64]) -> Result<Spectrum, Refusal> {
    answer(|(trims, ending): &mut (usize, u32)| unsafe {
        calls::kx_spectrum(plot.as_ptr(), plot.len(), frame.as_ptr(), frame.len(), list.as_mut_ptr(), list.len(), trims, ending)
    })
    .map(Spectrum::ended)
}

/// The octagon of an outline. Refusals: `NotClosed`, `OffMap`.
pub fn to_octagon(start: &Start, sides: &Sides) -> Result<Bounds, Refusal> {
    answer(|out: &mut Bounds| unsafe { calls::kx_to_octagon(start.as_ptr(), start.len(), sides.as_ptr(), sides.len(), out.as_mut_ptr(), out.len()) })
}

/// The outline of an octagon. Refusals: `NoCell`, `OffMap`.
pub fn to_outline(bounds: &Bounds) -> Result<(Start, Sides), Refusal> {
    answer(|(start, sides): &mut (Start, Sides)| unsafe {
        calls::kx_to_outline(bounds.as_ptr(), bounds.len(), start.as_mut_ptr(), start.len(), sides.as_mut_ptr(), sides.len())
    })
}

/// Corner k in metres, exactly a quarter of its cell numbers. Refusals: `NoCell`, `OffMap`, `NoVertex`.
pub fn vertex_place(bounds: &Bounds, k: u32) -> Result<Place, Refusal> {
    answer(|place: &mut Place| unsafe { calls::kx_vertex_place(bounds.as_ptr(), bounds.len(), k, place.as_mut_ptr(), place.len()) })
}

/// The split into thirteen pieces: the start cell, and how many there are of each. Refusals: `NoCell`, `OffMap`.
pub fn decompose(bounds: &Bounds) -> Result<(Start, Counts), Refusal> {
    answer(|(start, counts): &mut (Start, Counts)| unsafe {
        calls::kx_decompose(bounds.as_ptr(), bounds.len(), start.as_mut_ptr(), start.len(), counts.as_mut_ptr(), counts.len())
    })
}

/// The smallest octagon that holds the cell of every point of a tape: metres, east and north in turn, two numbers for a point.
///
/// A coordinate e falls on the greatest whole number n with n * 0.25 - 0.125 <= e, worked out without loss.
///
/// Refusals: `NoPoint`, `HalfPoint`; then for each point in turn `NotFinite`, `OffMap`.
pub fn enclose(tape: &[f64]) -> Result<Bounds, Refusal> {
    answer(|out: &mut Bounds| unsafe { calls::kx_enclose(tape.as_ptr(), tape.len(), out.as_mut_ptr(), out.len()) })
}

/// The clearance of a tree with the centre cell (x, y) and a radius in whole cells: the smallest octagon that holds every cell at that
/// distance or less.
///
/// Those are the cells (u, v) with (u-x) * (u-x) + (v-y) * (v-y) <= radius * radius, worked out without loss.
///
/// Refusals: `TooWide`; then `OffMap` for the centre, and `OffMap` for the octagon.
pub fn clearance(x: i32, y: i32, radius: u32) -> Result<Bounds, Refusal> {
    answer(|out: &mut Bounds| unsafe { calls::kx_clearance(x, y, radius, out.as_mut_ptr(), out.len()) })
}

/// How many records the sheet in the first `len` bytes has, of [`BASE_RECORD`], of [`FEE_RECORD`] or of [`COUNTY_RECORD`] bytes each.
///
/// A sheet holds 1,424 plots of [`RECORD`] bytes, where 2,520 of [`FEE_RECORD`] and 2,730 of [`BASE_RECORD`] fitted.
///
/// Refusals: `BadLength`, `BadTrailer`, `BadDistance`; then for each record `BadNumber`, `NotClosed`, `OffMap`: records of
/// [`BASE_RECORD`] and of [`FEE_RECORD`] bytes are judged on the old map.
pub fn sheet_check(sheet: &[u8], len: usize) -> Result<u32, Refusal> {
    answer(|count: &mut u32| unsafe { calls::kx_sheet_check(sheet.as_ptr(), sheet.len(), len, count) })
}

/// Record k, counted from 0. Refusals: those of [`sheet_check`], then `NoRecord`.
pub fn sheet_fetch(sheet: &[u8], len: usize, k: u32) -> Result<Plot, Refusal> {
    answer(|Plot { number, start, sides, fee_row }: &mut Plot| unsafe {
        calls::kx_sheet_fetch(sheet.as_ptr(), sheet.len(), len, k, number, start.as_mut_ptr(), start.len(), sides.as_mut_ptr(), sides.len(), fee_row)
    })
}

/// Record k of a sheet that [`sheet_check`] accepts, in constant time: it checks no record.
///
/// Refusals: `BadLength`, `BadTrailer`, `BadDistance`, then `NoRecord` when k is not below the trailer's count.
pub fn sheet_read(sheet: &[u8], len: usize, k: u32) -> Result<Plot, Refusal> {
    answer(|Plot { number, start, sides, fee_row }: &mut Plot| unsafe {
        calls::kx_sheet_read(sheet.as_ptr(), sheet.len(), len, k, number, start.as_mut_ptr(), start.len(), sides.as_mut_ptr(), sides.len(), fee_row)
    })
}

/// Starts a sheet of no records after `heading` bytes: its length. Refusals: `BadLength` above [`SHEET_LIMIT`], then `NoRoom`.
pub fn sheet_start(sheet: &mut [u8], heading: usize) -> Result<usize, Refusal> {
    answer(|len: &mut usize| unsafe { calls::kx_sheet_start(sheet.as_mut_ptr(), sheet.len(), heading, len) })
}

/// Inserts a plot by its number: the new length. A sheet whose records have [`BASE_RECORD`] or [`FEE_RECORD`] bytes is written anew
/// with [`RECORD`] bytes for each; its plots keep their numbers, outlines and fee rows.
///
/// Refusals: first the outline's `NotClosed` and `OffMap`, on the map up to [`MAP_LIMIT`], whichever record length the sheet has; then
/// those of [`sheet_check`], `BadNumber`, and `NoRoom`, also for an old sheet of 1,424 plots or more.
pub fn sheet_insert(sheet: &mut [u8], len: usize, plot: &Plot) -> Result<usize, Refusal> {
    let Plot { number, start, sides, fee_row } = plot;
    answer(|grown: &mut usize| unsafe {
        calls::kx_sheet_insert(sheet.as_mut_ptr(), sheet.len(), len, *number, start.as_ptr(), start.len(), sides.as_ptr(), sides.len(), *fee_row, grown)
    })
}

/// Joins the sheet in the first `first_len` bytes of one slice and that in the first `second_len` of another, at the start of a
/// third: the new length. The first two may overlap, or be one.
///
/// What is written is the first sheet's heading, the records of both by rising number, of [`RECORD`] bytes each, and a trailer. A
/// plot that both have with one outline and one fee row is kept once, whatever the lengths of the two records: one of [`BASE_RECORD`]
/// bytes, whose fee row is 0, equals a longer one that says 0. The bytes of `joined` past the new length keep their values.
///
/// Refusals: those of [`sheet_check`] for the first sheet, then those for the second; `TwoRecords` when one plot number stands for
/// two differing records, whatever the length of `joined` is; `NoRoom` when the new length is above that, or above [`SHEET_LIMIT`].
pub fn sheet_join(first: &[u8], first_len: usize, second: &[u8], second_len: usize, joined: &mut [u8]) -> Result<usize, Refusal> {
    answer(|len: &mut usize| unsafe {
        calls::kx_sheet_join(first.as_ptr(), first.len(), first_len, second.as_ptr(), second.len(), second_len, joined.as_mut_ptr(), joined.len(), len)
    })
}

/// Copies the sheet in the first `len` bytes of one slice to the start of another with [`FEE_RECORD`] bytes a record: the new length.
///
/// What is written is its heading, its records in their order and a trailer; they may have had any record length. The bytes of
/// `second` past the new length keep their values.
///
/// Refusals: those of [`sheet_check`]; `OffOldMap` when a plot leaves the old map, whatever the length of `second` is; `NoRoom` when
/// the new length is above that, or above [`SHEET_LIMIT`].
pub fn sheet_convert(first: &[u8], len: usize, second: &mut [u8]) -> Result<usize, Refusal> {
    answer(|new_len: &mut usize| unsafe {
        calls::kx_sheet_convert(first.as_ptr(), first.len(), len, second.as_mut_ptr(), second.len(), new_len)
    })
}

/// The listing of the sheet in the first `len` bytes, at the start of `text`. It is always accepted: a sheet that [`sheet_check`]
/// refuses has the listing `refused`, a space and the number.
///
/// [`TEXT`] is some three quarters of a megabyte: take it from the heap, as in
/// `let mut text: Box<[u8; TEXT]> = vec![0; TEXT].try_into().unwrap();`.
pub fn list<'a>(sheet: &[u8], len: usize, text: &'a mut [u8; TEXT]) -> Result<&'a [u8], Refusal> {
    let written = answer(|written: &mut usize| unsafe { calls::kx_list(sheet.as_ptr(), sheet.len(), len, text, written) })?;
    Ok(&text[..written])
}
