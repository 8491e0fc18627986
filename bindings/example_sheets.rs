//! Sheets from Rust: plots with fee rows, a sheet of document 01's records, which have none, and the answers at each limit.
use crate::koxirmeta as kx;
use crate::koxirmeta::{Plot, Refusal};
use crate::{COUNTY, K13, ORIGIN, UNEVEN, number, words};

const DIAMOND: Plot = Plot { number: 11407, start: [0, 0], sides: K13, fee_row: 515 };
const FIELD: Plot = Plot { number: 7, start: [2, -1], sides: [3, 0, 1, 0, 3, 0, 1, 0], fee_row: 65535 };

/// Writes the listing of a sheet as it is.
pub fn listing(sheet: &[u8], len: usize) {
    let mut text = vec![0; kx::TEXT];
    let listed = kx::list(sheet, len, text.as_mut_slice().try_into().unwrap()).unwrap();
    print!("{}", String::from_utf8_lossy(listed));
}

fn show_record(what: &str, answer: Result<Plot, Refusal>) {
    match answer {
        Err(why) => println!("{what}: {}", why.number()),
        Ok(p) => println!("{what}: 0 number {} start {} sides {} fee row {}", p.number, words(&p.start), words(&p.sides), p.fee_row),
    }
}

/// Writes every byte of a buffer.
pub fn show_bytes(sheet: &[u8]) {
    println!("bytes {}", sheet.iter().map(|byte| format!("{byte:02x}")).collect::<String>());
}

/// Four plots, the last to come far off the old map and of more cells than 32 bits count.
pub fn sheets() {
    let mut sheet = [0u8; 208];
    sheet[..5].copy_from_slice(b"plots");
    let mut len = kx::sheet_start(&mut sheet, 5).unwrap();
    println!("start: 0 length {len}");
    for plot in [DIAMOND, UNEVEN, FIELD, COUNTY] {
        len = kx::sheet_insert(&mut sheet, len, &plot).unwrap();
        println!("insert {}: 0 length {len}", plot.number);
    }
    println!("insert 7 again: {}", number(&kx::sheet_insert(&mut sheet, len, &FIELD)));
    println!("insert 8, no room: {}", number(&kx::sheet_insert(&mut sheet, len, &Plot { number: 8, ..FIELD })));
    println!("check: 0 count {}", kx::sheet_check(&sheet, len).unwrap());
    listing(&sheet, len);
    for k in 1..5 {
        show_record(&format!("record {k}"), kx::sheet_fetch(&sheet, len, k));
    }
    show_record("read 0", kx::sheet_read(&sheet, len, 0));
    show_record("read 4", kx::sheet_read(&sheet, len, 4));
    sheet[5] = 0;
    show_record("record 1 where number 7 is 0", kx::sheet_fetch(&sheet, len, 1));
    show_record("read 1 where number 7 is 0", kx::sheet_read(&sheet, len, 1));
    sheet[len - 1] = b'E';
    listing(&sheet, len);
    show_record("read 1 where letters are wrong", kx::sheet_read(&sheet, len, 1));
}

/// A heading and document 01's plots 7 and 11407, in records of [`kx::BASE_RECORD`] bytes.
const BASE: &[u8; 67] = b"old\
    \x07\0\0\0\x02\0\xff\xff\x03\0\0\0\x01\0\0\0\x03\0\0\0\x01\0\0\0\
    \x8f\x2c\0\0\0\0\0\0\0\0\x01\0\0\0\x01\0\0\0\x01\0\0\0\x01\0\
    \x30\0\0\0\x02\0\0\0\x18\0\0\0GRND";

/// One plot more: the whole sheet is written anew, in the same buffer.
pub fn base_sheets() {
    let mut sheet = [0xeeu8; 160];
    let (len, plot) = (BASE.len(), Plot { number: 258, ..UNEVEN });
    sheet[..len].copy_from_slice(BASE);
    println!("check: 0 count {}", kx::sheet_check(&sheet, len).unwrap());
    listing(&sheet, len);
    show_record("record 0", kx::sheet_fetch(&sheet, len, 0));
    show_record("read 1", kx::sheet_read(&sheet, len, 1));
    println!("insert 258, room for 46 more: {}", number(&kx::sheet_insert(&mut sheet[..len + kx::RECORD], len, &plot)));
    println!("insert 258, one byte short: {}", number(&kx::sheet_insert(&mut sheet[..156], len, &plot)));
    show_bytes(&sheet);
    let len = kx::sheet_insert(&mut sheet[..157], len, &plot).unwrap();
    println!("insert 258: 0 length {len}");
    show_bytes(&sheet);
    listing(&sheet, len);
    show_record("record 1", kx::sheet_fetch(&sheet, len, 1));
}

/// The answer to a sheet of [`kx::FEE_RECORD`] with one plot, the cell (x, 0).
fn old_cell(x: i32) -> u32 {
    let mut sheet = *b"\x01\0\0\0\0\0\0\0\0\0\0\0\0\0\0\0\0\0\0\0\0\0\0\0\0\0\x1a\0\0\0\x01\0\0\0\x1a\0\0\0GRND";
    sheet[4..6].copy_from_slice(&(x as i16).to_le_bytes());
    number(&kx::sheet_check(&sheet, sheet.len()))
}

/// As many plots as a sheet has room for, a copy of them with [`kx::FEE_RECORD`] bytes a record, and one more in either.
fn fullest(sheet: &mut [u8]) {
    let (mut len, mut plot) = (kx::sheet_start(sheet, 0).unwrap(), Plot { number: 1, fee_row: 1, ..Plot::default() });
    let past = loop {
        match kx::sheet_insert(sheet, len, &plot) {
            Ok(grown) => len = grown,
            Err(why) => break why.number(),
        }
        plot.number += 1;
    };
    let mut copy = vec![0; kx::SHEET_LIMIT];
    let copied = kx::sheet_convert(sheet, len, &mut copy).unwrap();
    let more = number(&kx::sheet_insert(&mut copy, copied, &plot));
    println!("plots that fit {}: length {len}, one more: {past}; copied: length {copied}, one more: {more}", plot.number - 1);
}

/// The constants: what is answered at a limit, and one past it.
pub fn limits() {
    let mut sheet = vec![0; kx::SHEET_LIMIT];
    let (map, folds, full) = (kx::MAP_LIMIT, kx::FOLD_LIMIT, kx::SHEET_LIMIT - kx::TRAILER);
    let cell = |x| number(&kx::to_octagon(&[x, 0], &[0; 8]));
    println!("map limit {map}: {}, one more: {}", cell(map), cell(map + 1));
    println!("old map limit {}: {}, one more: {}", kx::OLD_LIMIT, old_cell(kx::OLD_LIMIT), old_cell(kx::OLD_LIMIT + 1));
    let fold = |n| number(&kx::dilate_n(&ORIGIN, &ORIGIN, n));
    println!("fold limit {folds}: {}, one more: {}", fold(folds), fold(folds + 1));
    let (radii, tree) = (kx::RADIUS_LIMIT, |radius| number(&kx::clearance(0, 0, radius)));
    println!("radius limit {radii}: {}, one more: {}", tree(radii), tree(radii + 1));
    let len = kx::sheet_start(&mut sheet, full).unwrap();
    println!("sheet limit {}: 0, one more: {}, length {len}", kx::SHEET_LIMIT, number(&kx::sheet_start(&mut sheet, full + 1)));
    let len = kx::sheet_start(&mut sheet, 0).unwrap();
    let check = |n| number(&kx::sheet_check(&sheet, n));
    println!("trailer {len}: {}, one less: {}", check(kx::TRAILER), check(kx::TRAILER - 1));
    let (base, fee, county) = (kx::BASE_RECORD, kx::FEE_RECORD, kx::COUNTY_RECORD);
    let mut named = |each: usize| {
        sheet[len - 8] = each as u8;
        number(&kx::sheet_check(&sheet, len))
    };
    let [at, past] = [0, 1].map(|more| [base, fee, county].map(|each| named(each + more)));
    println!("record lengths {base} {fee} {county}: {}, one more each: {}", words(&at), words(&past));
    let long = kx::RECORD;
    named(long);
    let (two, plot) = (kx::TRAILER + long, Plot { number: 1, fee_row: 1, ..Plot::default() });
    let grown = kx::sheet_insert(&mut sheet[..two], len, &plot).unwrap();
    let next = kx::sheet_insert(&mut sheet[..two + long - 1], grown, &Plot { number: 2, ..plot });
    println!("record {long}: 0, one less: {}, length {grown}", number(&next));
    fullest(&mut sheet);
}
