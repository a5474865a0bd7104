//! Width records with names: document 02's Ask 6 held to cases worked by hand.

use crate::chance::Chance;
use crate::examples::{changed, font, named_record, placed, tabled, width_record, written, Parts};
use crate::lines::{answer, DESK, LONG};
use crate::widening::{narrow, widen};
use crate::widths::{Found, Table};

// ---- building tables ----

/// A record of a font without a check sum, at scale 100; its character is as wide as that.
fn entry(name: &[u8], code: u8, escapement: i16) -> Vec<u8> {
    named_record(0, 100, name, code, escapement, [0, 16, 0, 0])
}

/// The escapement of a character in such a font.
fn looked(table: &[u8], name: &[u8], code: i32) -> String {
    match Table::check(table) {
        Ok(table) => match table.look_up(0, 100, name, code) {
            Some(found) => found.escapement.to_string(),
            None => "absent".to_string(),
        },
        Err(refusal) => refusal.to_string(),
    }
}

/// Names of 16 bytes and fewer are its beginnings.
const LETTERS: &[u8; 16] = b"abcdefghijklmnop";

/// Both kinds of entries for one font, and another font beside it.
fn mixed() -> Vec<u8> {
    [
        entry(b"", 65, 1),
        entry(b"", 66, 2),
        entry(b"cmr10", 65, 11),
        entry(b"cmr10", 67, 13),
        entry(b"cmr12", 65, 21),
        entry(b"cmr12", 68, 24),
    ]
    .concat()
}

// ---- the table: 14 ----

#[test]
fn a_record_byte_by_byte() {
    let record = [
        &[0x4b, 0xf1, 0x60, 0x79, 0, 10, 0, 0][..], // check sum, scale
        &[b'c', b'm', b'r', b'1', b'0', 0, 0, 0, 0, 0, 0], // the name's first eleven bytes
        &[0; 5],                                    // and its last five
        &[65, 0, 255, 254, 0, 12, 0, 1],            // code, zero, escapement, width
    ]
    .concat();
    assert_eq!(record.len(), 32);
    assert_eq!(record, named_record(0x4bf1_6079, 655_360, b"cmr10", 65, -2, [0, 12, 0, 1]));
    let table = Table::check(&record).unwrap();
    assert_eq!(table.count(), 1);
    let found = Found { escapement: -2, width: [0, 12, 0, 1] };
    assert_eq!(table.look_up(0x4bf1_6079, 655_360, b"cmr10", 65), Some(found));
    assert_eq!(table.look_up(0x4bf1_6079, 655_360, b"", 65), None);
    for length in 1..32 {
        assert_eq!(tabled(&record[..length]), "refused 14 at 0");
    }
}

/// Whether the record of `cmr10` stays right with this byte at this place.
fn stays_right(at: usize, byte: u8) -> bool {
    match at {
        4 => byte <= 7,       // 134,217,727 is 7, 255, 255, 255
        7 => byte > 0,        // the scale would be 0
        8..=11 => byte > 0,   // a zero before the name's end
        14..=23 => byte == 0, // two places behind the name's end and more
        25 => byte == 0,
        28 => byte == 0 || byte == 255,
        // 12 and 13 make the name shorter or longer by a byte.
        _ => true,
    }
}

// Every byte of a record made every other byte, where it stands alone and where it stands between
// two others, above and below which it stays.
#[test]
fn every_byte_damaged() {
    let record = named_record(1, 100, b"cmr10", 65, 31, [0, 16, 0, 0]);
    let (first, last) = (width_record(0, 1, 0, 0, [0; 4]), width_record(u32::MAX, 100, 0, 0, [0; 4]));
    for at in 0..32 {
        for byte in 0..=255 {
            let damaged = changed(record.clone(), at, byte);
            let (alone, between) = if stays_right(at, byte) {
                ("right 1", "right 3")
            } else {
                ("refused 14 at 0", "refused 14 at 32")
            };
            assert_eq!(tabled(&damaged), alone, "{byte} at {at}");
            assert_eq!(tabled(&[&first[..], &damaged, &last].concat()), between, "{byte} at {at}");
            if !stays_right(at, byte) {
                assert_eq!(looked(&[&first[..], &damaged, &last].concat(), b"cmr10", 65), between);
            }
        }
    }
}

// All ways to set zeros among the sixteen bytes: only a row of others and then zeros is a name.
#[test]
fn zeros_in_names() {
    let mut right = 0;
    for zeros in 0..=u16::MAX {
        let name: Vec<u8> = (0..16).map(|at| if zeros >> at & 1 == 1 { 0 } else { LETTERS[at] }).collect();
        let answer = tabled(&entry(&name, 65, 31));
        // Zeros from some place to the end are the highest bits.
        if zeros.leading_ones() == zeros.count_ones() {
            assert_eq!(answer, "right 1");
            right += 1;
        } else {
            assert_eq!(answer, "refused 14 at 0", "{zeros:016b}");
        }
    }
    assert_eq!(right, 17);
    // Of the bytes that are no zeros none is out of place.
    for byte in 1..=255 {
        assert_eq!(tabled(&entry(&[byte; 16], 65, 31)), "right 1");
        assert_eq!(tabled(&entry(&[byte], 65, 31)), "right 1");
        assert_eq!(tabled(&entry(&[0, byte], 65, 31)), "refused 14 at 0");
    }
}

// 25 bytes have to rise: the name goes after the scale and before the code.
#[test]
fn the_order_of_records() {
    let rising = [
        entry(b"", 0, 0),
        entry(b"", 255, 0),
        entry(&[1], 0, 0),
        entry(b"a", 7, 0),
        entry(b"a", 8, 0),
        entry(b"aa", 3, 0),
        entry(b"ab", 2, 0),
        entry(&LETTERS[..15], 200, 0),
        entry(LETTERS, 100, 0),
        entry(b"abcdefghijklmnoq", 50, 0),
        entry(b"b", 1, 0),
        entry(&[127], 1, 0),
        entry(&[128], 1, 0),
        entry(&[255; 15], 1, 0),
        entry(&[255; 16], 0, 0),
        named_record(0, 101, b"", 0, 0, [0; 4]),
        named_record(0, 101, b"a", 0, 0, [0; 4]),
        named_record(1, 1, b"", 0, 0, [0; 4]),
    ];
    assert_eq!(tabled(&rising.concat()), "right 18");
    for (index, first) in rising.iter().enumerate() {
        for second in &rising[index + 1..] {
            assert_eq!(tabled(&[&first[..], second].concat()), "right 2");
            assert_eq!(tabled(&[&second[..], first].concat()), "refused 14 at 32");
        }
        // What stands behind the code does not count.
        let again = changed(changed(first.clone(), 27, 9), 31, 9);
        assert_eq!(tabled(&[&first[..], &again].concat()), "refused 14 at 32");
    }
    // The first wrong record is told, whatever is wrong with later ones.
    let table = [entry(b"a", 1, 0), entry(b"b", 1, 0), entry(b"a", 1, 0), entry(b"\0a", 1, 0)].concat();
    assert_eq!(tabled(&table), "refused 14 at 64");
    assert_eq!(tabled(&[entry(b"a", 1, 0), entry(b"\0a", 1, 0)].concat()), "refused 14 at 32");
    assert_eq!(tabled(&[entry(b"\0a", 1, 0), entry(b"", 1, 0)].concat()), "refused 14 at 0");
    assert_eq!(tabled(&[entry(b"a", 1, 0), vec![0]].concat()), "refused 14 at 32");
}

// ---- looking up ----

#[test]
fn own_entries_go_first() {
    for (name, found) in [
        // For the codes 65 to 69.
        (&b"cmr10"[..], ["11", "2", "13", "absent", "absent"]),
        (b"cmr12", ["21", "2", "absent", "24", "absent"]),
        (b"cmr", ["1", "2", "absent", "absent", "absent"]),
        (b"cmr1", ["1", "2", "absent", "absent", "absent"]),
        (b"cmr11", ["1", "2", "absent", "absent", "absent"]),
        (b"cmr100", ["1", "2", "absent", "absent", "absent"]),
        (b"CMR10", ["1", "2", "absent", "absent", "absent"]),
        (b"", ["1", "2", "absent", "absent", "absent"]),
    ] {
        for (code, wanted) in (65..70).zip(found) {
            assert_eq!(looked(&mixed(), name, code), wanted, "{name:?} {code}");
            // Only the code's last byte counts, under either kind of entry.
            assert_eq!(looked(&mixed(), name, code - 256), wanted);
            assert_eq!(looked(&mixed(), name, code + 0x0100_0000), wanted);
        }
    }
}

// Neither kind needs the other.
#[test]
fn one_kind_alone() {
    let any = [entry(b"", 65, 1), entry(b"", 66, 2)].concat();
    assert_eq!((looked(&any, b"cmr10", 65), looked(&any, b"", 66)), ("1".into(), "2".into()));
    let own = entry(b"cmr10", 65, 11);
    assert_eq!((looked(&own, b"cmr10", 65), looked(&own, b"", 65)), ("11".into(), "absent".into()));
    assert_eq!(looked(&own, b"cmr12", 65), "absent");
    assert_eq!(looked(&[], b"cmr10", 65), "absent");
}

// The name does not make up for another check sum or scale.
#[test]
fn check_sum_and_scale() {
    let table = [
        named_record(0, 100, b"", 65, 1, [0; 4]),
        named_record(0, 100, b"a", 65, 2, [0; 4]),
        named_record(0, 200, b"", 66, 3, [0; 4]),
        named_record(7, 100, b"a", 65, 4, [0; 4]),
    ]
    .concat();
    let table = Table::check(&table).unwrap();
    let look_up = |check_sum, scale, name: &[u8], code| {
        table.look_up(check_sum, scale, name, code).map(|found| found.escapement)
    };
    assert_eq!(look_up(0, 100, b"a", 65), Some(2));
    assert_eq!(look_up(0, 100, b"b", 65), Some(1));
    assert_eq!(look_up(7, 100, b"a", 65), Some(4));
    assert_eq!(look_up(7, 100, b"b", 65), None);
    assert_eq!(look_up(0, 200, b"a", 65), None);
    assert_eq!(look_up(0, 200, b"a", 66), Some(3));
    assert_eq!(look_up(7, 200, b"a", 66), None);
    assert_eq!(look_up(0, 0, b"a", 65), None);
}

// Entries for names of 1, 15 and 16 bytes, and one for any name.
#[test]
fn lengths_of_names() {
    let table = [
        entry(b"", 65, 0),
        entry(&LETTERS[..1], 65, 1),
        entry(&LETTERS[..15], 65, 15),
        entry(LETTERS, 65, 16),
        entry(b"abcdefghijklmnoq", 65, 17), // another last byte
    ]
    .concat();
    for length in 0..=16 {
        let wanted = if [1, 15, 16].contains(&length) { length } else { 0 };
        assert_eq!(looked(&table, &LETTERS[..length], 65), wanted.to_string(), "{length}");
    }
    assert_eq!(looked(&table, b"abcdefghijklmnoq", 65), "17");
    assert_eq!(looked(&table, b"abcdefghijklmnor", 65), "0");
    // Longer names begin with sixteen bytes that stand in the table, and are others all the same.
    for length in [17, 18, 32, 255, 256, 1_000] {
        let mut name = LETTERS.to_vec();
        name.resize(length, b'q');
        assert_eq!(looked(&table, &name, 65), "0", "{length}");
        assert_eq!(looked(&table, &name, 66), "absent", "{length}");
        assert_eq!(looked(&table[32..], &name, 65), "absent", "{length}");
        // Zeros behind the sixteenth byte do not end the name there.
        name[16..].fill(0);
        assert_eq!(looked(&table, &name, 65), "0", "{length}");
        assert_eq!(looked(&table[32..], &name, 65), "absent", "{length}");
    }
    // The greatest and the least bytes.
    let table = [entry(&[1; 16], 65, 1), entry(&[255; 16], 65, 255)].concat();
    assert_eq!((looked(&table, &[1; 16], 65), looked(&table, &[255; 16], 65)), ("1".into(), "255".into()));
    assert_eq!(looked(&table, &[255; 15], 65), "absent");
}

// A zero byte anywhere in the name: what stands before it is not the name, and neither is the
// name nothing.
#[test]
fn names_with_zero_bytes() {
    let own: Vec<u8> = (1..=16).flat_map(|length| entry(&LETTERS[..length], 65, length as i16)).collect();
    let table = [entry(b"", 65, 0), own.clone()].concat();
    for length in 1..=16 {
        assert_eq!(looked(&table, &LETTERS[..length], 65), length.to_string());
        for at in 0..length {
            let name = changed(LETTERS[..length].to_vec(), at, 0);
            assert_eq!(looked(&table, &name, 65), "0", "{length} {at}");
            assert_eq!(looked(&own, &name, 65), "absent", "{length} {at}");
        }
    }
    for length in [1, 2, 15, 16, 17, 255] {
        assert_eq!(looked(&table, &vec![0; length], 65), "0", "{length}");
        assert_eq!(looked(&own, &vec![0; length], 65), "absent", "{length}");
    }
}

// ---- placing ----

/// A font without a check sum, at scale 100.
fn plain_font(number: i64, area: &str, name: &str) -> Vec<u8> {
    font(1, number, 0, 100, 100, area, name)
}

/// In this font this character, which is only put and moves nothing.
fn put(number: u8, code: u8) -> Vec<u8> {
    vec![235, number, 133, code]
}

fn page_of(fonts: &[Vec<u8>], commands: &[Vec<u8>]) -> Vec<u8> {
    Parts::with_font(fonts.concat(), commands.concat()).build()
}

/// What `placed` answers where all stays at the page's corner: font, code and escapement of each
/// record, and the end.
fn lines(records: &[(u8, u8, i16)], missing: usize) -> Vec<String> {
    let mut lines: Vec<String> = records
        .iter()
        .map(|(font, code, escapement)| format!("c 1 {font} 0 0 {code} {escapement}"))
        .collect();
    lines.push(format!("end {} {missing} 0", records.len()));
    lines
}

// Two fonts of one check sum and scale on one page, at 3/10 of a pixel. Their letters A measure
// 75 and 50 units.
#[test]
fn two_fonts_under_one_key() {
    let rule = vec![137, 0, 0, 0, 1, 0, 0, 0, 1];
    let fonts = [plain_font(1, "", "cmr10"), plain_font(2, "", "cmtt10")];
    let file = page_of(&fonts, &[vec![172, 65, 65, 173, 65, 65], rule]);
    let roman = named_record(0, 100, b"cmr10", 65, 23, [0, 12, 0, 0]);
    let typewriter = named_record(0, 100, b"cmtt10", 65, 15, [0, 8, 0, 0]);
    let wanted = [
        "c 1 1 0 0 65 23",  // then h 75, hh 23
        "c 1 1 23 0 65 23", // then h 150, hh 46
        "c 1 2 46 0 65 15", // then h 200, hh 61
        "c 1 2 61 0 65 15", // then h 250, hh 76
        "r 1 0 76 0 1 1",
        "end 5 0 0",
    ];
    let both = [roman.clone(), typewriter.clone()].concat();
    assert_eq!(placed(&file, &both, 300, 1, 100), wanted);
    assert_eq!(placed(&file, &both, 300, 1, 99), ["refused 17 at 0"]);
    // One of the two known: the other's letters are missing, not the first's.
    let missing = ["c 1 1 0 0 65 23", "c 1 1 23 0 65 23", "r 1 0 46 0 1 1", "end 3 2 0"];
    assert_eq!(placed(&file, &roman, 300, 1, 60), missing);
    let missing = ["c 1 2 0 0 65 15", "c 1 2 15 0 65 15", "r 1 0 30 0 1 1", "end 3 2 0"];
    assert_eq!(placed(&file, &typewriter, 300, 1, 60), missing);
    // Without names there was room for one A, and both fonts took it.
    let old = nameless(&roman);
    let wrong = [
        "c 1 1 0 0 65 23",
        "c 1 1 23 0 65 23",
        "c 1 2 46 0 65 23", // then h 225, hh 69
        "c 1 2 69 0 65 23", // then h 300, hh 92
        "r 1 0 92 0 1 1",
        "end 5 0 0",
    ];
    assert_eq!(placed(&file, &widen(&old, 32).unwrap().concat(), 300, 1, 100), wrong);
    // The same table with the second font's own A beside it is right again.
    let mended = [widen(&old, 32).unwrap().concat(), typewriter].concat();
    assert_eq!(placed(&file, &mended, 300, 1, 100), wanted);
}

// Each character falls back, or does not, for itself: before and after others, and again.
#[test]
fn character_by_character() {
    let fonts = [plain_font(1, "", "cmr10"), plain_font(2, "", "cmr12"), plain_font(3, "", "cmr17")];
    let commands: Vec<Vec<u8>> = [
        (1, 65),
        (1, 66),
        (1, 67),
        (1, 68), // missing
        (1, 66),
        (1, 65),
        (2, 66),
        (2, 65),
        (2, 67), // missing
        (2, 68),
        (3, 65),
        (3, 66),
        (3, 67), // missing
        (1, 67),
    ]
    .map(|(number, code)| put(number, code))
    .to_vec();
    let wanted = [
        (1, 65, 11),
        (1, 66, 2),
        (1, 67, 13),
        (1, 66, 2),
        (1, 65, 11),
        (2, 66, 2),
        (2, 65, 21),
        (2, 68, 24),
        (3, 65, 1),
        (3, 66, 2),
        (1, 67, 13),
    ];
    assert_eq!(placed(&page_of(&fonts, &commands), &mixed(), 300, 1, 60_000), lines(&wanted, 3));
}

// The area is no part of the name, even where area and name together read alike.
#[test]
fn areas_of_fonts() {
    let fonts = [
        plain_font(1, "", "cmr10"),
        plain_font(2, "cm", "r10"),
        plain_font(3, "cmr10", ""),
        plain_font(4, "c", "mr10"),
        plain_font(5, "tex:", "cmr10"),
        plain_font(6, "TeXfonts:", "cmr10"),
        plain_font(7, "cmr10", "r10"),
    ];
    let commands: Vec<Vec<u8>> = (1..=7).map(|number| put(number, 65)).collect();
    let file = page_of(&fonts, &commands);
    let own = [entry(b"cmr10", 65, 11), entry(b"r10", 65, 12)].concat();
    let wanted = [(1, 65, 11), (2, 65, 12), (5, 65, 11), (6, 65, 11), (7, 65, 12)];
    assert_eq!(placed(&file, &own, 300, 1, 60_000), lines(&wanted, 2));
    let table = [entry(b"", 65, 10), own].concat();
    let wanted = [(1, 65, 11), (2, 65, 12), (3, 65, 10), (4, 65, 10), (5, 65, 11), (6, 65, 11), (7, 65, 12)];
    assert_eq!(placed(&file, &table, 300, 1, 60_000), lines(&wanted, 0));
    // An area longer than a record's name, one with a zero byte, and the longest.
    for area in ["a".repeat(17), "a\0b".into(), "\0".into(), "c".repeat(255)] {
        let file = page_of(&[plain_font(1, &area, "cmr10")], &[put(1, 65)]);
        assert_eq!(placed(&file, &table, 300, 1, 20), lines(&[(1, 65, 11)], 0));
    }
}

#[test]
fn names_in_files() {
    let q = |count: usize| "q".repeat(count);
    let letters = std::str::from_utf8(LETTERS).unwrap();
    let table = [
        entry(b"", 65, 0),
        entry(b"a", 65, 1),
        entry(&LETTERS[..15], 65, 15),
        entry(LETTERS, 65, 16),
        entry(&[b'q'; 16], 65, 26),
        entry("zoé".as_bytes(), 65, 4),
    ]
    .concat();
    let names = [
        ("".to_string(), 0),
        ("a".to_string(), 1),
        (letters[..15].to_string(), 15),
        (letters.to_string(), 16),
        (letters.to_string() + "q", 0),
        (letters.to_string() + "\0", 0),
        (letters[..15].to_string() + "\0", 0),
        ("a\0".to_string(), 0),
        ("\0".to_string(), 0),
        ("\0a".to_string(), 0),
        ("\0".repeat(16), 0),
        (q(15), 0),
        (q(16), 26),
        (q(17), 0),
        (q(255), 0),
        ("zoé".to_string(), 4),
    ];
    for (name, escapement) in names {
        let spelled: String = name.bytes().map(|byte| format!("{byte:02x}")).collect();
        // In every form of the definition, and in another one after *post*.
        for bytes in 1..=4 {
            let whole = Parts::with_font(font(bytes, 3, 0, 100, 100, "ab", &name), put(3, 65));
            let file = Parts { last: font(5 - bytes, 3, 0, 100, 100, "ab", &name), ..whole }.build();
            assert_eq!(placed(&file, &table, 300, 1, 20), lines(&[(3, 65, escapement)], 0), "{spelled}");
            let wanted = if escapement == 0 { lines(&[], 1) } else { lines(&[(3, 65, escapement)], 0) };
            assert_eq!(placed(&file, &table[32..], 300, 1, 20), wanted, "{spelled}");
        }
        // The look-up by itself finds the same.
        assert_eq!(looked(&table, name.as_bytes(), 65), escapement.to_string(), "{spelled}");
    }
}

// The table is judged as ever, after the resolution and before the page, though the page makes
// no use of it.
#[test]
fn wrong_tables_and_pages() {
    let file = page_of(&[plain_font(1, "", "cmr10")], &[]);
    let wrong = [entry(b"", 65, 0), entry(b"a\0b", 65, 0)].concat();
    assert_eq!(placed(&file, &wrong, 0, 0, 0), ["refused 12 at 0"]);
    assert_eq!(placed(&file, &wrong, 501, 0, 0), ["refused 13 at 0"]);
    assert_eq!(placed(&file, &wrong, 300, 0, 0), ["refused 14 at 32"]);
    assert_eq!(placed(&file, &wrong[..32], 300, 0, 0), ["refused 15 at 0"]);
    assert_eq!(placed(&file, &wrong[..32], 300, 1, 0), ["end 0 0 0"]);
    assert_eq!(placed(&file, &old_records(&[65, 66]), 300, 1, 0), ["refused 14 at 0"]);
}

// ---- from one form to the other ----

/// The record without its name, as tables once had it.
fn nameless(record: &[u8]) -> Vec<u8> {
    [&record[..8], &record[24..]].concat()
}

/// A table in the old form, of one font.
fn old_records(codes: &[u8]) -> Vec<u8> {
    codes.iter().flat_map(|code| nameless(&entry(b"", *code, 31))).collect()
}

fn widened(table: &[u8], area: u64) -> String {
    match widen(table, area) {
        Ok(records) => format!("{} records", records.len()),
        Err(refusal) => refusal.to_string(),
    }
}

fn narrowed(table: &[u8], area: u64) -> String {
    match narrow(table, area) {
        Ok(records) => format!("{} records", records.len()),
        Err(refusal) => refusal.to_string(),
    }
}

#[test]
fn widened_byte_by_byte() {
    let old = [
        [0, 0, 0, 0, 0, 0, 0, 100, 65, 0, 0, 31, 0, 16, 0, 0],
        [255, 254, 253, 252, 7, 255, 255, 255, 255, 0, 128, 1, 255, 1, 2, 3],
    ];
    let new = [
        vec![0, 0, 0, 0, 0, 0, 0, 100],
        vec![0; 16],
        vec![65, 0, 0, 31, 0, 16, 0, 0],
        vec![255, 254, 253, 252, 7, 255, 255, 255],
        vec![0; 16],
        vec![255, 0, 128, 1, 255, 1, 2, 3],
    ]
    .concat();
    assert_eq!(widen(&old.concat(), 64).unwrap().concat(), new);
    assert_eq!(tabled(&new), "right 2");
    assert_eq!(narrow(&new, 32).unwrap().concat(), old.concat());
    assert_eq!(widen(&[], 0), Ok(vec![]));
    assert_eq!(narrow(&[], 0), Ok(vec![]));
}

#[test]
fn areas_of_tables() {
    for count in 0..=5 {
        let codes: Vec<u8> = (0..count).collect();
        let (old, records) = (old_records(&codes), format!("{count} records"));
        let new = widen(&old, u64::MAX).unwrap().concat();
        let count = u64::from(count);
        for more in [0, 1, 16, u64::MAX - 32 * count] {
            assert_eq!(widened(&old, 32 * count + more), records);
            assert_eq!(narrowed(&new, 16 * count + more), records);
        }
        for area in 0..32 * count {
            assert_eq!(widened(&old, area), "refused 17 at 0");
        }
        for area in 0..16 * count {
            assert_eq!(narrowed(&new, area), "refused 17 at 0");
        }
    }
}

// The rules of the form that is given: 14 at its own places, whatever the area.
#[test]
fn wrong_tables() {
    for area in [0, 63, 64, 60_000] {
        assert_eq!(widened(&old_records(&[1, 2, 2]), area), "refused 14 at 32");
        assert_eq!(widened(&old_records(&[2, 1]), area), "refused 14 at 16");
        assert_eq!(widened(&[old_records(&[2, 3]), vec![0]].concat(), area), "refused 14 at 32");
        for length in 1..16 {
            assert_eq!(widened(&old_records(&[2])[..length], area), "refused 14 at 0");
            assert_eq!(widened(&old_records(&[2, 3])[..16 + length], area), "refused 14 at 16");
        }
        let new = [entry(b"", 1, 0), entry(b"", 2, 0)].concat();
        for length in (1..32).chain(33..64) {
            let place = length / 32 * 32;
            assert_eq!(narrowed(&new[..length], area), format!("refused 14 at {place}"));
        }
        assert_eq!(narrowed(&[&new[..], &new[32..]].concat(), area), "refused 14 at 64");
        assert_eq!(narrowed(&entry(b"a\0b", 1, 0), area), "refused 14 at 0");
        assert_eq!(narrowed(&[&new[..32], &entry(b"\0b", 2, 0)].concat(), area), "refused 14 at 32");
    }
}

// Every byte of an old record made every other byte.
#[test]
fn every_byte_of_the_old_form_damaged() {
    let record = nameless(&width_record(1, 100, 65, 31, [0, 16, 0, 0]));
    let first = nameless(&width_record(0, 1, 0, 0, [0; 4]));
    for at in 0..16 {
        for byte in 0..=255 {
            let right = match at {
                4 => byte <= 7,
                7 => byte > 0,
                9 => byte == 0,
                12 => byte == 0 || byte == 255,
                _ => true,
            };
            let damaged = changed(record.clone(), at, byte);
            let (alone, behind) =
                if right { ("1 records", "2 records") } else { ("refused 14 at 0", "refused 14 at 16") };
            assert_eq!(widened(&damaged, 64), alone, "{byte} at {at}");
            assert_eq!(widened(&[&first[..], &damaged].concat(), 64), behind, "{byte} at {at}");
        }
    }
}

// 24 at the first record with a name, after 14 anywhere and before 17.
#[test]
fn names_do_not_go_back() {
    let table = [entry(b"", 1, 0), entry(b"", 2, 0), entry(b"a", 1, 0), entry(b"b", 1, 0)].concat();
    for area in [0, 1, 63, 64, 128, u64::MAX] {
        assert_eq!(narrowed(&table, area), "refused 24 at 64");
        assert_eq!(narrowed(&table[64..], area), "refused 24 at 0");
        assert_eq!(narrowed(&table[32..], area), "refused 24 at 32");
        assert_eq!(narrowed(&[&table[..], &[0]].concat(), area), "refused 14 at 128");
        assert_eq!(narrowed(&[&table[..], &entry(b"b", 1, 0)].concat(), area), "refused 14 at 128");
        assert_eq!(narrowed(&[&table[..], &entry(b"c\0c", 1, 0)].concat(), area), "refused 14 at 128");
        // Names of every length, of which one byte is enough.
        for length in 1..=16 {
            let name = &LETTERS[..length];
            assert_eq!(narrowed(&[&table[..32], &entry(name, 1, 0)].concat(), area), "refused 24 at 32");
        }
        // A zero name may follow under another scale; what goes before decides.
        let later = named_record(1, 100, b"", 1, 0, [0; 4]);
        assert_eq!(narrowed(&[&table[..], &later].concat(), area), "refused 24 at 64");
    }
    assert_eq!(narrowed(&table[..64], 31), "refused 17 at 0");
    assert_eq!(narrowed(&table[..64], 32), "2 records");
}

// No table is right in both forms but the one without records: the zero behind a code would be
// in a name before bytes that are not zero, and a name's last zeros would be a scale.
#[test]
fn forms_are_not_mistaken() {
    for count in 1..6 {
        let codes: Vec<u8> = (65..65 + count).collect();
        let old = old_records(&codes);
        assert_eq!(tabled(&old), "refused 14 at 0");
        assert_eq!(narrowed(&old, 1_000), "refused 14 at 0");
        let new = widen(&old, 1_000).unwrap().concat();
        assert_eq!(widened(&new, 1_000), "refused 14 at 16");
    }
    assert_eq!(widened(&entry(b"a", 65, 31), 1_000), "refused 14 at 16");
    assert_eq!(widened(&entry(b"ab", 65, 31), 1_000), "refused 14 at 0");
    assert_eq!(widened(&entry(LETTERS, 65, 31), 1_000), "refused 14 at 0");
}

// ---- by chance ----

const NAMES: [&[u8]; 8] =
    [b"", b"a", b"b", b"ab", b"aaaaaaaaaaaaaaa", b"aaaaaaaaaaaaaaaa", b"aaaaaaaaaaaaaaab", b"\xff"];

/// Names that no record has.
const OTHER_NAMES: [&[u8]; 6] = [b"c", b"\0", b"a\0", b"a\0b", b"aaaaaaaaaaaaaaa\0", b"aaaaaaaaaaaaaaaaa"];

/// A right table of a few records, and what each holds: check sum, scale, name, code, escapement.
type Entry = (u32, i64, &'static [u8], u8, i16);

fn table_by_chance(chance: &mut Chance, names: usize) -> (Vec<Entry>, Vec<u8>) {
    let mut entries: Vec<Entry> = (0..chance.below(20))
        .map(|_| {
            let (check_sum, scale) = (chance.below(2) as u32, 1 + chance.below(2) as i64);
            (check_sum, scale, NAMES[chance.below(names)], chance.below(3) as u8, chance.below(100) as i16)
        })
        .collect();
    // Names without zeros are in the order of their fields.
    entries.sort();
    entries.dedup_by_key(|entry| (entry.0, entry.1, entry.2, entry.3));
    let table = entries.iter().flat_map(|e| named_record(e.0, e.1, e.2, e.3, e.4, [0; 4])).collect();
    (entries, table)
}

// Both steps of the look-up, said over the list of entries.
#[test]
fn tables_by_chance() {
    let mut chance = Chance(1);
    let (mut own, mut fallen, mut absent) = (0, 0, 0);
    for _ in 0..1_000 {
        let (entries, bytes) = table_by_chance(&mut chance, NAMES.len());
        assert_eq!(tabled(&bytes), format!("right {}", entries.len()));
        let table = Table::check(&bytes).unwrap();
        for name in NAMES.iter().chain(&OTHER_NAMES) {
            for (check_sum, scale, code) in (0..12).map(|n| (n / 6, 1 + i64::from(n / 3 % 2), (n % 3) as u8))
            {
                let under = |name: &[u8]| {
                    let sought = (check_sum, scale, name, code);
                    entries.iter().find(|e| (e.0, e.1, e.2, e.3) == sought).map(|e| e.4)
                };
                let found = table.look_up(check_sum, scale as u32, name, code.into());
                let wanted = match (under(name), under(b"")) {
                    (Some(escapement), _) => (&mut own, Some(escapement)),
                    (None, Some(escapement)) => (&mut fallen, Some(escapement)),
                    (None, None) => (&mut absent, None),
                };
                assert_eq!(found.map(|found| found.escapement), wanted.1);
                *wanted.0 += 1;
            }
        }
        // The way back stands open only where all are for any name.
        let named = entries.iter().position(|entry| !entry.2.is_empty());
        match (named, narrow(&bytes, 10_000)) {
            (Some(index), answer) => {
                assert_eq!(answer.unwrap_err().to_string(), format!("refused 24 at {}", 32 * index));
            }
            (None, answer) => assert_eq!(widen(&answer.unwrap().concat(), 10_000).unwrap().concat(), bytes),
        }
    }
    assert!(own > 1_000 && fallen > 1_000 && absent > 1_000);
}

/// Looking up as it was without names.
fn old_look_up(old: &[u8], check_sum: u32, scale: u32, code: u8) -> Option<Found> {
    let key = [&check_sum.to_be_bytes()[..], &scale.to_be_bytes(), &[code]].concat();
    let record = old.chunks(16).find(|record| record[..9] == key)?;
    let escapement = i16::from_be_bytes([record[10], record[11]]);
    Some(Found { escapement, width: [record[12], record[13], record[14], record[15]] })
}

// There and back: the same bytes, as many records, and on the way what was found before is found
// under every name.
#[test]
fn both_ways_and_back() {
    let mut chance = Chance(2);
    for _ in 0..1_000 {
        let (entries, bytes) = table_by_chance(&mut chance, 1);
        let old: Vec<u8> = bytes.chunks(32).flat_map(nameless).collect();
        let wide = widen(&old, 10_000).unwrap();
        assert_eq!(wide.len(), entries.len());
        assert_eq!(wide.concat(), bytes);
        let back = narrow(&wide.concat(), 10_000).unwrap();
        assert_eq!(back.len(), entries.len());
        assert_eq!(back.concat(), old);
        let table = Table::check(&bytes).unwrap();
        for name in NAMES.iter().chain(&OTHER_NAMES) {
            for (check_sum, scale, code) in (0..12).map(|n| (n / 6, 1 + n / 3 % 2, (n % 3) as u8)) {
                let found = table.look_up(check_sum, scale, name, code.into());
                assert_eq!(found, old_look_up(&old, check_sum, scale, code));
            }
        }
    }
}

// Tables changed at a few bytes: a name or a fault, and never a table that goes wrong later.
#[test]
fn changed_by_chance() {
    let mut chance = Chance(3);
    let mut counts = [0; 3];
    for _ in 0..100_000 {
        let mut table = mixed();
        for _ in 0..1 + chance.below(3) {
            let at = chance.below(table.len());
            table[at] = if chance.below(2) == 0 { chance.below(256) as u8 } else { 0 };
        }
        table.truncate(32 * (1 + chance.below(6)));
        match (Table::check(&table), narrow(&table, 10_000)) {
            (Err(refusal), answer) => {
                assert_eq!((refusal.number, refusal.place % 32), (14, 0));
                assert_eq!(answer, Err(refusal));
                counts[0] += 1;
            }
            (Ok(_), Err(refusal)) => {
                let at = refusal.place as usize;
                assert!(refusal.number == 24 && at % 32 == 0 && table[at + 8] != 0);
                assert!(table[..at].chunks(32).all(|record| record[8..24] == [0; 16]));
                counts[1] += 1;
            }
            (Ok(_), Ok(records)) => {
                assert_eq!(widen(&records.concat(), 10_000).unwrap().concat(), table);
                counts[2] += 1;
            }
        }
    }
    assert!(counts.iter().all(|count| *count > 100), "{counts:?}");
}

// ---- lines ----

#[test]
fn look_asked() {
    let sixteen = entry(LETTERS, 65, 16);
    let table = written("mixed.table", &[sixteen, mixed()[64..].to_vec()].concat());
    let wrong = written("wrong.table", &[entry(b"", 65, 1), entry(b"a\0b", 65, 1)].concat());
    let old = written("old.table", &old_records(&[65, 66]));
    let ask = |line: &str, limits| {
        let line = line.replace("TABLE", &table).replace("WRONG", &wrong).replace("OLD", &old);
        answer(line.as_bytes(), limits)
    };
    for (line, wanted) in [
        ("table TABLE", "right 5"),
        ("table WRONG", "refused 14 at 32"),
        ("table OLD", "refused 14 at 0"),
        ("look TABLE 0 100 636d723130 65", "found 11 0 16 0 0"),
        ("look TABLE 0 100 636d723130 -191", "found 11 0 16 0 0"),
        ("look TABLE 0 100 636d723132 65", "found 21 0 16 0 0"),
        ("look TABLE 0 100 636d723132 67", "absent"),
        ("look TABLE 0 100 6162636465666768696a6b6c6d6e6f70 65", "found 16 0 16 0 0"),
        ("look TABLE 0 100 6162636465666768696a6b6c6d6e6f7070 65", "absent"),
        ("look TABLE 0 100 6162636465666768696a6b6c6d6e6f7000 65", "absent"),
        ("look TABLE 0 100 6162636465666768696a6b6c6d6e6f 65", "absent"),
        ("look TABLE 0 100 - 65", "absent"),
        ("look TABLE 0 100 2d 65", "absent"),
        ("look TABLE 0 100 00 65", "absent"),
        ("look TABLE 0 0 - 65", "absent"),
        ("look WRONG 0 100 - 65", "refused 14 at 32"),
        ("look WRONG 0 100 610062 65", "refused 14 at 32"),
        ("look OLD 0 100 - 65", "refused 14 at 0"),
        // No name at all, as the line was without names.
        ("look TABLE 0 100 65", "no input"),
        ("look TABLE 0 100  65", "no input"),
        ("look TABLE 0 100 636d723130", "no input"),
        ("look TABLE 0 100 636d723130 65 ", "no input"),
        ("look TABLE 0 100 636d723130 65 65", "no input"),
        // Half a byte; signs that are no digits; capital letters.
        ("look TABLE 0 100 6 65", "no input"),
        ("look TABLE 0 100 636d72313 65", "no input"),
        ("look TABLE 0 100 636d72313g 65", "no input"),
        ("look TABLE 0 100 g36d723130 65", "no input"),
        ("look TABLE 0 100 636D723130 65", "no input"),
        ("look TABLE 0 100 6A 65", "no input"),
        ("look TABLE 0 100 A6 65", "no input"),
        ("look TABLE 0 100 0x61 65", "no input"),
        ("look TABLE 0 100 +1 65", "no input"),
        ("look TABLE 0 100 -- 65", "no input"),
        ("look TABLE 0 100 -61 65", "no input"),
        ("look TABLE 0 100 61- 65", "no input"),
        ("look TABLE 0 100 cmr10 65", "no input"),
        ("look TABLE 0 100 é 65", "no input"),
        ("look WRONG 0 100 6 65", "no input"),
        ("look TABLE 4294967296 100 - 65", "no input"),
        ("look TABLE 0 4294967296 - 65", "no input"),
        ("look TABLE 0 100 - 2147483648", "no input"),
        ("look nowhere 0 100 - 65", "no input"),
        ("look nowhere 0 100 6 65", "no input"),
    ] {
        assert_eq!(ask(line, DESK), wanted, "{line:?}");
        assert_eq!(ask(line, LONG), wanted, "{line:?}");
    }
    // Every pair of signs: two of the sixteen digits or no name.
    for first in b'!'..=b'~' {
        for second in b'!'..=b'~' {
            let digits = [first, second].iter().all(|sign| b"0123456789abcdef".contains(sign));
            let line = format!("look TABLE 0 100 {}{} 65", first as char, second as char);
            assert_eq!(ask(&line, DESK), if digits { "absent" } else { "no input" }, "{line:?}");
        }
    }
    for (length, desk) in [(17, "absent"), (254, "absent"), (255, "absent"), (256, "no input")] {
        let line = format!("look TABLE 0 100 {} 65", "61".repeat(length));
        assert_eq!(ask(&line, DESK), desk);
        assert_eq!(ask(&line, LONG), "absent");
    }
}

// Whatever is read is read as the bytes that are meant: each of the 255, alone.
#[test]
fn every_name_of_one_byte_asked() {
    let table: Vec<u8> = (1..=255).flat_map(|byte| entry(&[byte], 65, byte.into())).collect();
    let table = written("bytes.table", &table);
    for byte in 1..=255 {
        let line = format!("look {table} 0 100 {byte:02x} 65");
        assert_eq!(answer(line.as_bytes(), DESK), format!("found {byte} 0 16 0 0"));
    }
}

#[test]
fn widen_and_narrow_asked() {
    let old = written("narrow.table", &old_records(&[65, 66]));
    let new = written("wide.table", &[entry(b"", 65, 31), entry(b"", 66, 31)].concat());
    let named = written("named.table", &mixed());
    let empty = written("none.table", &[]);
    let ask = |line: &str, limits| {
        let line = line.replace("OLD", &old).replace("NEW", &new);
        answer(line.replace("NAMED", &named).replace("EMPTY", &empty).as_bytes(), limits)
    };
    let wide = "0000000000000064000000000000000000000000000000004100001f00100000\n\
                0000000000000064000000000000000000000000000000004200001f00100000\n\
                end 2";
    let slim = "00000000000000644100001f00100000\n00000000000000644200001f00100000\nend 2";
    for (line, wanted) in [
        ("widen OLD 64", wide),
        ("widen OLD 00064", wide),
        ("widen OLD 60000", wide),
        ("widen OLD 63", "refused 17 at 0"),
        ("widen OLD 0", "refused 17 at 0"),
        ("widen EMPTY 0", "end 0"),
        ("widen NEW 60000", "refused 14 at 16"),
        ("widen NAMED 0", "refused 14 at 16"),
        ("narrow NEW 32", slim),
        ("narrow NEW 60000", slim),
        ("narrow NEW 31", "refused 17 at 0"),
        ("narrow NEW 0", "refused 17 at 0"),
        ("narrow EMPTY 0", "end 0"),
        ("narrow NAMED 60000", "refused 24 at 64"),
        ("narrow NAMED 0", "refused 24 at 64"),
        ("narrow OLD 0", "refused 14 at 0"),
        ("widen OLD", "no input"),
        ("widen OLD ", "no input"),
        ("widen OLD 64 ", "no input"),
        ("widen OLD 64 64", "no input"),
        ("widen  OLD 64", "no input"),
        ("widen OLD -1", "no input"),
        ("widen OLD +64", "no input"),
        ("widen OLD 0x40", "no input"),
        ("Widen OLD 64", "no input"),
        ("widens OLD 64", "no input"),
        ("widen nowhere 64", "no input"),
        ("widen / 64", "no input"),
        ("widen", "no input"),
        ("narrow NEW", "no input"),
        ("narrow NEW ", "no input"),
        ("narrow NEW 32 32", "no input"),
        ("narrow NEW -1", "no input"),
        ("narrow  32", "no input"),
        ("narrow nowhere 32", "no input"),
        ("narrow / 0", "no input"),
        ("narrows NEW 32", "no input"),
        ("narrow", "no input"),
    ] {
        assert_eq!(ask(line, DESK), wanted, "{line:?}");
        assert_eq!(ask(line, LONG), wanted, "{line:?}");
    }
    for area in ["60001", "18446744073709551615"] {
        for (line, wanted) in [(format!("widen OLD {area}"), wide), (format!("narrow NEW {area}"), slim)] {
            assert_eq!(ask(&line, DESK), "no input");
            assert_eq!(ask(&line, LONG), wanted);
        }
    }
    assert_eq!(ask("widen OLD 18446744073709551616", LONG), "no input");
    assert_eq!(ask("narrow NEW 18446744073709551616", LONG), "no input");
}

// Tables as long as the desk takes them, and one byte or one record more.
#[test]
fn lengths_of_tables() {
    let records = |count: u32| -> Vec<u8> {
        (0..count).flat_map(|number| width_record(number, 100, 65, 31, [0; 4])).collect()
    };
    let old_of = |new: &[u8]| -> Vec<u8> { new.chunks(32).flat_map(nameless).collect() };
    let last_line = |line: &str, limits| answer(line.as_bytes(), limits).lines().last().unwrap().to_string();
    let path = written("long.table", &[]);
    let (widen, narrow) = (format!("widen {path} 60000"), format!("narrow {path} 60000"));
    let widen_long = format!("widen {path} 131104");
    // 60,000 bytes hold 1,875 records of the new form.
    for (count, wanted) in [(1_875, "end 1875"), (1_876, "refused 17 at 0"), (4_096, "refused 17 at 0")] {
        std::fs::write(&path, old_of(&records(count))).unwrap();
        assert_eq!(last_line(&widen, DESK), wanted);
        assert_eq!(last_line(&widen_long, LONG), format!("end {count}"));
    }
    std::fs::write(&path, old_of(&records(4_097))).unwrap();
    assert_eq!(last_line(&widen, DESK), "no input");
    assert_eq!(last_line(&widen_long, LONG), "end 4097");
    // 65,536 bytes are 2,048 records of the new form, and half of that is an area's length at most.
    std::fs::write(&path, records(2_048)).unwrap();
    assert_eq!(last_line(&narrow, DESK), "end 2048");
    assert_eq!(last_line(&format!("table {path}"), DESK), "right 2048");
    assert_eq!(last_line(&format!("look {path} 2047 100 61 65"), DESK), "found 31 0 0 0 0");
    std::fs::write(&path, records(2_049)).unwrap();
    assert_eq!(last_line(&narrow, LONG), "end 2049");
    for line in [&narrow, &format!("table {path}"), &format!("look {path} 2047 100 61 65")] {
        assert_eq!(last_line(line, DESK), "no input");
    }
    // One byte more is no whole record.
    for line in [&widen, &narrow] {
        std::fs::write(&path, &records(2_049)[..65_537]).unwrap();
        assert_eq!(last_line(line, DESK), "no input");
    }
    assert_eq!(last_line(&narrow, LONG), "refused 14 at 65536");
}

// A page and its table through the desk: a name with an area, both kinds of entries.
#[test]
fn place_asked() {
    let fonts = [plain_font(1, "tex:", "cmr10"), plain_font(2, "", "cmr12")];
    let commands = [put(1, 65), put(2, 65), put(1, 66), put(2, 67)];
    let file = written("named.dvi", &page_of(&fonts, &commands));
    let table = written("placed.table", &mixed());
    let old = written("placed.old", &old_records(&[65, 66]));
    let wanted = "c 1 1 0 0 65 11\nc 1 2 0 0 65 21\nc 1 1 0 0 66 2\nend 3 1 0";
    let ask = |line: String| answer(line.as_bytes(), DESK);
    assert_eq!(ask(format!("place {file} {table} 300 1 60")), wanted);
    assert_eq!(ask(format!("place {file} {table} 300 1 59")), "refused 17 at 0");
    assert_eq!(ask(format!("place {file} {old} 300 1 60")), "refused 14 at 0");
    // The name that `spell` tells has its area; the look-up's has not.
    assert_eq!(ask(format!("spell {file} 1")), "spelled 7465783a636d723130");
    assert_eq!(ask(format!("look {table} 0 100 7465783a636d723130 65")), "found 1 0 16 0 0");
    assert_eq!(ask(format!("look {table} 0 100 636d723130 65")), "found 11 0 16 0 0");
}
