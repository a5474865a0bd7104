//! The worked examples of document 01, and cases beside them.

use crate::chance::Chance;
use crate::check::check;
use crate::fonts::name_of_font;
use crate::lines::{answer, DESK, LONG};
use crate::numbers::signed;
use crate::placing::{place, record_line};
use crate::units::{round_distance, Unit};
use crate::widths::{scale_width, Table};

// ---- building files ----

fn four(number: i64) -> [u8; 4] {
    (number as u32).to_be_bytes()
}

/// A font definition; the number in `bytes` bytes.
pub fn font(bytes: u8, number: i64, check_sum: u32, s: i64, d: i64, area: &str, name: &str) -> Vec<u8> {
    let mut out = vec![242 + bytes];
    out.extend(&four(number)[4 - usize::from(bytes)..]);
    out.extend(check_sum.to_be_bytes());
    out.extend(four(s));
    out.extend(four(d));
    out.extend([area.len() as u8, name.len() as u8]);
    out.extend(area.bytes());
    out.extend(name.bytes());
    out
}

pub struct Parts {
    pub first: Vec<u8>,      // between pre and the first bop
    pub pages: Vec<Vec<u8>>, // the insides of the pages
    pub last: Vec<u8>,       // between post and post_post
    pub units: [i64; 3],
    pub depth: u16, // s in post
}

pub fn parts() -> Parts {
    Parts { first: vec![], pages: vec![vec![]], last: vec![], units: [254, 1, 1000], depth: 0 }
}

impl Parts {
    pub fn build(&self) -> Vec<u8> {
        let units: Vec<u8> = self.units.iter().flat_map(|unit| four(*unit)).collect();
        let mut out = vec![247, 2];
        out.extend(&units);
        out.push(0);
        out.extend(&self.first);
        let mut previous = -1;
        for page in &self.pages {
            let at = out.len() as i64;
            out.push(139);
            out.extend([0; 40]);
            out.extend(four(previous));
            out.extend(page);
            out.push(140);
            previous = at;
        }
        let post = out.len() as i64;
        out.push(248);
        out.extend(four(previous));
        out.extend(&units);
        out.extend([0; 8]);
        out.extend(self.depth.to_be_bytes());
        out.extend((self.pages.len() as u16).to_be_bytes());
        out.extend(&self.last);
        out.push(249);
        out.extend(four(post));
        out.push(2);
        out.extend([223; 4]);
        out
    }

    pub fn with_font(definition: Vec<u8>, page: Vec<u8>) -> Parts {
        Parts { first: definition.clone(), pages: vec![page], last: definition, ..parts() }
    }
}

pub fn m() -> Vec<u8> {
    parts().build()
}

pub fn changed(mut file: Vec<u8>, at: usize, byte: u8) -> Vec<u8> {
    file[at] = byte;
    file
}

pub fn checked(file: &[u8]) -> String {
    match check(file) {
        Ok(s) => format!("{} {} {} {}", s.pages.len(), s.fonts.len(), s.greatest_depth, s.post),
        Err(refusal) => refusal.to_string(),
    }
}

pub fn placed(file: &[u8], table: &[u8], resolution: u32, page: u32, area: u64) -> Vec<String> {
    match place(file, table, resolution, page, area) {
        Ok(placed) => {
            let mut lines: Vec<String> = placed.records.iter().map(record_line).collect();
            let (missing, specials) = (placed.missing, placed.specials);
            lines.push(format!("end {} {missing} {specials}", placed.records.len()));
            lines
        }
        Err(refusal) => vec![refusal.to_string()],
    }
}

/// A width record for any name.
pub fn width_record(check_sum: u32, scale: i64, code: u8, escapement: i16, width: [u8; 4]) -> Vec<u8> {
    named_record(check_sum, scale, b"", code, escapement, width)
}

pub fn named_record(
    check_sum: u32,
    scale: i64,
    name: &[u8],
    code: u8,
    escapement: i16,
    width: [u8; 4],
) -> Vec<u8> {
    let mut out = check_sum.to_be_bytes().to_vec();
    out.extend(four(scale));
    out.extend(name);
    out.resize(24, 0);
    out.extend([code, 0]);
    out.extend(escapement.to_be_bytes());
    out.extend(width);
    out
}

pub fn tabled(table: &[u8]) -> String {
    match Table::check(table) {
        Ok(table) => format!("right {}", table.count()),
        Err(refusal) => refusal.to_string(),
    }
}

// ---- document 01's examples ----

// M, the least file there is: one page with nothing on it.
#[test]
fn m_itself() {
    let file = m();
    assert_eq!(file.len(), 100);
    assert_eq!([file[0], file[15], file[60], file[61], file[90]], [247, 139, 140, 248, 249]);
    assert_eq!(file[96..], [223; 4]);
}

// M is right, and stays so with more padding.
#[test]
fn m_accepted() {
    assert_eq!(checked(&m()), "1 0 0 61");
    assert_eq!(checked(&[m(), vec![223]].concat()), "1 0 0 61");
}

// M cut inside its padding, inside its last command, and down to nothing.
#[test]
fn m_cut() {
    assert_eq!(checked(&m()[..99]), "refused 11 at 99");
    assert_eq!(checked(&m()[..95]), "refused 2 at 90");
    assert_eq!(checked(&[]), "refused 2 at 0");
}

// M with a pop for its eop, a page too many in its count, and a wrong pointer at the end and at
// the page.
#[test]
fn m_changed() {
    assert_eq!(checked(&changed(m(), 60, 142)), "refused 6 at 60");
    assert_eq!(checked(&changed(m(), 89, 2)), "refused 10 at 61");
    assert_eq!(checked(&changed(m(), 94, 60)), "refused 9 at 90");
    let mut file = m();
    file[56..60].copy_from_slice(&[0; 4]);
    assert_eq!(checked(&file), "refused 9 at 15");
}

// No page at all; another format.
#[test]
fn post_without_a_page_and_identification() {
    assert_eq!(checked(&[&m()[..15], &m()[61..90]].concat()), "refused 5 at 15");
    assert_eq!(checked(&Parts { pages: vec![], ..parts() }.build()), "refused 5 at 15");
    assert_eq!(checked(&changed(m(), 1, 3)), "refused 4 at 0");
}

// The greatest K that is allowed, the first that is not, and halves rounded away from zero.
#[test]
fn one_half() {
    assert_eq!(Unit::new(254, 1, 1000, 500).unwrap(), Unit { p: 1, q: 2 });
    assert_eq!(Unit::new(254, 1, 1000, 501).unwrap_err().to_string(), "refused 13 at 0");
    for (n, rounded) in [(1, 1), (-1, -1), (3, 2), (-3, -2), (0, 0)] {
        assert_eq!(round_distance(254, 1, 1000, 500, n), Ok(rounded));
    }
    assert_eq!(placed(&m(), &[], 500, 1, 0), ["end 0 0 0"]);
    assert_eq!(placed(&m(), &[], 501, 1, 0), ["refused 13 at 0"]);
}

// The units that TeX writes.
#[test]
fn tex_units() {
    let unit = Unit::new(25_400_000, 473_628_672, 1000, 300).unwrap();
    assert_eq!(unit, Unit { p: 625, q: 9_867_264 });
}

// Moves that make the pixel drift, on a page; `placing` tries the moves by themselves.
#[test]
fn six_moves_in_a_file() {
    for (step, hh) in [(5u8, 11), (251, -11)] {
        let definition = font(1, 0, 1, 100, 100, "", "f");
        let mut page = vec![171];
        page.extend([143, step].repeat(6));
        page.extend([vec![137], four(1).to_vec(), four(1).to_vec()].concat());
        page.extend([157, step].repeat(6));
        page.extend([vec![137], four(1).to_vec(), four(1).to_vec()].concat());
        let file = Parts::with_font(definition, page).build();
        let lines = placed(&file, &[], 300, 1, 40);
        assert_eq!(lines, [format!("r 1 0 {hh} 0 1 1"), format!("r 1 0 {hh} {hh} 1 1"), "end 2 0 0".into()]);
    }
}

// A usual width, the negative one nearest to zero, and one that a single division would give a
// unit too much.
#[test]
fn widths() {
    assert_eq!(scale_width(655_360, [0, 9, 199, 28]), Ok(400_497));
    assert_eq!(scale_width(100, [255, 255, 255, 255]), Ok(-1));
    assert_eq!(scale_width(8_388_609, [0, 16, 0, 0]), Ok(8_388_608));
    for (s, first) in [(0, 0), (134_217_728, 0), (1, 1), (1, 254)] {
        assert_eq!(scale_width(s, [first, 0, 0, 0]).unwrap_err().to_string(), "refused 14 at 0");
    }
    // 134,217,727 four times halved is 8,388,607, alpha 256, beta 1.
    assert_eq!(scale_width(134_217_727, [255, 0, 0, 0]), Ok(-256 * 8_388_607));
    // 255 z is 2,139,094,785; / 256 is 8,355,839; plus 255 z is 2,147,450,624; / 256 is
    // 8,388,479; plus 255 z:
    assert_eq!(scale_width(134_217_727, [0, 255, 255, 255]), Ok(2_147_483_264));
}

/// A file of this test run alone.
pub fn written(name: &str, bytes: &[u8]) -> String {
    let folder = concat!(env!("CARGO_MANIFEST_DIR"), "/target/tried");
    std::fs::create_dir_all(folder).unwrap();
    let path = format!("{folder}/{name}");
    std::fs::write(&path, bytes).unwrap();
    path
}

fn printed_example() -> Vec<u8> {
    let mut page = [143, 5].repeat(6);
    page.push(132);
    page.extend(four(4));
    page.extend(four(7));
    page.push(137);
    page.extend(four(1));
    page.extend(four(1));
    Parts { pages: vec![page], ..parts() }.build()
}

// The one answer that document 01 prints line by line; its second line is that of document 02,
// since the bar of 2.1 pixels is passed by 3.
#[test]
fn the_printed_example() {
    let file = written("printed.dvi", &printed_example());
    let table = written("empty.table", &[]);
    let line = format!("place {file} {table} 300 1 60000");
    let whole = "r 1 0 9 0 2 3\nr 1 0 12 0 1 1\nend 2 0 0";
    assert_eq!(answer(line.as_bytes(), DESK), whole);
    assert_eq!(answer(line.as_bytes(), LONG), whole);
}

// ---- beside the document's examples ----

#[test]
fn order_at_one_command() {
    // 2 before 4: the first command is not pre and does not fit.
    assert_eq!(checked(&[139]), "refused 2 at 0");
    // 3 before 4.
    assert_eq!(checked(&[250]), "refused 3 at 0");
    assert_eq!(checked(&[138]), "refused 4 at 0");
    assert_eq!(checked(&m()[..14]), "refused 2 at 0");
    assert_eq!(checked(&m()[..15]), "refused 2 at 15");
    assert_eq!(checked(&m()[..60]), "refused 2 at 60");
    assert_eq!(checked(&m()[..90]), "refused 2 at 90");
    assert_eq!(checked(&changed(m(), 60, 255)), "refused 3 at 60");
    // 4: each unit, zero and negative.
    for at in [2, 6, 10] {
        let mut file = m();
        file[at..at + 4].copy_from_slice(&[0; 4]);
        assert_eq!(checked(&file), "refused 4 at 0");
        file[at..at + 4].copy_from_slice(&[128, 0, 0, 1]);
        assert_eq!(checked(&file), "refused 4 at 0");
    }
    // 5 before 6 and 8: pop, eop, a selection and a character outside a page.
    for opcode in [142, 141, 140, 171, 65, 143, 147, 248, 249] {
        let mut file = m();
        file[15] = opcode;
        assert_eq!(checked(&file), "refused 5 at 15", "opcode {opcode}");
    }
    // A special outside a page; bop, pre, post and post_post inside.
    let special = Parts { first: vec![239, 0], ..parts() };
    assert_eq!(checked(&special.build()), "refused 5 at 15");
    for opcode in [139, 247, 248, 249] {
        let inside = Parts { pages: vec![[vec![opcode], vec![0; 44]].concat()], ..parts() };
        assert_eq!(checked(&inside.build()), "refused 5 at 60", "opcode {opcode}");
    }
    // 9 before 10 at post and post_post.
    assert_eq!(checked(&changed(changed(m(), 65, 16), 89, 2)), "refused 9 at 61");
    assert_eq!(checked(&changed(changed(m(), 94, 60), 95, 3)), "refused 9 at 90");
    assert_eq!(checked(&changed(m(), 95, 3)), "refused 10 at 90");
    for at in [69, 73, 77, 89] {
        assert_eq!(checked(&changed(m(), at, 77)), "refused 10 at 61");
    }
    // What no rule looks at: l, u and the counts in bop; and s, on whose bytes 86 and 87 a file
    // without a push makes no demand.
    for at in (16..56).chain(78..88) {
        assert_eq!(checked(&changed(m(), at, 77)), "1 0 0 61");
    }
    // 7 before 9 before 10 at post_post.
    let left_out = Parts { first: font(1, 7, 1, 1, 1, "", "n"), ..parts() }.build();
    let end = left_out.len() - 10;
    assert_eq!(checked(&left_out), format!("refused 7 at {end}"));
    assert_eq!(checked(&changed(left_out, end + 5, 3)), format!("refused 7 at {end}"));
}

#[test]
fn the_tail() {
    assert_eq!(checked(&m()[..96]), "refused 11 at 96");
    assert_eq!(checked(&changed(m(), 96, 0)), "refused 11 at 96");
    assert_eq!(checked(&changed(m(), 99, 222)), "refused 11 at 99");
    assert_eq!(checked(&[m(), vec![0]].concat()), "refused 11 at 100");
    assert_eq!(checked(&changed(m(), 97, 0)[..98]), "refused 11 at 97");
    // The length, before all.
    let mut long = m();
    long.resize(16_777_216, 223);
    assert_eq!(checked(&long), "1 0 0 61");
    long.push(223);
    assert_eq!(checked(&long), "refused 1 at 0");
    assert_eq!(checked(&vec![0; 16_777_217]), "refused 1 at 0");
}

#[test]
fn the_stack() {
    let deep = |pushes: usize, pops: usize, depth: u16| {
        let page = [vec![141; pushes], vec![142; pops]].concat();
        checked(&Parts { pages: vec![page], depth, ..parts() }.build())
    };
    assert_eq!(deep(100, 100, 100), "1 0 100 261");
    assert_eq!(deep(101, 101, 101), "refused 6 at 160");
    assert_eq!(deep(2, 1, 2), "refused 6 at 63");
    assert_eq!(deep(1, 2, 1), "refused 6 at 62");
    // A promise of more room gives no more room.
    assert_eq!(deep(101, 101, 65_535), "refused 6 at 160");
    assert_eq!(deep(1, 1, 0), "refused 10 at 63");
    assert_eq!(deep(1, 1, 1), "1 0 1 63");
    assert_eq!(deep(1, 1, 2), "1 0 1 63");
    assert_eq!(deep(100, 100, 99), "refused 10 at 261");
    assert_eq!(deep(100, 100, 101), "1 0 100 261");
    assert_eq!(deep(100, 100, 65_535), "1 0 100 261");
    // The greatest depth is of all pages.
    for (first, second) in [(2, 1), (1, 2), (2, 2)] {
        let page = |depth| [vec![141; depth], vec![142; depth]].concat();
        let two =
            |depth| checked(&Parts { pages: vec![page(first), page(second)], depth, ..parts() }.build());
        let post = 15 + 2 * 46 + 2 * (first + second);
        assert_eq!(two(1), format!("refused 10 at {post}"));
        for s in [2, 3, 101, 65_535] {
            assert_eq!(two(s), format!("2 0 2 {post}"));
        }
    }
}

// Each number that two bytes can hold: too small below the depth reached, right from there on.
// The answer tells the depth reached.
#[test]
fn every_depth_in_post() {
    for reached in [0, 1, 2] {
        let page = [vec![141; reached], vec![142; reached]].concat();
        let mut file = Parts { pages: vec![page], ..parts() }.build();
        let post = 61 + 2 * reached;
        for s in 0..=u16::MAX {
            file[post + 25..post + 27].copy_from_slice(&s.to_be_bytes());
            let wanted = if usize::from(s) < reached {
                format!("refused 10 at {post}")
            } else {
                format!("1 0 {reached} {post}")
            };
            assert_eq!(checked(&file), wanted, "s {s}");
        }
    }
}

// A push with its pop right behind it does nothing. With the pair left out and s kept, the file
// is still right, and its depth is that of the pushes left.
#[test]
fn pairs_left_out() {
    let given = |page: Vec<u8>, depth| checked(&Parts { pages: vec![page], depth, ..parts() }.build());
    assert_eq!(given(vec![141, 142], 1), "1 0 1 63");
    assert_eq!(given(vec![], 1), "1 0 0 61");
    assert_eq!(given(vec![141, 141, 142, 143, 5, 142], 2), "1 0 2 67");
    assert_eq!(given(vec![141, 143, 5, 142], 2), "1 0 1 65");
}

// What else is wrong in post is found whether s is too small, just right or more than needed.
#[test]
fn depth_beside_other_faults() {
    let file = |depth| Parts { pages: vec![vec![141, 142]], depth, ..parts() }.build();
    for s in [0, 1, 2, 101, 65_535] {
        // Pointer; num, den, mag; t; t and the pointer.
        assert_eq!(checked(&changed(file(s), 67, 16)), "refused 9 at 63", "s {s}");
        for at in [71, 75, 79, 91] {
            assert_eq!(checked(&changed(file(s), at, 77)), "refused 10 at 63", "s {s}");
        }
        assert_eq!(checked(&changed(changed(file(s), 67, 16), 91, 77)), "refused 9 at 63", "s {s}");
    }
    for s in [1, 2, 101, 65_535] {
        // Nothing follows from s for what stands behind it.
        assert_eq!(checked(&changed(file(s), 97, 3)), "refused 10 at 92", "s {s}");
        assert_eq!(checked(&file(s)[..101]), "refused 11 at 101", "s {s}");
    }
}

#[test]
fn many_pages() {
    let most = Parts { pages: vec![vec![]; 65_535], ..parts() };
    assert_eq!(checked(&most.build()), format!("65535 0 0 {}", 15 + 46 * 65_535));
    let more = Parts { pages: vec![vec![]; 65_536], ..parts() };
    assert_eq!(checked(&more.build()), format!("refused 10 at {}", 15 + 46 * 65_536));
}

#[test]
fn font_rules() {
    let given = |first: Vec<u8>, last: Vec<u8>| checked(&Parts { first, last, ..parts() }.build());
    let n = |bytes, number| font(bytes, number, 9, 100, 100, "a", "bc");
    // 19 bytes in the first form.
    assert_eq!(given(n(1, 255), n(1, 255)), "1 1 0 80");
    assert_eq!(given(n(4, 255), n(1, 255)), "1 1 0 83");
    assert_eq!(given(n(1, 255), n(3, 255)), "1 1 0 80");
    assert_eq!(given(n(2, 256), n(2, 256)), "refused 7 at 15");
    assert_eq!(given(n(4, -1), n(4, -1)), "refused 7 at 15");
    for size in [0, -1, 134_217_728] {
        let wrong = font(1, 1, 9, size, 100, "", "");
        assert_eq!(given(wrong.clone(), wrong), "refused 7 at 15");
        let wrong = font(1, 1, 9, 100, size, "", "");
        assert_eq!(given(wrong.clone(), wrong), "refused 7 at 15");
    }
    let greatest = font(1, 1, 9, 134_217_727, 134_217_727, "", "");
    assert_eq!(given(greatest.clone(), greatest), "1 1 0 77");
    // Twice before post; twice after; new after.
    assert_eq!(given([n(1, 1), n(1, 1)].concat(), n(1, 1)), "refused 7 at 34");
    assert_eq!(given(n(1, 1), [n(1, 1), n(1, 1)].concat()), "refused 7 at 128");
    assert_eq!(given(n(1, 1), n(1, 2)), "refused 7 at 109");
    assert_eq!(given(vec![], n(1, 2)), "refused 7 at 90");
    // Unlike after post.
    for unlike in [
        font(1, 1, 8, 100, 100, "a", "bc"),
        font(1, 1, 9, 101, 100, "a", "bc"),
        font(1, 1, 9, 100, 101, "a", "bc"),
        font(1, 1, 9, 100, 100, "ab", "c"),
        font(1, 1, 9, 100, 100, "a", "b"),
        font(1, 1, 9, 100, 100, "a", "bd"),
    ] {
        assert_eq!(given(n(1, 1), unlike), "refused 7 at 109");
    }
    // 64 and 65 fonts; the order after post may differ.
    let many = |count: i64| -> Vec<u8> { (0..count).flat_map(|k| n(1, k)).collect() };
    let back: Vec<u8> = (0..64).rev().flat_map(|k| n(1, k)).collect();
    assert_eq!(given(many(64), back), format!("1 64 0 {}", 61 + 64 * 19));
    assert_eq!(given(many(65), many(65)), format!("refused 7 at {}", 15 + 64 * 19));
    // Between pages and inside a page, nop too.
    let inside =
        Parts { pages: vec![[vec![138], n(1, 3), vec![174, 65]].concat(), vec![]], last: n(2, 3), ..parts() };
    assert_eq!(checked(&inside.build()), "2 1 0 129");
}

#[test]
fn selection_and_characters() {
    let definition = font(1, 200, 9, 100, 100, "", "");
    let given = |page: Vec<u8>| checked(&Parts::with_font(definition.clone(), page).build());
    // The page's inside begins at 15 + 16 + 45 = 76.
    assert_eq!(given(vec![235, 200, 0]), "1 1 0 80");
    assert_eq!(given(vec![238, 0, 0, 0, 200, 127]), "1 1 0 83");
    assert_eq!(given(vec![238, 255, 255, 255, 200]), "refused 8 at 76");
    assert_eq!(given(vec![236, 1, 200]), "refused 8 at 76");
    assert_eq!(given(vec![171]), "refused 8 at 76");
    assert_eq!(given(vec![0]), "refused 8 at 76");
    assert_eq!(given(vec![133, 0]), "refused 8 at 76");
    // Defined only later; selected only on the page before.
    let late = Parts {
        pages: vec![[vec![235, 200], definition.clone()].concat()],
        last: definition.clone(),
        ..parts()
    };
    assert_eq!(checked(&late.build()), "refused 8 at 60");
    let before =
        Parts { pages: vec![vec![235, 200, 65], vec![65]], ..Parts::with_font(definition.clone(), vec![]) };
    assert_eq!(checked(&before.build()), "refused 8 at 125");
}

#[test]
fn names() {
    let first = font(2, 5, 9, 100, 100, "area:", "name");
    let file =
        Parts { last: font(1, 5, 9, 100, 100, "area:", "name"), ..Parts::with_font(first, vec![]) }.build();
    let part = name_of_font(&file, 5).unwrap();
    assert_eq!(part, 32..41);
    assert_eq!(&file[part], b"area:name");
    assert_eq!(name_of_font(&file, 4).unwrap_err().to_string(), "refused 8 at 0");
    assert_eq!(name_of_font(&file, -251).unwrap_err().to_string(), "refused 8 at 0");
    assert_eq!(name_of_font(&file[..20], 5).unwrap_err().to_string(), "refused 2 at 15");
}

#[test]
fn rounding_refusals() {
    let refused = |num, den, mag, r| round_distance(num, den, mag, r, 1).unwrap_err().to_string();
    assert_eq!(refused(0, 1, 1, 0), "refused 4 at 0");
    assert_eq!(refused(1, -1, 1, 1), "refused 4 at 0");
    assert_eq!(refused(1, 1, i32::MIN, 1), "refused 4 at 0");
    assert_eq!(refused(i32::MAX, 1, i32::MAX, 0), "refused 12 at 0");
    assert_eq!(refused(1, 1, 1, 10_001), "refused 12 at 0");
    assert_eq!(refused(i32::MAX, 1, i32::MAX, 10_000), "refused 13 at 0");
    // P too great, though K is small enough: num is a prime.
    assert_eq!(refused(2_147_483_647, 2_147_483_646, 1, 1), "refused 13 at 0");
    // The greatest P allowed and one more.
    assert!(Unit::new(1_073_741_823, 2_147_483_647, 1, 1).is_ok());
    assert!(Unit::new(1_073_741_827, 2_147_483_647, 1, 1).is_err());
    assert_eq!(round_distance(254, 1, 1000, 500, i32::MIN), Ok(-1_073_741_824));
    assert_eq!(round_distance(254, 1, 1000, 500, i32::MAX), Ok(1_073_741_824));
}

// Rounded up, a distance comes to the least whole number of pixels not below it, on both sides
// of zero.
#[test]
fn rounding_up() {
    let unit = Unit::new(254, 1, 1000, 300).unwrap();
    for (n, up) in [(0, 0), (1, 1), (3, 1), (4, 2), (7, 3), (10, 3), (11, 4)] {
        assert_eq!(unit.rounded_up(n), up);
    }
    for (n, up) in [(-1, 0), (-3, 0), (-4, -1), (-7, -2), (-10, -3), (-11, -3)] {
        assert_eq!(unit.rounded_up(n), up);
    }
    let half = Unit::new(254, 1, 1000, 500).unwrap();
    let least = Unit::new(1, i32::MAX, 1, 1).unwrap();
    assert_eq!((half.rounded_up(i32::MAX.into()), half.rounded_up(i32::MIN.into())), (1 << 30, -1 << 30));
    assert_eq!((least.rounded_up(i32::MAX.into()), least.rounded_up(i32::MIN.into())), (1, 0));
    let tex = Unit::new(25_400_000, 473_628_672, 1000, 300).unwrap();
    let ends = [i32::MIN, i32::MIN + 1, i32::MAX - 1, i32::MAX];
    for unit in [unit, half, least, tex] {
        for n in (-2_000..=2_000).chain(ends).map(i64::from) {
            let (p, q) = (unit.p as i128, unit.q as i128);
            let up = i128::from(unit.rounded_up(n));
            let exact = p * i128::from(n);
            assert!(q * (up - 1) < exact && exact <= q * up, "{unit:?} {n}");
        }
    }
}

#[test]
fn tables() {
    let good = |code| width_record(1, 100, code, -3, [0, 16, 0, 0]);
    assert_eq!(tabled(&[]), "right 0");
    assert_eq!(tabled(&good(1)), "right 1");
    assert_eq!(tabled(&[good(1), good(2)].concat()), "right 2");
    assert_eq!(tabled(&[good(1), good(1)].concat()), "refused 14 at 32");
    assert_eq!(tabled(&[good(2), good(1)].concat()), "refused 14 at 32");
    assert_eq!(tabled(&good(1)[..31]), "refused 14 at 0");
    assert_eq!(tabled(&[good(1), vec![0]].concat()), "refused 14 at 32");
    assert_eq!(tabled(&changed(good(1), 25, 1)), "refused 14 at 0");
    assert_eq!(tabled(&changed(good(1), 28, 1)), "refused 14 at 0");
    assert_eq!(tabled(&changed(good(1), 28, 255)), "right 1");
    assert_eq!(tabled(&width_record(1, 0, 1, 0, [0; 4])), "refused 14 at 0");
    assert_eq!(tabled(&width_record(1, 134_217_728, 1, 0, [0; 4])), "refused 14 at 0");
    // As bytes: a check sum of 255... is above 127...
    let rising = [width_record(0x7fff_ffff, 5, 9, 0, [0; 4]), width_record(0xffff_ffff, 1, 0, 0, [0; 4])];
    assert_eq!(tabled(&rising.concat()), "right 2");

    let table = [good(1), good(255), width_record(2, 100, 1, 7, [255, 1, 2, 3])].concat();
    let table = Table::check(&table).unwrap();
    assert_eq!(table.look_up(1, 100, b"", 1).unwrap().escapement, -3);
    assert_eq!(table.look_up(1, 100, b"", -1).unwrap().width, [0, 16, 0, 0]);
    assert_eq!(table.look_up(2, 100, b"", 257).unwrap().width, [255, 1, 2, 3]);
    assert_eq!(table.look_up(2, 100, b"", -255).unwrap().escapement, 7);
    assert_eq!(table.look_up(1, 100, b"", 2), None);
    assert_eq!(table.look_up(1, 101, b"", 1), None);
    assert_eq!(table.look_up(3, 100, b"", 1), None);
}

fn character_table() -> Vec<u8> {
    // At s 100: widths 100, -100 and 50.
    [
        width_record(9, 100, 65, 31, [0, 16, 0, 0]),
        width_record(9, 100, 66, -30, [255, 240, 0, 0]),
        width_record(9, 100, 200, 40, [0, 8, 0, 0]),
    ]
    .concat()
}

fn page_of_font_3(page: Vec<u8>) -> Vec<u8> {
    Parts::with_font(font(1, 3, 9, 100, 100, "", ""), page).build()
}

#[test]
fn characters_placed() {
    let page = vec![
        174, // font 3
        65,  // hh 0; then h 100, hh 31
        65,  // hh 31; then h 200, hh 62
        128, 200, // hh 62; then h 250, hh 102, held to 75 + 2
        67,  // missing
        133, 66, // put at hh 77
        66, // hh 77; then h 150, hh 47 (45 + 2)
        239, 2, 1, 2, // special
        136, 255, 255, 255, 65, // put4 of a negative code
        129, 1, 65, // set2 of 321; then h 250, hh 78, held to 77
        135, 255, 255, 200, // put3
        240, 0, 0, 138, // special, nop
        134, 0, 67, // missing
    ];
    let lines = [
        "c 1 3 0 0 65 31",
        "c 1 3 31 0 65 31",
        "c 1 3 62 0 200 40",
        "c 1 3 77 0 66 -30",
        "c 1 3 77 0 66 -30",
        "c 1 3 47 0 -191 31",
        "c 1 3 47 0 321 31",
        "c 1 3 77 0 16777160 40",
        "end 8 2 2",
    ];
    let file = page_of_font_3(page);
    assert_eq!(placed(&file, &character_table(), 300, 1, 160), lines);
    assert_eq!(placed(&file, &character_table(), 300, 1, 159), ["refused 17 at 0"]);
    assert_eq!(placed(&file, &[], 300, 1, 0), ["end 0 10 2"]);
}

fn put_rule() -> Vec<u8> {
    [vec![137], four(1).to_vec(), four(1).to_vec()].concat()
}

#[test]
fn registers_and_stack_placed() {
    let rule = put_rule();
    let page = [
        &[148, 10][..], // w 10, h 10
        &[153, 30],     // x 30, h 40
        &[147],         // h 50
        &[152],         // h 80, hh 24
        &[162, 20],     // y 20, v 20
        &[167, 226],    // z -30, v -10
        &[161],         // v 10
        &[166],         // v -20, vv -6
        &rule,
        &[141],
        &[148, 0, 167, 0, 147, 166], // w 0, z 0
        &[143, 20, 157, 20],         // h 100, hh 30; v 0, vv 0
        &rule,
        &[142],
        &rule,
        &[147, 166], // h 90, hh 27; v -50, vv -15
        &rule,
    ]
    .concat();
    let file = Parts { pages: vec![vec![], page], depth: 1, ..parts() }.build();
    let lines = ["r 2 0 24 -6 1 1", "r 2 0 30 0 1 1", "r 2 0 24 -6 1 1", "r 2 0 27 -15 1 1", "end 4 0 0"];
    assert_eq!(placed(&file, &[], 300, 2, 80), lines);
    assert_eq!(placed(&file, &[], 300, 1, 0), ["end 0 0 0"]);
}

// More s than needed changes no answer about a file: not the check's, not a name's, not what a
// page holds or why it can't be placed. Too little is refused by all of them.
#[test]
fn more_depth_changes_no_answer() {
    let pages = vec![
        [vec![174, 141, 65, 157, 50, 141, 143, 5, 66, 142, 67], put_rule(), vec![142, 239, 1, 0, 65]]
            .concat(),
        // The second h leaves the range.
        [vec![141, 151], four(2_147_483_647).to_vec(), vec![147, 142]].concat(),
        put_rule(),
    ];
    let definition = font(1, 3, 9, 100, 100, "a", "bc");
    let made = |depth| {
        let whole = Parts::with_font(definition.clone(), vec![]);
        Parts { pages: pages.clone(), depth, ..whole }.build()
    };
    let answers = |depth| {
        let file = written(&format!("depth-{depth}.dvi"), &made(depth));
        let table = written("depth.table", &character_table());
        let mut lines = vec![format!("check {file}"), format!("name {file} 3"), format!("spell {file} 3")];
        for page in 0..=4 {
            for area in [0, 20, 60_000] {
                lines.push(format!("place {file} {table} 300 {page} {area}"));
            }
        }
        let answers: Vec<String> = lines.iter().map(|line| answer(line.as_bytes(), DESK)).collect();
        answers
    };
    let exact = answers(2);
    assert_eq!(exact[..3], ["accepted 3 1 2 214", "name 31 34", "spelled 616263"]);
    // The last of each page's three, from page 1 on.
    let first = "c 1 3 0 0 65 31\nc 1 3 33 15 66 -30\nr 1 0 31 15 1 1\nc 1 3 0 0 65 31\nend 4 1 1";
    assert_eq!(exact[8], first);
    assert_eq!(exact[11], "refused 16 at 156");
    assert_eq!(exact[14], "r 3 0 0 0 1 1\nend 1 0 0");
    assert_eq!(exact[17], "refused 15 at 0");
    for s in [3, 100, 101, 255, 256, 32_768, 65_535] {
        assert_eq!(answers(s), exact, "s {s}");
    }
    for s in [0, 1] {
        assert!(answers(s).iter().all(|line| line == "refused 10 at 214"), "s {s}");
    }
    // The records byte by byte.
    let records = |depth| place(&made(depth), &character_table(), 300, 1, 80).unwrap().records;
    for s in [3, 101, 65_535] {
        assert_eq!(records(s), records(2), "s {s}");
    }
}

// A pop gives the pixels back as they were, but leaves the font selected meanwhile.
#[test]
fn the_pixel_pair_is_saved() {
    let mut page = vec![174];
    page.extend([143, 5].repeat(6)); // h 30, hh 11
    page.push(141);
    page.extend([143, 100]); // far: h 130, hh 39
    page.push(142);
    page.extend(put_rule());
    let file = Parts { depth: 1, ..Parts::with_font(font(1, 3, 9, 100, 100, "", ""), page) };
    assert_eq!(placed(&file.build(), &[], 300, 1, 20), ["r 1 0 11 0 1 1", "end 1 0 0"]);
    let page = [vec![141, 174, 142], vec![65]].concat();
    let file = Parts { depth: 1, ..Parts::with_font(font(1, 3, 9, 100, 100, "", ""), page) };
    assert_eq!(placed(&file.build(), &character_table(), 300, 1, 20), ["c 1 3 0 0 65 31", "end 1 0 0"]);
}

#[test]
fn rules_without_area_and_far_sides() {
    let rule = |opcode: u8, a: i64, b: i64| [vec![opcode], four(a).to_vec(), four(b).to_vec()].concat();
    let page = [
        rule(132, 0, 10),  // h 10
        rule(132, 5, -20), // h -10
        rule(137, -1, 5),
        rule(137, 5, 0),
        rule(137, 2_147_483_647, 3), // at hh -3
    ]
    .concat();
    let file = Parts { pages: vec![page], ..parts() }.build();
    let lines = ["r 1 0 -3 0 644245095 1", "end 1 0 0"];
    assert_eq!(placed(&file, &[], 300, 1, 20), lines);
}

#[test]
fn order_of_placing() {
    // h leaves the range at 60 + 9 + 5; one record before it.
    let far = [put_rule(), vec![151, 127, 255, 255, 255], vec![147]].concat();
    let file = Parts { pages: vec![far], ..parts() }.build();
    let wrong = [0; 3];
    assert_eq!(placed(&file[..99], &wrong, 0, 0, 0), ["refused 2 at 76"]);
    assert_eq!(placed(&file, &wrong, 0, 0, 0), ["refused 12 at 0"]);
    assert_eq!(placed(&file, &wrong, 10_001, 0, 0), ["refused 12 at 0"]);
    assert_eq!(placed(&file, &wrong, 501, 0, 0), ["refused 13 at 0"]);
    assert_eq!(placed(&file, &wrong, 300, 0, 0), ["refused 14 at 0"]);
    assert_eq!(placed(&file, &[], 300, 0, 0), ["refused 15 at 0"]);
    assert_eq!(placed(&file, &[], 300, 2, 0), ["refused 15 at 0"]);
    assert_eq!(placed(&file, &[], 300, u32::MAX, 0), ["refused 15 at 0"]);
    assert_eq!(placed(&file, &[], 300, 1, 0), ["refused 16 at 74"]);
    // w may hold -2,147,483,648; h may not.
    let lowest = |h: u8| {
        let page = vec![143, h, 151, 128, 0, 0, 0];
        placed(&Parts { pages: vec![page], ..parts() }.build(), &[], 300, 1, 0)
    };
    assert_eq!(lowest(0), ["refused 16 at 62"]);
    assert_eq!(lowest(1), ["end 0 0 0"]);
    // A set character that leaves the range.
    let page = [vec![174, 146], four(2_147_483_600).to_vec(), vec![133, 65, 65]].concat();
    assert_eq!(placed(&page_of_font_3(page), &character_table(), 300, 1, 0), ["refused 16 at 84"]);
}

// ---- bars ----

/// Units and resolution for D 0, 1 and 2. What K rounds to is the same for all three.
type Measures = [([i64; 3], u32); 3];

const THREE_TENTHS: Measures = [([254, 1, 6000], 50), ([254, 1, 3000], 100), ([254, 1, 1000], 300)];
const ONE_HALF: Measures = [([254, 1, 10_000], 50), ([254, 1, 5000], 100), ([254, 1, 1000], 500)];
/// So small that every distance rounds to 0.
const TINY: Measures =
    [([1, 2_147_483_647, 1], 1), ([1, 2_147_483_647, 1], 100), ([1, 2_147_483_647, 1], 300)];

const NO_FONT: &[u8] = &[];
/// The selection of font 3, whose scale is 100.
const FONT_3: &[u8] = &[174];

fn bar(height: i64, width: i64) -> Vec<u8> {
    [vec![132], four(height).to_vec(), four(width).to_vec()].concat()
}

fn right(n: i64) -> Vec<u8> {
    [vec![146], four(n).to_vec()].concat()
}

/// hh behind each command in turn. A rule put there makes the last record of its page.
fn hh_behind_each((units, resolution): ([i64; 3], u32), select: &[u8], commands: &[Vec<u8>]) -> Vec<i32> {
    let hh_behind = |count: usize| {
        let page = [select.to_vec(), commands[..count].concat(), put_rule()].concat();
        let whole = Parts::with_font(font(1, 3, 9, 100, 100, "", ""), page);
        let placed = place(&Parts { units, depth: 1, ..whole }.build(), &[], resolution, 1, 60_000).unwrap();
        signed(&placed.records.last().unwrap()[4..8])
    };
    (1..=commands.len()).map(hh_behind).collect()
}

#[test]
fn measures_of_bars() {
    for (measures, p, q) in [
        (THREE_TENTHS, [3; 3], [10; 3]),
        (ONE_HALF, [1; 3], [2; 3]),
        // Three K's, but with each of them K x n is far below one half for every n.
        (TINY, [1, 1, 3], [254_000_000, 2_540_000, 2_540_000].map(|below| below * 2_147_483_647)),
    ] {
        for d in 0..3 {
            let ([num, den, mag], resolution) = measures[d];
            let unit = Unit::new(num as i32, den as i32, mag as i32, resolution).unwrap();
            assert_eq!(unit, Unit { p: p[d], q: q[d] });
        }
    }
}

// One bar at the page's start: K x b up, and K x b to the nearest, to which D 0 holds it. At s 100
// a move over 19 units of space to the right or 89 to the left is near, one over 20 or 90 far.
#[test]
fn one_bar() {
    for (b, up, nearest) in [
        (0, 0, 0),
        (1, 1, 0),
        (2, 1, 1),
        (3, 1, 1),
        (4, 2, 1),
        (5, 2, 2),
        (7, 3, 2),
        (10, 3, 3),
        (18, 6, 5),
        (19, 6, 6),
        (20, 6, 6),
        (21, 7, 6),
        (101, 31, 30),
        (-1, 0, 0),
        (-2, 0, -1),
        (-3, 0, -1),
        (-4, -1, -1),
        (-5, -1, -2),
        (-7, -2, -2),
        (-9, -2, -3),
        (-10, -3, -3),
        (-11, -3, -3),
        (-89, -26, -27),
        (-90, -27, -27),
        (-92, -27, -28),
        (-101, -30, -30),
    ] {
        for (measure, hh) in THREE_TENTHS.into_iter().zip([nearest, up, up]) {
            for select in [NO_FONT, FONT_3] {
                // Without an area it moves just the same.
                for height in [2_147_483_647, 4, 1, 0, -1, -2_147_483_648] {
                    assert_eq!(hh_behind_each(measure, select, &[bar(height, b)]), [hh], "{height} {b}");
                }
            }
        }
    }
}

// Bar upon bar, each a pixel's part wide: rounding up leads hh away from h until D stops it.
#[test]
fn bars_in_a_row() {
    for (measures, b, wanted) in [
        // Rounded h is 0 1 1 1 2 2 2 2 3 3; each bar adds 1.
        (
            THREE_TENTHS,
            1,
            [[0, 1, 1, 1, 2, 2, 2, 2, 3, 3], [1, 2, 2, 2, 3, 3, 3, 3, 4, 4], [1, 2, 3, 3, 4, 4, 4, 4, 5, 5]],
        ),
        // The same below zero; each bar adds 0.
        (
            THREE_TENTHS,
            -1,
            [
                [0, -1, -1, -1, -2, -2, -2, -2, -3, -3],
                [0, 0, 0, 0, -1, -1, -1, -1, -2, -2],
                [0, 0, 0, 0, 0, 0, 0, 0, -1, -1],
            ],
        ),
        // Rounded h is 1 1 2 2 3 3 4 4 5 5; each bar adds 1.
        (
            ONE_HALF,
            1,
            [[1, 1, 2, 2, 3, 3, 4, 4, 5, 5], [1, 2, 3, 3, 4, 4, 5, 5, 6, 6], [1, 2, 3, 4, 5, 5, 6, 6, 7, 7]],
        ),
        (
            ONE_HALF,
            -1,
            [
                [-1, -1, -2, -2, -3, -3, -4, -4, -5, -5],
                [0, 0, -1, -1, -2, -2, -3, -3, -4, -4],
                [0, 0, 0, 0, -1, -1, -2, -2, -3, -3],
            ],
        ),
        // Rounded h is 0 throughout.
        (TINY, 1, [[0; 10], [1; 10], [1, 2, 2, 2, 2, 2, 2, 2, 2, 2]]),
        (TINY, -1, [[0; 10]; 3]),
        (TINY, 214_748_364, [[0; 10], [1; 10], [1, 2, 2, 2, 2, 2, 2, 2, 2, 2]]),
        (TINY, -214_748_364, [[0; 10]; 3]),
        (THREE_TENTHS, 0, [[0; 10]; 3]),
        (TINY, 0, [[0; 10]; 3]),
    ] {
        for (measure, hh) in measures.into_iter().zip(wanted) {
            for select in [NO_FONT, FONT_3] {
                assert_eq!(hh_behind_each(measure, select, &vec![bar(1, b); 10]), hh, "{measure:?} {b}");
            }
        }
    }
}

// A tiny K, bars of all widths: what leads hh to the right is never taken back by a bar to the left.
#[test]
fn bars_of_a_tiny_unit() {
    let bars = [1, 0, -1, 2_147_483_647, 0, -2_147_483_647, -2_147_483_647].map(|b| bar(1, b));
    let wanted = [[0; 7], [1; 7], [1, 1, 1, 2, 2, 2, 2]];
    for (measure, hh) in TINY.into_iter().zip(wanted) {
        for select in [NO_FONT, FONT_3] {
            assert_eq!(hh_behind_each(measure, select, &bars), hh);
        }
    }
}

// D pulls hh back from either side, and to the side where it was. Halves round away from zero, so
// a bar across zero from -3 to 3 adds 3 pixels where rounded h grows by 4.
#[test]
fn bars_held_to_drift_on_both_sides() {
    let moves = |first: i64, times: usize, more: &[Vec<u8>]| [&vec![right(first); times], more].concat();
    // D 2. The rights: rounded h is -1 -1 -2 -2 -3 -3 -4, then -2. The bar: -4 + 3 against 2.
    let hh = hh_behind_each(ONE_HALF[2], FONT_3, &moves(-1, 7, &[right(4), bar(1, 6)]));
    assert_eq!(hh, [-1, -2, -3, -4, -5, -5, -6, -4, 0]);
    let hh = hh_behind_each(ONE_HALF[2], FONT_3, &moves(1, 7, &[right(-4), bar(1, -6)]));
    assert_eq!(hh, [1, 2, 3, 4, 5, 5, 6, 4, 0]);
    // D 1: -3 + 3 against 2.
    assert_eq!(hh_behind_each(ONE_HALF[1], FONT_3, &moves(-1, 3, &[bar(1, 6)])), [-1, -2, -3, 1]);
    assert_eq!(hh_behind_each(ONE_HALF[1], FONT_3, &moves(1, 3, &[bar(1, -6)])), [1, 2, 3, -1]);
    // D 0: rounded h.
    assert_eq!(hh_behind_each(ONE_HALF[0], FONT_3, &moves(-1, 3, &[bar(1, 6)])), [-1, -1, -2, 2]);
    assert_eq!(hh_behind_each(ONE_HALF[0], FONT_3, &moves(1, 3, &[bar(1, -6)])), [1, 1, 2, -2]);
    // The printed example beside a font: 11 + 3 against 11; from the left, -11 + 3 against -7.
    let hh = |step, b| hh_behind_each(THREE_TENTHS[2], FONT_3, &moves(step, 6, &[bar(4, b)]))[5..].to_vec();
    assert_eq!(hh(5, 7), [11, 13]);
    assert_eq!(hh(-5, 7), [-11, -8]);
    // 11 - 2 against 7; -11 - 2 against -11.
    assert_eq!(hh(5, -7), [11, 9]);
    assert_eq!(hh(-5, -7), [-11, -13]);
}

// right, w and x over the same distance as a bar move as they did: by rounded n beside a font, to
// rounded h without one.
#[test]
fn moves_over_space_beside_bars() {
    let commands = [
        bar(1, 1),      // h 1
        bar(1, 1),      // h 2
        vec![148, 4],   // w 4, h 6
        vec![147],      // h 10
        vec![153, 252], // x -4, h 6
        vec![152],      // h 2
        bar(1, 4),      // h 6, 2 pixels
        vec![143, 4],   // h 10
        vec![143, 252], // h 6
        bar(1, -4),     // h 2, -1 pixel
        right(19),      // h 21, near; rounded 5.7 is 6
        right(20),      // h 41, far
    ];
    let with = [1, 2, 3, 4, 3, 2, 4, 5, 4, 3, 8, 12];
    assert_eq!(hh_behind_each(THREE_TENTHS[2], FONT_3, &commands), with);
    let without = [1, 2, 2, 3, 2, 1, 3, 3, 2, 1, 6, 12];
    assert_eq!(hh_behind_each(THREE_TENTHS[2], NO_FONT, &commands), without);
    // Alone: 2.1 pixels are 2 over space, 3 past a bar.
    for select in [NO_FONT, FONT_3] {
        assert_eq!(hh_behind_each(THREE_TENTHS[2], select, &[bar(1, 7)]), [3]);
        for opcode in [143, 148, 153] {
            assert_eq!(hh_behind_each(THREE_TENTHS[2], select, &[vec![opcode, 7]]), [2]);
        }
    }
}

// No way at all over space is near beside a font and far without one. So it leaves a bar's lead or
// lag alone in the one case and ends it in the other.
#[test]
fn no_way_behind_a_bar() {
    for measure in &THREE_TENTHS[1..] {
        // At h 1 rounded h is 0; at h -2 it is -1.
        for (b, hh, rounded) in [(1, 1, 0), (-2, 0, -1)] {
            let behind = |select: &[u8], command: &[u8]| {
                hh_behind_each(*measure, select, &[bar(1, b), command.to_vec()])
            };
            let nothing: [&[u8]; 10] = [
                &[143, 0],
                &[144, 0, 0],
                &[145, 0, 0, 0],
                &[146, 0, 0, 0, 0],
                &[147],
                &[148, 0],
                &[151, 0, 0, 0, 0],
                &[152],
                &[153, 0],
                &[156, 0, 0, 0, 0],
            ];
            for command in nothing {
                assert_eq!(behind(FONT_3, command), [hh, hh], "{command:?}");
                assert_eq!(behind(NO_FONT, command), [hh, rounded], "{command:?}");
                // The font may have been selected meanwhile.
                assert_eq!(behind(NO_FONT, &[FONT_3, command].concat()), [hh, hh], "{command:?}");
            }
            // What does not move sideways, and bars of no width.
            let others: [&[u8]; 12] = [
                &[138],
                &[174],
                &[141, 142],
                &[239, 0],
                &[157, 0],
                &[157, 100],
                &[161],
                &[166],
                &bar(1, 0),
                &bar(0, 0),
                &[put_rule(), put_rule()].concat(),
                &changed(bar(5, 100), 0, 137),
            ];
            for command in others {
                assert_eq!(behind(FONT_3, command), [hh, hh], "{command:?}");
                assert_eq!(behind(NO_FONT, command), [hh, hh], "{command:?}");
            }
        }
    }
    // D 0 leaves nothing to end.
    for select in [NO_FONT, FONT_3] {
        assert_eq!(hh_behind_each(THREE_TENTHS[0], select, &[bar(1, 1), vec![143, 0]]), [0, 0]);
        assert_eq!(hh_behind_each(THREE_TENTHS[0], select, &[bar(1, -2), vec![143, 0]]), [-1, -1]);
    }
}

// A pop undoes a bar; a bar's lead outlasts a block.
#[test]
fn bars_and_the_stack() {
    let page = [
        bar(1, 1), // at hh 0; then h 1, hh 1
        vec![141],
        bar(1, 1), // at hh 1; then h 2, hh 2
        vec![141],
        right(100), // far: h 102, hh 31
        bar(1, 1),  // at hh 31; then h 103, hh 32
        put_rule(),
        vec![142],
        put_rule(), // at hh 2
        vec![142],
        put_rule(), // at hh 1
        bar(0, -1), // h 0, hh 1
        put_rule(),
        bar(1, 1),  // at hh 1; then h 1, hh 2
        put_rule(), // at hh 2
        vec![141, 174],
        bar(1, 1), // at hh 2; then h 2, hh 3
        vec![142],
        right(0), // near: the font selected inside the block stays
        put_rule(),
    ]
    .concat();
    let wanted = [0, 1, 31, 32, 2, 1, 1, 1, 2, 2, 2].map(|hh| format!("r 1 0 {hh} 0 1 1"));
    for select in [NO_FONT, FONT_3] {
        let whole = Parts::with_font(font(1, 3, 9, 100, 100, "", ""), [select, &page].concat());
        let file = Parts { depth: 2, ..whole }.build();
        let lines = placed(&file, &[], 300, 1, 220);
        assert_eq!(lines[..11], wanted);
        assert_eq!(lines[11], "end 11 0 0");
    }
}

// Bars that reach an end of h's range and bars that would pass it, at K 1/2.
#[test]
fn bars_at_the_ends_of_the_range() {
    for (from, b, hh) in [
        (2_147_483_640, 7, Some(1_073_741_824)), // 1,073,741,820 + 4
        (2_147_483_640, 8, None),
        (2_147_483_646, 1, Some(1_073_741_824)),
        (2_147_483_647, 0, Some(1_073_741_824)),
        (2_147_483_647, 1, None),
        (2_147_483_647, 2_147_483_647, None),
        (2_147_483_647, -1, Some(1_073_741_824)), // 1,073,741,824 + 0
        (2_147_483_647, -2_147_483_648, Some(0)),
        (-2_147_483_640, -7, Some(-1_073_741_823)), // -1,073,741,820 - 3
        (-2_147_483_640, -8, None),
        (-2_147_483_646, -1, Some(-1_073_741_823)),
        (-2_147_483_647, 0, Some(-1_073_741_824)),
        (-2_147_483_647, -1, None),
        (-2_147_483_647, -2_147_483_648, None),
        (-2_147_483_647, 1, Some(-1_073_741_823)),
        (-2_147_483_647, 2_147_483_647, Some(0)),
        (0, 2_147_483_647, Some(1_073_741_824)),
        (0, -2_147_483_647, Some(-1_073_741_823)),
        (0, -2_147_483_648, None),
        (1, 2_147_483_646, Some(1_073_741_824)), // 1 + 1,073,741,823
        (1, 2_147_483_647, None),
        (1, -2_147_483_648, Some(-1_073_741_823)), // 1 - 1,073,741,824
        (-1, 2_147_483_647, Some(1_073_741_823)),  // -1 + 1,073,741,824
        (-1, -2_147_483_646, Some(-1_073_741_824)),
        (-1, -2_147_483_647, None),
    ] {
        for select in [NO_FONT, FONT_3] {
            for height in [1, 0, -1] {
                let page = [select.to_vec(), right(from), bar(height, b), put_rule()].concat();
                let lines = placed(&page_of_font_3(page), &[], 500, 1, 60_000);
                match hh {
                    Some(hh) => {
                        assert_eq!(lines[lines.len() - 2], format!("r 1 0 {hh} 0 1 1"), "{from} {b}");
                    }
                    // The page's inside begins at 76, and right takes 5 bytes.
                    None => assert_eq!(lines, [format!("refused 16 at {}", 81 + select.len())], "{from} {b}"),
                }
                // The same rule only put leads nowhere.
                let page = [right(from), changed(bar(height, b), 0, 137), put_rule()].concat();
                let lines = placed(&page_of_font_3(page), &[], 500, 1, 60_000);
                let unit = Unit { p: 1, q: 2 };
                let wanted = format!("r 1 0 {} 0 1 1", unit.rounded(from));
                assert_eq!(lines[lines.len() - 2], wanted, "{from} {b}");
            }
        }
    }
    // As far out as hh gets: 2 beyond the last rounded h.
    let page = [vec![right(2_147_483_641)], vec![bar(1, 1); 6]].concat();
    let wanted = [821, 822, 823, 824, 825, 825, 826].map(|hh| 1_073_741_000 + hh);
    assert_eq!(hh_behind_each(ONE_HALF[2], NO_FONT, &page), wanted);
    // To the left a bar's half pixel is not passed, and hh lags behind.
    let page = [vec![right(-2_147_483_641)], vec![bar(1, -1); 6]].concat();
    let wanted = [821, 821, 821, 821, 821, 821, 822].map(|hh| -1_073_741_000 - hh);
    assert_eq!(hh_behind_each(ONE_HALF[2], NO_FONT, &page), wanted);
    // One more bar is one too many.
    for step in [1, -1] {
        let page = [right(step * 2_147_483_641), bar(1, step).repeat(7)].concat();
        assert_eq!(placed(&page_of_font_3(page), &[], 500, 1, 60_000), ["refused 16 at 135"]);
    }
    // With a tiny K too.
    let page = [bar(1, 2_147_483_647), bar(1, 1)].concat();
    let (units, resolution) = TINY[2];
    let file = Parts { pages: vec![page], units, ..parts() }.build();
    assert_eq!(placed(&file, &[], resolution, 1, 60_000), ["refused 16 at 69"]);
}

// Bars and characters in turn: each moves hh by its own pixels, and D holds them together.
#[test]
fn bars_and_characters() {
    let page = [
        vec![174],
        bar(4, 7),   // at hh 0; then h 7, hh 3
        vec![65],    // at hh 3; then h 107, hh 34
        bar(4, 7),   // at hh 34; then h 114, hh 37, held to 34 + 2
        vec![66],    // at hh 36; then h 14, hh 6
        vec![67],    // missing
        bar(0, -14), // h 0, hh 6 - 4
        put_rule(),
    ]
    .concat();
    let lines = [
        "r 1 0 0 0 2 3",
        "c 1 3 3 0 65 31",
        "r 1 0 34 0 2 3",
        "c 1 3 36 0 66 -30",
        "r 1 0 2 0 1 1",
        "end 5 1 0",
    ];
    assert_eq!(placed(&page_of_font_3(page.clone()), &character_table(), 300, 1, 100), lines);
    assert_eq!(placed(&page_of_font_3(page), &character_table(), 300, 1, 99), ["refused 17 at 0"]);
}

// TeX's units: four bars of 1.27 pixels, drawn as 2, side by side. The fifth rule comes after 8
// pixels at 5.07, so at 7.
#[test]
fn bars_in_tex_units() {
    let page = [bar(26_214, 20_000).repeat(4), put_rule()].concat();
    let units = [25_400_000, 473_628_672, 1000];
    let file = Parts { pages: vec![page], units, ..parts() }.build();
    let lines =
        ["r 1 0 0 0 2 2", "r 1 0 2 0 2 2", "r 1 0 4 0 2 2", "r 1 0 6 0 2 2", "r 1 0 7 0 1 1", "end 5 0 0"];
    assert_eq!(placed(&file, &[], 300, 1, 100), lines);
}

// A bar does not move down, a rule that is put does not move, and neither reaches the next page.
#[test]
fn what_bars_leave_alone() {
    let first = [
        vec![174],
        [157, 5].repeat(6), // v 30, vv 11
        changed(bar(5, 100), 0, 137),
        bar(1, 7),
        put_rule(), // at hh 3
    ]
    .concat();
    let whole = Parts::with_font(font(1, 3, 9, 100, 100, "", ""), vec![]);
    let file = Parts { pages: vec![first, put_rule()], ..whole }.build();
    let lines = ["r 1 0 0 11 2 30", "r 1 0 0 11 1 3", "r 1 0 3 11 1 1", "end 3 0 0"];
    assert_eq!(placed(&file, &[], 300, 1, 60), lines);
    assert_eq!(placed(&file, &[], 300, 2, 20), ["r 2 0 0 0 1 1", "end 1 0 0"]);
}

// ---- lines ----

#[test]
fn lines_answered() {
    let file = written("m.dvi", &m());
    let with_font = written("font.dvi", &page_of_font_3(vec![174, 65]));
    let table = written("three.table", &character_table());
    let ask = |line: &str| {
        let line = line.replace("FONT.DVI", &with_font).replace("M.DVI", &file).replace("TABLE", &table);
        answer(line.as_bytes(), DESK)
    };
    for (line, wanted) in [
        ("read M.DVI 0", "command 247 1 15"),
        ("read M.DVI 15", "command 139 16 60"),
        ("read M.DVI 60", "command 140 61 61"),
        ("read M.DVI 90", "command 249 91 96"),
        ("read M.DVI 96", "command 223 97 97"),
        ("read M.DVI 100", "refused 2 at 100"),
        ("read M.DVI 18446744073709551615", "refused 2 at 18446744073709551615"),
        ("read M.DVI 18446744073709551616", "no input"),
        ("read M.DVI -1", "no input"),
        ("read M.DVI", "no input"),
        ("check M.DVI", "accepted 1 0 0 61"),
        ("check M.DVI ", "no input"),
        ("check  M.DVI", "no input"),
        (" check M.DVI", "no input"),
        ("check", "no input"),
        ("", "no input"),
        ("CHECK M.DVI", "no input"),
        ("check M.DVI\r", "no input"),
        ("check /nowhere/at/all", "no input"),
        ("check /", "no input"),
        ("name FONT.DVI 3", "name 31 31"),
        ("name FONT.DVI 4", "refused 8 at 0"),
        ("name FONT.DVI -2147483648", "refused 8 at 0"),
        ("name FONT.DVI 2147483648", "no input"),
        ("name FONT.DVI -2147483649", "no input"),
        ("spell FONT.DVI 3", "spelled -"),
        ("spell FONT.DVI 4", "refused 8 at 0"),
        ("spell FONT.DVI -2147483648", "refused 8 at 0"),
        ("spell FONT.DVI 2147483648", "no input"),
        ("spell FONT.DVI -2147483649", "no input"),
        ("spell FONT.DVI", "no input"),
        ("spell FONT.DVI 3 3", "no input"),
        ("spell TABLE 3", "refused 4 at 0"),
        ("spell nowhere 3", "no input"),
        ("spelled FONT.DVI 3", "no input"),
        ("round 254 1 1000 500 -3", "rounded -2"),
        ("round 254 1 1000 500 3", "rounded 2"),
        ("round 254 1 1000 500 -0", "rounded 0"),
        ("round 254 1 1000 500 +3", "no input"),
        ("round 254 1 1000 500 3.0", "no input"),
        ("round 254 1 1000 501 3", "refused 13 at 0"),
        ("round 254 1 1000 4294967295 3", "refused 12 at 0"),
        ("round 254 1 1000 4294967296 3", "no input"),
        ("round -254 1 1000 0 3", "refused 4 at 0"),
        ("scale 655360 0 9 199 28", "width 400497"),
        ("scale 100 255 255 255 255", "width -1"),
        ("scale 0 0 0 0 0", "refused 14 at 0"),
        ("scale 1 256 0 0 0", "no input"),
        ("scale 1 0 0 0", "no input"),
        ("table TABLE", "right 3"),
        ("table M.DVI", "refused 14 at 0"),
        ("look TABLE 9 100 - 65", "found 31 0 16 0 0"),
        ("look TABLE 9 100 - -191", "found 31 0 16 0 0"),
        ("look TABLE 9 100 - 66", "found -30 255 240 0 0"),
        ("look TABLE 9 0 - 66", "absent"),
        ("look TABLE 9 100 - 67", "absent"),
        ("look TABLE -9 100 - 67", "no input"),
        ("look M.DVI 9 100 - 67", "refused 14 at 0"),
        ("place FONT.DVI TABLE 300 1 20", "c 1 3 0 0 65 31\nend 1 0 0"),
        ("place FONT.DVI TABLE 300 1 19", "refused 17 at 0"),
        ("place FONT.DVI TABLE 300 1 60000", "c 1 3 0 0 65 31\nend 1 0 0"),
        ("place FONT.DVI TABLE 300 1 60001", "no input"),
        ("place FONT.DVI TABLE 300 2 20", "refused 15 at 0"),
        ("place FONT.DVI nowhere 300 1 20", "no input"),
    ] {
        assert_eq!(ask(line), wanted, "{line:?}");
    }
}

#[test]
fn names_spelled() {
    let long = "k".repeat(255);
    let fonts = [
        font(1, 5, 9, 100, 100, "\u{1}/", "Zoé"),
        font(2, 6, 9, 100, 100, "", "cmr10"),
        font(3, 7, 9, 100, 100, "tex:", ""),
        font(4, 8, 9, 100, 100, &long, &long),
        font(1, 9, 9, 100, 100, "", "-"),
    ]
    .concat();
    let file = Parts::with_font(fonts, vec![]).build();
    let path = written("names.dvi", &file);
    let ask = |word: &str, number: i32| answer(format!("{word} {path} {number}").as_bytes(), DESK);
    assert_eq!(ask("spell", 5), "spelled 012f5a6fc3a9");
    assert_eq!(ask("spell", 6), "spelled 636d723130");
    assert_eq!(ask("spell", 7), "spelled 7465783a");
    assert_eq!(ask("spell", 8), format!("spelled {}", "6b".repeat(510)));
    assert_eq!(ask("spell", 9), "spelled 2d");
    // The bytes are those whose ends `name` tells; what `name` refuses, `spell` refuses too.
    for number in 0..12 {
        let (name, spelled) = (ask("name", number), ask("spell", number));
        match name.strip_prefix("name ") {
            Some(ends) => {
                let (start, end) = ends.split_once(' ').unwrap();
                let (start, end): (usize, usize) = (start.parse().unwrap(), end.parse().unwrap());
                let digits = spelled.strip_prefix("spelled ").unwrap().as_bytes();
                let pairs = digits.chunks(2).map(|pair| std::str::from_utf8(pair).unwrap());
                let bytes: Vec<u8> = pairs.map(|pair| u8::from_str_radix(pair, 16).unwrap()).collect();
                assert_eq!(bytes, file[start..end]);
            }
            None => assert_eq!(spelled, name),
        }
    }
    let cut = written("names.cut", &file[..20]);
    assert_eq!(answer(format!("spell {cut} 5").as_bytes(), DESK), "refused 2 at 15");
}

#[test]
fn lengths_of_files() {
    let mut long = m();
    long.resize(262_144, 223);
    let path = written("desk.dvi", &long);
    let line = format!("check {path}");
    assert_eq!(answer(line.as_bytes(), DESK), "accepted 1 0 0 61");
    long.push(223);
    std::fs::write(&path, &long).unwrap();
    assert_eq!(answer(line.as_bytes(), DESK), "no input");
    assert_eq!(answer(line.as_bytes(), LONG), "accepted 1 0 0 61");
    let spell = format!("spell {path} 0");
    assert_eq!(answer(spell.as_bytes(), DESK), "no input");
    assert_eq!(answer(spell.as_bytes(), LONG), "refused 8 at 0");
    long.resize(16_777_217, 223);
    std::fs::write(&path, &long).unwrap();
    assert_eq!(answer(line.as_bytes(), LONG), "refused 1 at 0");
    assert_eq!(answer(format!("read {path} 99999999").as_bytes(), LONG), "refused 1 at 0");
    std::fs::remove_file(&path).unwrap();

    let path = written("desk.table", &vec![255; 65_537]);
    let line = format!("table {path}");
    assert_eq!(answer(line.as_bytes(), DESK), "no input");
    assert_eq!(answer(line.as_bytes(), LONG), "refused 14 at 0");
}

// Files changed at a few bytes by chance are answered, whatever the answer.
#[test]
fn changed_by_chance() {
    let page = vec![
        174, 65, 128, 200, 141, 143, 5, 66, 148, 10, 147, 162, 20, 161, 142, 239, 1, 0, 131, 0, 0, 0, 65,
        170, 0, 0, 1, 0, 146, 0, 1, 0, 0, 132, 0, 0, 0, 4, 0, 0, 0, 7,
    ];
    let base = Parts { depth: 1, ..Parts::with_font(font(1, 3, 9, 100, 100, "a", "b"), page) }.build();
    assert_eq!(placed(&base, &character_table(), 300, 1, 60_000).last().unwrap(), "end 5 0 1");
    let mut chances = Chance(1);
    let mut chance = |below: usize| chances.below(below);
    for _ in 0..100_000 {
        let mut file = base.clone();
        for _ in 0..1 + chance(3) {
            let at = if chance(2) == 0 { chance(file.len()) } else { 77 + chance(43) };
            file[at] = chance(256) as u8;
        }
        if chance(10) == 0 {
            file.truncate(chance(file.len()));
        }
        placed(&file, &character_table(), 1 + chance(500) as u32, 1, 60_000);
    }
}
