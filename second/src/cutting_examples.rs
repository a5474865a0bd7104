//! Files of chosen pages: document 02's Ask 5 held to bytes worked out by hand.

use crate::chance::Chance;
use crate::check::check;
use crate::cutting::cut;
use crate::examples::{changed, checked, m, named_record, parts, placed, width_record, written, Parts};
use crate::lines::{answer, DESK, LONG};

// ---- a file with a bit of everything, and its parts ----

/// The comment is a byte that would be a *nop*.
const PREAMBLE: [u8; 16] = [247, 2, 0, 0, 0, 254, 0, 0, 0, 1, 0, 0, 3, 232, 1, 138];

const NOP: [u8; 1] = [138];

/// The fonts 1 to 4 as they are defined before *post*, in the forms of one to four bytes.
const FONT_1: [u8; 17] = [243, 1, 0, 0, 0, 9, 0, 0, 0, 100, 0, 0, 0, 101, 0, 1, b'a'];
const FONT_2: [u8; 18] = [244, 0, 2, 0, 0, 0, 8, 0, 0, 0, 200, 0, 0, 0, 201, 1, 0, b'b'];
const FONT_3: [u8; 20] = [245, 0, 0, 3, 0, 0, 0, 7, 0, 0, 1, 44, 0, 0, 1, 45, 0, 2, b'c', b'd'];
const FONT_4: [u8; 19] = [246, 0, 0, 0, 4, 0, 0, 0, 6, 0, 0, 1, 144, 0, 0, 1, 145, 0, 0];

/// And after it, in other forms.
const AGAIN_4: [u8; 16] = [243, 4, 0, 0, 0, 6, 0, 0, 1, 144, 0, 0, 1, 145, 0, 0];
const AGAIN_2: [u8; 19] = [245, 0, 0, 2, 0, 0, 0, 8, 0, 0, 0, 200, 0, 0, 0, 201, 1, 0, b'b'];
const AGAIN_3: [u8; 18] = [243, 3, 0, 0, 0, 7, 0, 0, 1, 44, 0, 0, 1, 45, 0, 2, b'c', b'd'];
const AGAIN_1: [u8; 20] = [246, 0, 0, 0, 1, 0, 0, 0, 9, 0, 0, 0, 100, 0, 0, 0, 101, 0, 1, b'a'];

/// num, den and mag; then l and u, which may be anything.
const UNITS_L_U: [u8; 20] = [0, 0, 0, 254, 0, 0, 0, 1, 0, 0, 3, 232, 1, 2, 3, 4, 250, 251, 252, 253];

/// The first page without *bop* and the definition of font 2: *nop*, two *push*, font 2, a
/// character, two *pop*, *eop*.
const FIRST: [u8; 8] = [138, 141, 141, 173, 65, 142, 142, 140];

/// The second page without *bop* and the definition of font 4: a special that looks like *eop*,
/// *bop* and a definition, *nop*, *push*, font 1, a character, *pop*, *eop*.
const SECOND: [u8; 12] = [239, 3, 140, 139, 243, 138, 141, 172, 133, 66, 142, 140];

fn bop(count: u8, pointer: [u8; 4]) -> Vec<u8> {
    [&[139][..], &[count; 40], &pointer].concat()
}

fn post(pointer: [u8; 4], depth: [u8; 2], pages: [u8; 2]) -> Vec<u8> {
    [&[248][..], &pointer, &UNITS_L_U, &depth, &pages].concat()
}

fn post_post(pointer: [u8; 4]) -> Vec<u8> {
    [&[249][..], &pointer, &[2]].concat()
}

/// The old file; it states a depth of 7 and reaches 2.
fn old() -> Vec<u8> {
    [
        &PREAMBLE[..],                         // 0
        &NOP,                                  // 16
        &FONT_1,                               // 17
        &bop(1, [255; 4]),                     // 34
        &FIRST[..3],                           // 79
        &FONT_2,                               // 82
        &FIRST[3..],                           // 100
        &NOP,                                  // 105
        &FONT_3,                               // 106
        &NOP,                                  // 126
        &bop(2, [0, 0, 0, 34]),                // 127
        &FONT_4,                               // 172
        &SECOND,                               // 191
        &NOP,                                  // 203
        &post([0, 0, 0, 127], [0, 7], [0, 2]), // 204
        &NOP,                                  // 233
        &AGAIN_4,                              // 234
        &NOP,                                  // 250
        &AGAIN_2,                              // 251
        &AGAIN_3,                              // 270
        &AGAIN_1,                              // 288
        &NOP,                                  // 308
        &post_post([0, 0, 0, 204]),            // 309
        &[223; 9],                             // 315
    ]
    .concat()
}

/// What every file cut from the old one begins with, up to byte 90.
fn front() -> Vec<u8> {
    [&PREAMBLE[..], &FONT_1, &FONT_2, &FONT_3, &FONT_4].concat()
}

/// The definitions between *post* and *post_post*, 73 bytes.
fn again() -> Vec<u8> {
    [&AGAIN_4[..], &AGAIN_2, &AGAIN_3, &AGAIN_1].concat()
}

fn tried(file: &[u8], pages: &[u32], area: u64) -> String {
    match cut(file, pages, area) {
        Ok(new) => format!("{} bytes", new.len()),
        Err(refusal) => refusal.to_string(),
    }
}

fn made(file: &[u8], pages: &[u32]) -> Vec<u8> {
    cut(file, pages, u64::MAX).unwrap()
}

// ---- new files ----

#[test]
fn the_old_file() {
    assert_eq!(old().len(), 324);
    assert_eq!(checked(&old()), "2 4 2 204");
}

#[test]
fn the_second_page_alone() {
    let wanted = [
        &front()[..],
        &bop(2, [255; 4]),                    // 90
        &SECOND,                              // 135
        &post([0, 0, 0, 90], [0, 1], [0, 1]), // 147
        &again(),                             // 176
        &post_post([0, 0, 0, 147]),           // 249
        &[223; 5],                            // 255 to 260
    ]
    .concat();
    assert_eq!(made(&old(), &[2]), wanted);
    assert_eq!(checked(&wanted), "1 4 1 147");
}

#[test]
fn the_first_page_alone() {
    let wanted = [
        &front()[..],
        &bop(1, [255; 4]),                    // 90
        &FIRST,                               // 135
        &post([0, 0, 0, 90], [0, 2], [0, 1]), // 143
        &again(),                             // 172
        &post_post([0, 0, 0, 143]),           // 245
        &[223; 5],                            // 251 to 256
    ]
    .concat();
    assert_eq!(made(&old(), &[1]), wanted);
    assert_eq!(checked(&wanted), "1 4 2 143");
}

#[test]
fn both_pages() {
    let wanted = [
        &front()[..],
        &bop(1, [255; 4]),                     // 90
        &FIRST,                                // 135
        &bop(2, [0, 0, 0, 90]),                // 143
        &SECOND,                               // 188
        &post([0, 0, 0, 143], [0, 2], [0, 2]), // 200
        &again(),                              // 229
        &post_post([0, 0, 0, 200]),            // 302
        &[223; 4],                             // 308 to 312
    ]
    .concat();
    assert_eq!(made(&old(), &[1, 2]), wanted);
    assert_eq!(checked(&wanted), "2 4 2 200");
    // There is nothing left to do for a second cut.
    assert_eq!(made(&wanted, &[1, 2]), wanted);
    assert_eq!(made(&wanted, &[2]), made(&old(), &[2]));
}

// M is what a cut makes of it, whatever stood outside its page.
#[test]
fn m_once_more() {
    for tail in 0..9 {
        assert_eq!(made(&[m(), vec![223; tail]].concat(), &[1]), m());
    }
    let filled = Parts { first: vec![138; 3], last: vec![138; 2], depth: 65_535, ..parts() };
    assert_eq!(made(&filled.build(), &[1]), m());
    // The definition of a font that nothing uses stays.
    let font = Parts { first: FONT_4.to_vec(), last: AGAIN_4.to_vec(), ..parts() };
    assert_eq!(made(&font.build(), &[1]), [font.build(), vec![223]].concat());
}

// Four to seven of them: M's commands are 96 bytes, and each *nop* on its page is one more.
#[test]
fn bytes_after_post_post() {
    for (nops, tail) in [(0, 4), (1, 7), (2, 6), (3, 5), (4, 4), (5, 7)] {
        let file = Parts { pages: vec![vec![138; nops]], ..parts() }.build();
        assert_eq!(made(&file, &[1]), [file, vec![223; tail - 4]].concat());
    }
}

// s is the greatest depth of the pages that stay, also when that is not the first or the last.
#[test]
fn depths() {
    let pages: Vec<Vec<u8>> =
        [1, 3, 0, 100, 2].iter().map(|depth| [vec![141; *depth], vec![142; *depth]].concat()).collect();
    let file = Parts { pages, depth: 300, ..parts() }.build();
    let depth_of = |chosen: &[u32]| {
        let new = made(&file, chosen);
        let at = check(&new).unwrap().post + 25;
        (u16::from_be_bytes([new[at], new[at + 1]]), u16::from_be_bytes([new[at + 2], new[at + 3]]))
    };
    assert_eq!(depth_of(&[3]), (0, 1));
    assert_eq!(depth_of(&[1, 2, 3]), (3, 3));
    assert_eq!(depth_of(&[3, 5]), (2, 2));
    assert_eq!(depth_of(&[1, 2, 3, 5]), (3, 4));
    assert_eq!(depth_of(&[3, 4, 5]), (100, 3));
    assert_eq!(depth_of(&[1, 2, 3, 4, 5]), (100, 5));
}

// As many pages as there can be: the first, the last, all.
#[test]
fn many_pages() {
    let file = Parts { pages: vec![vec![]; 65_535], ..parts() }.build();
    assert_eq!(made(&file, &[1]), m());
    assert_eq!(made(&file, &[65_535]), m());
    // 15 bytes, 46 for each page, 29 and 6 are a multiple of four, so it ends as it did.
    assert!(made(&file, &(1..=65_535).collect::<Vec<u32>>()) == file);
    assert_eq!(tried(&file, &[65_536], 100), "refused 23 at 0");
}

// ---- refusals ----

#[test]
fn lists() {
    let wrong: [&[u32]; 13] = [
        &[],
        &[0],
        &[3],
        &[u32::MAX],
        &[0, 1],
        &[0, 0],
        &[1, 1],
        &[2, 2],
        &[2, 1],
        &[1, 3],
        &[1, 2, 2],
        &[1, 2, 1],
        &[1, 2, 3],
    ];
    for list in wrong {
        assert_eq!(tried(&old(), list, 400), "refused 23 at 0", "{list:?}");
        // The list is judged before the area and after the file.
        assert_eq!(tried(&old(), list, 0), "refused 23 at 0", "{list:?}");
        assert_eq!(tried(&old()[..323 - 6], list, 0), "refused 11 at 317", "{list:?}");
        assert_eq!(tried(&[], list, 0), "refused 2 at 0", "{list:?}");
    }
}

#[test]
fn areas() {
    for (list, length) in [(&[1][..], 256), (&[2], 260), (&[1, 2], 312)] {
        assert_eq!(tried(&old(), list, length), format!("{length} bytes"));
        assert_eq!(tried(&old(), list, u64::MAX), format!("{length} bytes"));
        for less in [1, 4, 8, length] {
            assert_eq!(tried(&old(), list, length - less), "refused 17 at 0");
        }
    }
}

// The check's refusal, whatever the list and the area.
#[test]
fn files() {
    for (file, wanted) in [
        (vec![247; 16_777_217], "refused 1 at 0"),
        (old()[..313].to_vec(), "refused 2 at 309"),
        (changed(old(), 105, 250), "refused 3 at 105"),
        (changed(old(), 1, 3), "refused 4 at 0"),
        (changed(old(), 105, 141), "refused 5 at 105"),
        (changed(old(), 103, 138), "refused 6 at 104"),
        (changed(old(), 235, 5), "refused 7 at 234"),
        (changed(old(), 198, 176), "refused 8 at 198"),
        (changed(old(), 171, 35), "refused 9 at 127"),
        (changed(old(), 230, 1), "refused 10 at 204"),
        (changed(old(), 323, 0), "refused 11 at 323"),
    ] {
        for list in [&[][..], &[2], &[2, 1]] {
            assert_eq!(tried(&file, list, 0), wanted);
            assert_eq!(tried(&file, list, 400), wanted);
        }
    }
}

// ---- the new pages are the old ones ----

/// Font 2 has no name but an area; font 1 has a name, under which its character stands.
fn table() -> Vec<u8> {
    [
        width_record(8, 200, 65, 61, [0, 16, 0, 0]),
        width_record(9, 100, 66, 30, [0, 16, 0, 0]),
        named_record(9, 100, b"a", 66, 31, [0, 16, 0, 0]),
    ]
    .concat()
}

/// A placed page's lines without the page's number, or a refusal without its place.
fn unnumbered(lines: &[String]) -> Vec<String> {
    let without = |line: &String| {
        let mut words: Vec<&str> = line.split(' ').collect();
        match words[0] {
            "c" | "r" => _ = words.remove(1),
            "refused" => words.truncate(2),
            _ => {}
        }
        words.join(" ")
    };
    lines.iter().map(without).collect()
}

#[test]
fn pages_placed() {
    assert_eq!(placed(&old(), &table(), 300, 1, 20), ["c 1 2 0 0 65 61", "end 1 0 0"]);
    assert_eq!(placed(&old(), &table(), 300, 2, 20), ["c 2 1 0 0 66 31", "end 1 0 1"]);
    let new = made(&old(), &[2]);
    assert_eq!(placed(&new, &table(), 300, 1, 20), ["c 1 1 0 0 66 31", "end 1 0 1"]);
    assert_eq!(placed(&new, &table(), 300, 2, 20), ["refused 15 at 0"]);
    // Out of range: the same refusal at another place.
    let far = [146, 127, 255, 255, 255, 143, 1];
    let file = Parts { first: vec![138; 9], pages: vec![vec![], far.to_vec()], ..parts() }.build();
    assert_eq!(placed(&file, &[], 300, 2, 20), ["refused 16 at 120"]);
    assert_eq!(placed(&made(&file, &[2]), &[], 300, 1, 20), ["refused 16 at 65"]);
}

// Files changed at a few bytes by chance, and any list: what is cut is accepted, its pages place
// as the old ones, and cutting it again changes nothing.
#[test]
fn changed_by_chance() {
    let mut chances = Chance(1);
    let mut chance = |below: usize| chances.below(below);
    let mut cuts = 0;
    for _ in 0..100_000 {
        let mut file = old();
        for _ in 0..1 + chance(2) {
            let at = if chance(2) == 0 { chance(file.len()) } else { 79 + chance(125) };
            file[at] = if chance(2) == 0 { chance(256) as u8 } else { 138 + chance(5) as u8 };
        }
        let list: Vec<u32> = (0..1 + chance(2)).map(|_| chance(4) as u32).collect();
        let new = match (check(&file), cut(&file, &list, 400)) {
            (Err(refusal), cut) => {
                assert_eq!(cut, Err(refusal));
                continue;
            }
            (Ok(_), Err(refusal)) => {
                assert_eq!(refusal.to_string(), "refused 23 at 0");
                continue;
            }
            (Ok(_), Ok(new)) => new,
        };
        cuts += 1;
        assert!(new.len() % 4 == 0 && list.windows(2).all(|pair| pair[0] < pair[1]));
        let survey = check(&new).unwrap();
        assert_eq!((survey.pages.len(), survey.fonts.len()), (list.len(), check(&file).unwrap().fonts.len()));
        for (number, old_number) in (1..).zip(&list) {
            let new_page = placed(&new, &table(), 300, number, 400);
            assert_eq!(unnumbered(&new_page), unnumbered(&placed(&file, &table(), 300, *old_number, 400)));
        }
        let all: Vec<u32> = (1..=list.len() as u32).collect();
        assert_eq!(made(&new, &all), new);
    }
    assert!(cuts > 1000, "{cuts}");
}

// ---- lines ----

fn hexadecimal(file: &[u8]) -> String {
    let lines = file.chunks(32).map(|bytes| bytes.iter().map(|byte| format!("{byte:02x}")).collect());
    let mut lines: Vec<String> = lines.collect();
    lines.push(format!("end {}", file.len()));
    lines.join("\n")
}

#[test]
fn lines_answered() {
    let (path, short) = (written("old.dvi", &old()), written("short.dvi", &old()[..323 - 6]));
    let (first, both) = (hexadecimal(&made(&old(), &[1])), hexadecimal(&made(&old(), &[1, 2])));
    let start = "f702000000fe00000001000003e8018af3010000000900000064000000650001\n61f40002";
    assert!(first.starts_with(start));
    // 256 bytes are eight lines, 312 bytes nine and one of 24.
    assert_eq!(first.lines().map(str::len).collect::<Vec<_>>(), [64, 64, 64, 64, 64, 64, 64, 64, 7]);
    assert_eq!(both.lines().map(str::len).skip(8).collect::<Vec<_>>(), [64, 48, 7]);
    assert!(first.ends_with("\nend 256") && both.ends_with("\nend 312"));
    let ask =
        |line: &str, limits| answer(line.replace("OLD", &path).replace("SHORT", &short).as_bytes(), limits);
    for (line, wanted) in [
        ("cut OLD 256 1", &first[..]),
        ("cut OLD 0000256 0001", &first),
        ("cut OLD 262144 1", &first),
        ("cut OLD 312 1 2", &both),
        ("cut OLD 255 1", "refused 17 at 0"),
        ("cut OLD 0 1", "refused 17 at 0"),
        ("cut OLD 400", "refused 23 at 0"),
        ("cut OLD 0", "refused 23 at 0"),
        ("cut OLD 400 0", "refused 23 at 0"),
        ("cut OLD 400 2 1", "refused 23 at 0"),
        ("cut OLD 400 2 2", "refused 23 at 0"),
        ("cut OLD 400 4294967295", "refused 23 at 0"),
        ("cut OLD 400 4294967296", "no input"),
        ("cut OLD 400 1 4294967296", "no input"),
        ("cut SHORT 400", "refused 11 at 317"),
        ("cut OLD 400 -1", "no input"),
        ("cut OLD 400 +1", "no input"),
        ("cut OLD 400 1.0", "no input"),
        ("cut OLD 400 1,2", "no input"),
        ("cut OLD 400 1-2", "no input"),
        ("cut OLD 400 ", "no input"),
        ("cut OLD 400 1 ", "no input"),
        ("cut OLD 400  1", "no input"),
        ("cut OLD -1 1", "no input"),
        ("cut OLD  1", "no input"),
        ("cut OLD", "no input"),
        ("cut", "no input"),
        ("cut nowhere 400 1", "no input"),
        ("cut nowhere 400", "no input"),
        ("cut / 400 1", "no input"),
        ("Cut OLD 400 1", "no input"),
        ("cuts OLD 400 1", "no input"),
    ] {
        assert_eq!(ask(line, DESK), wanted, "{line:?}");
        assert_eq!(ask(line, LONG), wanted, "{line:?}");
    }
    for area in ["262145", "18446744073709551615"] {
        assert_eq!(ask(&format!("cut OLD {area} 1"), DESK), "no input");
        assert_eq!(ask(&format!("cut OLD {area} 1"), LONG), first);
    }
    assert_eq!(ask("cut OLD 18446744073709551616 1", LONG), "no input");
}

// 1,000 pages on a line, and one more.
#[test]
fn lengths_of_lists() {
    let file = Parts { pages: vec![vec![]; 1_001], ..parts() }.build();
    let path = written("pages.dvi", &file);
    let ask = |count: u32, limits| {
        let pages: Vec<String> = (1..=count).map(|page| page.to_string()).collect();
        answer(format!("cut {path} 262144 {}", pages.join(" ")).as_bytes(), limits)
    };
    // 15 bytes, 46 for each page, 29 and 6.
    assert!(ask(1_000, DESK).ends_with("\nend 46056"));
    assert_eq!(ask(1_001, DESK), "no input");
    assert!(ask(1_001, LONG).ends_with("\nend 46100"));
    assert!(ask(1_000, LONG).ends_with("\nend 46056"));
}

// 16,384 bytes on a line, and one more; whatever is asked.
#[test]
fn lengths_of_lines() {
    let path = written("line.dvi", &m());
    for (start, wanted) in [
        (format!("cut {path} 100 "), hexadecimal(&m())),
        ("round 254 1 1000 500 ".to_string(), "rounded 1".to_string()),
    ] {
        let line = |length: usize| format!("{start}{}1", "0".repeat(length - start.len() - 1));
        assert_eq!(line(16_384).len(), 16_384);
        assert_eq!(answer(line(16_384).as_bytes(), DESK), wanted);
        assert_eq!(answer(line(16_385).as_bytes(), DESK), "no input");
        assert_eq!(answer(line(100_000).as_bytes(), DESK), "no input");
        assert_eq!(answer(line(100_000).as_bytes(), LONG), wanted);
    }
}

// As long as the desk takes them, and one byte more.
#[test]
fn lengths_of_files() {
    let mut file = m();
    file.resize(262_144, 223);
    let path = written("cut.dvi", &file);
    let line = format!("cut {path} 100 1");
    assert_eq!(answer(line.as_bytes(), DESK), hexadecimal(&m()));
    file.push(223);
    std::fs::write(&path, &file).unwrap();
    assert_eq!(answer(line.as_bytes(), DESK), "no input");
    assert_eq!(answer(format!("cut {path} 100").as_bytes(), DESK), "no input");
    assert_eq!(answer(line.as_bytes(), LONG), hexadecimal(&m()));
    // The longest that is accepted gives as long a file, and one byte more is refused.
    let special = [vec![242, 0, 255, 255, 151], vec![0; 16_777_111]].concat();
    let longest = Parts { pages: vec![special], ..parts() }.build();
    assert!(made(&longest, &[1]) == longest);
    assert_eq!(tried(&longest, &[1], 16_777_215), "refused 17 at 0");
    assert_eq!(tried(&[longest, vec![223]].concat(), &[1], u64::MAX), "refused 1 at 0");
    std::fs::remove_file(&path).unwrap();
}
