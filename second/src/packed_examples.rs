//! Width tables from PK fonts: document 02's Ask 3 held to cases worked by hand.

use crate::chance::Chance;
use crate::examples::{changed, tabled, width_record, written};
use crate::lines::{answer, DESK, LONG};
use crate::packed::width_table;

// ---- building fonts ----

/// No comment; check sum 0xc55a1234.
const PREAMBLE: [u8; 19] = [247, 89, 0, 0, 160, 0, 0, 0xc5, 0x5a, 0x12, 0x34, 0, 4, 0, 0, 0, 4, 0, 0];

/// Where the first command after that preamble stands.
const START: usize = PREAMBLE.len();

const POSTAMBLE: u8 = 245;
const NO_OP: u8 = 246;

/// 11 bytes: the fields, no raster.
fn short(code: u8, width: [u8; 3], dm: u8) -> Vec<u8> {
    let mut out = vec![0, 8, code];
    out.extend(width);
    out.push(dm);
    out.extend([0; 4]);
    out
}

/// 17 bytes: the fields, no raster.
fn extended(code: u8, width: [u8; 3], dm: u16) -> Vec<u8> {
    let mut out = vec![4, 0, 13, code];
    out.extend(width);
    out.extend(dm.to_be_bytes());
    out.extend([0; 8]);
    out
}

/// 37 bytes: the fields, no raster.
fn long(code: u32, width: [u8; 4], dx: i32) -> Vec<u8> {
    let mut out = vec![7, 0, 0, 0, 28];
    out.extend(code.to_be_bytes());
    out.extend(width);
    out.extend(dx.to_be_bytes());
    out.extend([0; 20]);
    out
}

/// Short, with the width and the escapement zero.
fn plain(code: u8) -> Vec<u8> {
    short(code, [0; 3], 0)
}

/// The preamble and the commands.
fn open(commands: &[u8]) -> Vec<u8> {
    [&PREAMBLE, commands].concat()
}

/// The preamble, the commands and the postamble byte.
fn font(commands: &[u8]) -> Vec<u8> {
    [&PREAMBLE, commands, &[POSTAMBLE]].concat()
}

/// Each record without its name, which has to be sixteen zeros.
fn tried(file: &[u8], scale: u32, area: u64) -> String {
    match width_table(file, scale, area) {
        Ok(records) => {
            let lines = records.iter().map(|record| {
                assert_eq!(record[8..24], [0; 16]);
                let rest = record[..8].iter().chain(&record[24..]);
                let digits: String = rest.map(|byte| format!("{byte:02x}")).collect();
                digits + "\n"
            });
            lines.collect::<String>() + &format!("end {}", records.len())
        }
        Err(refusal) => refusal.to_string(),
    }
}

/// At scale 100, with room for every record that a font can have.
fn made(file: &[u8]) -> String {
    tried(file, 100, 8192)
}

/// The escapement and the width in a font's only record.
fn only(packet: &[u8]) -> String {
    let lines = made(&font(packet));
    match lines.strip_suffix("\nend 1") {
        Some(record) => format!("{} {}", &record[20..24], &record[24..32]),
        None => lines,
    }
}

// ---- records ----

// Figure 3 of appendix C: the character Xi of amr10, 26 bytes after its code.
#[test]
fn the_character_of_the_appendix() {
    let xi = [
        0x88, 0x1a, 0x04, 0x09, 0xc7, 0x1c, 0x19, 0x14, 0x1d, 0xfe, 0x1c, 0xd9, 0xe2, 0x97, 0x2b, 0x1e, 0x22,
        0x93, 0x24, 0xe3, 0x97, 0x4e, 0x22, 0x93, 0x2c, 0x5e, 0x22, 0x97, 0xd9,
    ];
    assert_eq!(xi.len(), 29);
    let file = font(&xi);
    // Width 640,796 and 25 pixels.
    assert_eq!(tried(&file, 655_360, 32), "c55a1234000a0000040000190009c71c\nend 1");
    assert_eq!(made(&file), "c55a123400000064040000190009c71c\nend 1");
    // The packet cut, or longer than it says.
    assert_eq!(made(&file[..START + 28]), "refused 18 at 19");
    assert_eq!(made(&file[..START + 29]), "refused 18 at 48");
    assert_eq!(made(&font(&[&xi[..], &[255]].concat())), "refused 19 at 48");
}

// The records come in the order of the codes, whatever the order of the packets.
#[test]
fn all_three_forms() {
    let packets = [
        long(200, [255, 240, 0, 1], -196_608), // -3 pixels
        extended(66, [18, 52, 86], 300),
        short(65, [16, 0, 0], 31),
    ];
    let wanted = "c55a1234000000644100001f00100000\n\
                  c55a1234000000644200012c00123456\n\
                  c55a123400000064c800fffdfff00001\n\
                  end 3";
    for order in [[0, 1, 2], [0, 2, 1], [1, 0, 2], [1, 2, 0], [2, 0, 1], [2, 1, 0]] {
        let commands = order.map(|index: usize| packets[index].clone()).concat();
        assert_eq!(made(&font(&commands)), wanted);
    }
}

// The first byte of a short form's width is 0, also where the second says a negative number.
#[test]
fn widths_of_the_short_forms() {
    assert_eq!(only(&short(1, [255, 254, 253], 0)), "0000 00fffefd");
    assert_eq!(only(&extended(1, [255, 254, 253], 0)), "0000 00fffefd");
    assert_eq!(only(&short(1, [128, 0, 0], 0)), "0000 00800000");
}

#[test]
fn a_font_without_packets() {
    for commands in [&[][..], &[NO_OP], &[240, 2, 0, 0], &[244, 1, 2, 3, 4, NO_OP]] {
        assert_eq!(tried(&font(commands), 1, 0), "end 0");
    }
    // The shortest comment and the longest; its bytes are no commands.
    for length in [0, 1, 89, 247, 255] {
        let mut file = vec![247, 89, length];
        file.extend(vec![245; length.into()]);
        file.extend(&PREAMBLE[3..]);
        assert_eq!(made(&file), format!("refused 18 at {}", file.len()));
        file.extend(short(7, [1, 2, 3], 4));
        file.push(POSTAMBLE);
        assert_eq!(made(&file), "c55a1234000000640700000400010203\nend 1");
        assert_eq!(made(&file[..usize::from(length) + 18]), "refused 18 at 0");
    }
}

// Every code once, in falling order, in rising order and by leaps; every form.
#[test]
fn all_codes() {
    for (first, step) in [(255u8, 255u8), (0, 1), (3, 7), (100, 129)] {
        let mut commands = vec![];
        let mut code = first;
        for _ in 0..256 {
            let pixels = i16::from(code) * 3;
            commands.extend(match code % 3 {
                0 => short(code, [0, code, 1], code),
                1 => extended(code, [0, code, 1], pixels as u16),
                _ => long(code.into(), [0, 0, code, 1], i32::from(-pixels) * 65_536),
            });
            code = code.wrapping_add(step);
        }
        let file = font(&commands);
        let wanted: Vec<Vec<u8>> = (0..=255u8)
            .map(|code| {
                let pixels = i16::from(code) * 3;
                let escapement = [code.into(), pixels, -pixels][usize::from(code % 3)];
                width_record(0xc55a_1234, 134_217_727, code, escapement, [0, 0, code, 1])
            })
            .collect();
        let table = width_table(&file, 134_217_727, 8192).unwrap();
        assert_eq!(table.concat(), wanted.concat());
        assert_eq!(tabled(&table.concat()), "right 256");
        assert_eq!(tried(&file, 134_217_727, 8191), "refused 17 at 0");
        // Whatever the code of one more packet, it was met.
        let one_more = font(&[commands, plain(7)].concat());
        assert_eq!(made(&one_more), format!("refused 21 at {}", file.len() - 1));
    }
}

// ---- 22 and 17 ----

// The scale goes before all that is wrong with the file or the area.
#[test]
fn the_scale() {
    let file = font(&plain(9));
    let wrong: [&[u8]; 6] = [&[], &[247], &[0], &file[..25], &file, &font(&[7, 0, 0, 0, 0, 0, 0, 1, 0])];
    for scale in [0, 134_217_728, 2_147_483_648, u32::MAX] {
        for file in wrong {
            assert_eq!(tried(file, scale, 0), "refused 22 at 0");
            assert_eq!(tried(file, scale, 8192), "refused 22 at 0");
        }
    }
    assert_eq!(tried(&file, 1, 32), "c55a1234000000010900000000000000\nend 1");
    assert_eq!(tried(&file, 134_217_727, 32), "c55a123407ffffff0900000000000000\nend 1");
}

// The area goes after all that is wrong with the file.
#[test]
fn the_area() {
    let one = font(&plain(9));
    let two = font(&[plain(9), plain(8)].concat());
    for area in [0, 1, 16, 31] {
        assert_eq!(tried(&one, 100, area), "refused 17 at 0");
        assert_eq!(tried(&two, 100, area), "refused 17 at 0");
    }
    for area in [32, 33, 63] {
        assert_eq!(tried(&one, 100, area), "c55a1234000000640900000000000000\nend 1");
        assert_eq!(tried(&two, 100, area), "refused 17 at 0");
    }
    for area in [64, 65, u64::MAX] {
        assert!(tried(&two, 100, area).ends_with("\nend 2"));
    }
    assert_eq!(tried(&two[..two.len() - 1], 100, 0), "refused 18 at 41");
    assert_eq!(tried(&[two.clone(), vec![255]].concat(), 100, 0), "refused 19 at 42");
    assert_eq!(tried(&font(&[plain(9), vec![0, 0, 8]].concat()), 100, 0), "refused 20 at 30");
    assert_eq!(tried(&font(&[plain(9), plain(9)].concat()), 100, 0), "refused 21 at 30");
}

// ---- 18: cut files ----

// The preamble, with three bytes of comment, cut behind each of its bytes. That its
// identification is wrong shows only where it is whole.
#[test]
fn the_preamble_cut() {
    for identification in [89, 88, 90, 0, 255] {
        let mut file = vec![247, identification, 3, 1, 2, 3];
        file.extend(&PREAMBLE[3..]);
        assert_eq!(file.len(), 22);
        for length in 0..22 {
            assert_eq!(made(&file[..length]), "refused 18 at 0");
        }
        let wanted = if identification == 89 { "refused 18 at 22" } else { "refused 19 at 0" };
        assert_eq!(made(&file), wanted);
    }
}

/// One of each command that may stand between the preamble and the postamble.
fn one_of_each() -> Vec<Vec<u8>> {
    vec![
        vec![NO_OP],
        short(1, [1, 2, 3], 4),
        [vec![0x8b, 0, 2], vec![200; 768]].concat(), // 3 × 256 + 0
        vec![240, 3, 245, 245, 245],
        extended(3, [1, 2, 3], 4),
        [vec![5, 0, 1, 4], vec![0; 65_537]].concat(), // 65,536 + 1
        vec![241, 0, 3, 245, 245, 245],
        vec![242, 0, 0, 3, 245, 245, 245],
        long(5, [0; 4], 0),
        vec![243, 0, 0, 0, 3, 245, 245, 245],
        vec![244, 245, 245, 245, 245],
        vec![NO_OP],
        short(0, [1, 2, 3], 4),
    ]
}

// Cut behind any byte, a file is refused at the command that is cut, or at its end where the
// next command is missing.
#[test]
fn cut_anywhere() {
    let mut file = PREAMBLE.to_vec();
    let mut starts = vec![0];
    for command in one_of_each() {
        starts.push(file.len());
        file.extend(command);
    }
    starts.push(file.len());
    file.push(POSTAMBLE);
    assert!(made(&file).ends_with("\nend 6"));
    for length in 0..file.len() {
        let place = starts.iter().rfind(|start| **start <= length).unwrap();
        assert_eq!(made(&file[..length]), format!("refused 18 at {place}"));
    }
}

// No length, however great, reaches around.
#[test]
fn great_lengths() {
    for commands in [
        &[3, 255, 1][..],
        &[6, 255, 255, 1],
        &[7, 255, 255, 255, 255, 0, 0, 0, 1],
        &[7, 128, 0, 0, 0, 0, 0, 0, 1],
        &[240, 255],
        &[241, 255, 255],
        &[242, 255, 255, 255],
        &[243, 255, 255, 255, 255],
        &[243, 128, 0, 0, 0],
    ] {
        assert_eq!(made(&font(commands)), "refused 18 at 19");
        assert_eq!(made(&font(&[commands, &[0; 200]].concat())), "refused 18 at 19");
        let first = [commands, &[0; 200]].concat();
        assert_eq!(made(&first), "refused 18 at 0");
    }
}

#[test]
fn no_postamble() {
    assert_eq!(made(&[]), "refused 18 at 0");
    assert_eq!(made(&PREAMBLE), "refused 18 at 19");
    assert_eq!(made(&open(&[NO_OP; 5])), "refused 18 at 24");
    assert_eq!(made(&open(&plain(1))), "refused 18 at 30");
    assert_eq!(made(&open(&[240, 1, POSTAMBLE])), "refused 18 at 22");
}

// ---- 19: commands that may not stand there ----

#[test]
fn identifications() {
    for identification in 0..=255 {
        let file = changed(font(&[]), 1, identification);
        assert_eq!(made(&file), if identification == 89 { "end 0" } else { "refused 19 at 0" });
    }
}

/// An opcode and the fewest bytes that it has behind it, all of them zeros.
fn shortest(opcode: u8) -> Vec<u8> {
    let behind = match opcode {
        0..=239 => match opcode % 8 {
            // Length, code, and what the two bits in the flag count.
            low @ 0..=3 => 2 + 256 * usize::from(low),
            low @ 4..=6 => 3 + 65_536 * usize::from(low - 4),
            _ => 8,
        },
        240..=243 => usize::from(opcode) - 239,
        244 => 4,
        245 | 246 => 0,
        247 => 18,
        248..=255 => 0,
    };
    [vec![opcode], vec![0; behind]].concat()
}

// 18 before 19: any opcode other than 247 as the first, whole or one byte short.
#[test]
fn the_first_command() {
    for opcode in 0..=255 {
        let command = shortest(opcode);
        if opcode != 247 {
            assert_eq!(made(&command), "refused 19 at 0", "{opcode}");
            assert_eq!(made(&[&command[..], &font(&[])].concat()), "refused 19 at 0", "{opcode}");
        }
        assert_eq!(made(&command[..command.len() - 1]), "refused 18 at 0", "{opcode}");
    }
    assert_eq!(made(&[244, 0, 0, 0]), "refused 18 at 0");
    assert_eq!(made(&[244, 0, 0, 0, 0]), "refused 19 at 0");
    // A right packet; one whose length is below its fields; one whose code is above 255.
    for packet in [plain(1), vec![0, 7, 1, 0, 0, 0, 0, 0, 0, 0], long(256, [0; 4], 0)] {
        for length in 0..packet.len() {
            assert_eq!(made(&packet[..length]), "refused 18 at 0");
        }
        assert_eq!(made(&packet), "refused 19 at 0");
    }
}

#[test]
fn between_packets() {
    let before = plain(1);
    for opcode in 0..=255 {
        let command = shortest(opcode);
        let commands = [&before[..], &command].concat();
        let wanted = match opcode {
            // These packets have no counted bytes, or 256 zeros and more.
            0..=239 if [0, 4, 7].contains(&(opcode % 8)) => "refused 20 at 30",
            0..=239 => "c55a1234000000640000000000000000\nc55a1234000000640100000000000000\nend 2",
            240..=244 | 246 => "c55a1234000000640100000000000000\nend 1",
            245 => "refused 19 at 31",
            247..=255 => "refused 19 at 30",
        };
        assert_eq!(made(&font(&commands)), wanted, "{opcode}");
        if command.len() > 1 {
            assert_eq!(made(&open(&commands[..commands.len() - 1])), "refused 18 at 30", "{opcode}");
        }
    }
    // A second preamble, cut behind each of its bytes and whole.
    for length in 1..START {
        assert_eq!(made(&open(&PREAMBLE[..length])), "refused 18 at 19");
    }
    assert_eq!(made(&open(&PREAMBLE)), "refused 19 at 19");
    assert_eq!(made(&font(&PREAMBLE)), "refused 19 at 19");
    // Its comment may be what does not fit.
    assert_eq!(made(&open(&changed(PREAMBLE.to_vec(), 2, 1))), "refused 18 at 19");
}

#[test]
fn after_the_postamble() {
    let file = font(&plain(1));
    assert_eq!(file.len(), 31);
    for opcode in 0..=255 {
        let command = shortest(opcode);
        for no_ops in [0, 1, 4] {
            let start = [file.clone(), vec![NO_OP; no_ops]].concat();
            let whole = [&start[..], &command].concat();
            let wanted = if opcode == NO_OP {
                "c55a1234000000640100000000000000\nend 1".to_string()
            } else {
                format!("refused 19 at {}", 31 + no_ops)
            };
            assert_eq!(made(&whole), wanted, "{opcode}");
            if command.len() > 1 {
                let cut = &whole[..whole.len() - 1];
                assert_eq!(made(cut), format!("refused 18 at {}", 31 + no_ops), "{opcode}");
            }
        }
    }
    let behind = |bytes: &[u8]| made(&[&file[..], bytes].concat());
    assert_eq!(behind(&[244, 0, 0, 0]), "refused 18 at 31");
    assert_eq!(behind(&[244, 0, 0, 0, 0]), "refused 19 at 31");
    assert_eq!(behind(&[POSTAMBLE]), "refused 19 at 31");
    assert_eq!(behind(&PREAMBLE), "refused 19 at 31");
    assert_eq!(behind(&PREAMBLE[..18]), "refused 18 at 31");
    // 19 goes before 20 and 21.
    assert_eq!(behind(&[0, 0, 1]), "refused 19 at 31");
    assert_eq!(behind(&plain(1)), "refused 19 at 31");
    assert_eq!(behind(&plain(1)[..10]), "refused 18 at 31");
    // 223 pads DVI files; here it is a flag byte.
    assert_eq!(behind(&[223; 4]), "refused 18 at 31");
}

// ---- no-ops and specials ----

#[test]
fn no_ops_and_specials() {
    let wanted = "c55a1234000000640500000900010203\nend 1";
    let packet = short(5, [1, 2, 3], 9);
    let mut between: Vec<Vec<u8>> = vec![
        vec![],
        vec![NO_OP],
        vec![NO_OP; 100],
        vec![240, 0],
        vec![241, 0, 0],
        vec![242, 0, 0, 0],
        vec![243, 0, 0, 0, 0],
        vec![244, 255, 255, 255, 255],
        vec![240, 1, 247, 244, 0, 0, 0, 0, NO_OP, 243, 0, 0, 0, 2, 255, 255],
    ];
    between.push([vec![240, 255], vec![255; 255]].concat());
    between.push([vec![241, 1, 0], vec![255; 256]].concat());
    between.push([vec![241, 255, 255], vec![255; 65_535]].concat());
    between.push([vec![242, 1, 0, 0], vec![255; 65_536]].concat());
    between.push([vec![243, 0, 1, 0, 1], vec![255; 65_537]].concat());
    for commands in between {
        assert_eq!(made(&font(&[&commands[..], &packet].concat())), wanted);
        assert_eq!(made(&font(&[&packet[..], &commands].concat())), wanted);
        assert_eq!(made(&font(&[&commands[..], &packet, &commands].concat())), wanted);
    }
}

// ---- 20: packet lengths ----

#[test]
fn lengths_of_packets() {
    // Up to the code; the last byte of the length; the bytes that the fields need.
    let forms: [(&[u8], usize, usize); 6] = [
        (&[0, 0, 1], 1, 8),
        (&[232, 0, 1], 1, 8),
        (&[4, 0, 0, 1], 2, 13),
        (&[236, 0, 0, 1], 2, 13),
        (&[7, 0, 0, 0, 0, 0, 0, 0, 1], 4, 28),
        (&[239, 0, 0, 0, 0, 0, 0, 0, 1], 4, 28),
    ];
    let right = "c55a1234000000640100000000000000\nend 1";
    for (head, at, fields) in forms {
        for length in 0..=fields + 3 {
            let head = changed(head.to_vec(), at, length as u8);
            let whole = [head.clone(), vec![0; length]].concat();
            let wanted = if length < fields { "refused 20 at 19" } else { right };
            assert_eq!(made(&font(&whole)), wanted);
            // One byte fewer: the packet reaches into what is not there.
            if length > 0 {
                assert_eq!(made(&open(&whole[..whole.len() - 1])), "refused 18 at 19");
            }
            // The counted bytes are there, and nothing else: 20 at the flag goes before 18 at
            // the end.
            let end = START + whole.len();
            let at_end = format!("refused 18 at {end}");
            assert_eq!(made(&open(&whole)), if length < fields { wanted } else { &at_end });
            // The next command stands behind the length, not behind the fields.
            if length >= fields {
                assert_eq!(made(&font(&[&whole[..], &[255]].concat())), format!("refused 19 at {end}"));
            }
        }
    }
}

// The two bits of the flag are the highest of the length; the other five play no part.
#[test]
fn lengths_in_the_flag() {
    for flag in 0..=239u8 {
        let (head, length) = match flag % 8 {
            low @ 0..=3 => (vec![flag, 17, 1], usize::from(low) * 256 + 17),
            low @ 4..=6 => (vec![flag, 1, 2, 1], usize::from(low - 4) * 65_536 + 258),
            _ => (vec![flag, 0, 0, 1, 2, 0, 0, 0, 1], 258),
        };
        let whole = [head, vec![0; length]].concat();
        assert_eq!(made(&font(&whole)), "c55a1234000000640100000000000000\nend 1", "{flag}");
        assert_eq!(made(&open(&whole[..whole.len() - 1])), "refused 18 at 19", "{flag}");
    }
    for (head, length) in [(&[3, 255, 1][..], 1023), (&[6, 255, 255, 1], 196_607)] {
        let whole = [head, &vec![0; length]].concat();
        assert_eq!(made(&font(&whole)), "c55a1234000000640100000000000000\nend 1");
        assert_eq!(made(&open(&whole[..whole.len() - 1])), "refused 18 at 19");
    }
    // With the bits left out of the length, 256 would be 0 and 20.
    assert_eq!(only(&[vec![1, 0, 1], vec![0; 256]].concat()), "0000 00000000");
}

// ---- 21: code, width, escapement ----

#[test]
fn codes() {
    assert_eq!(made(&font(&long(255, [0; 4], 0))), "c55a123400000064ff00000000000000\nend 1");
    assert_eq!(made(&font(&plain(255))), "c55a123400000064ff00000000000000\nend 1");
    assert_eq!(made(&font(&extended(255, [0; 3], 0))), "c55a123400000064ff00000000000000\nend 1");
    for code in [256, 257, 65_536, 0x0100_0001, 0x7fff_ffff, 0x8000_0000, u32::MAX] {
        assert_eq!(only(&long(code, [0; 4], 0)), "refused 21 at 19");
    }
    // Met before, in the same form or another, at once or later, also with all the same bytes.
    let forms = [plain(65), extended(65, [0; 3], 0), long(65, [0; 4], 0)];
    for first in &forms {
        for second in &forms {
            let at_once = [&first[..], second].concat();
            assert_eq!(made(&font(&at_once)), format!("refused 21 at {}", START + first.len()));
            let later = [&first[..], &plain(66), &[NO_OP], second].concat();
            assert_eq!(made(&font(&later)), format!("refused 21 at {}", START + first.len() + 12));
        }
    }
    // Neither a special's bytes nor a raster's count as met.
    let special = [vec![240, 11], plain(65), plain(65)].concat();
    assert!(made(&font(&special)).ends_with("\nend 1"));
    let raster = [vec![0, 19, 66], vec![0; 8], plain(65), plain(65)].concat();
    assert!(made(&font(&raster)).ends_with("\nend 2"));
}

#[test]
fn first_bytes_of_widths() {
    for byte in 0..=255 {
        let wanted = match byte {
            0 => "0000 00ffffff",
            255 => "0000 ffffffff",
            _ => "refused 21 at 19",
        };
        assert_eq!(only(&long(9, [byte, 255, 255, 255], 0)), wanted);
    }
    assert_eq!(only(&long(9, [1, 0, 0, 0], 0)), "refused 21 at 19");
    assert_eq!(only(&long(9, [254, 0, 0, 0], 0)), "refused 21 at 19");
}

#[test]
fn escapements_of_the_short_forms() {
    for (dm, wanted) in [(0, "0000"), (1, "0001"), (127, "007f"), (128, "0080"), (255, "00ff")] {
        assert_eq!(only(&short(9, [0; 3], dm)), format!("{wanted} 00000000"));
    }
    for (dm, wanted) in [(0, "0000"), (255, "00ff"), (256, "0100"), (32_767, "7fff")] {
        assert_eq!(only(&extended(9, [0; 3], dm)), format!("{wanted} 00000000"));
    }
    for dm in [32_768, 32_769, 65_535] {
        assert_eq!(only(&extended(9, [0; 3], dm)), "refused 21 at 19");
    }
}

// Halves go up: 0.5 to 1, -0.5 to 0, -1.5 to -1.
#[test]
fn escapements_of_the_long_form() {
    for (dx, wanted) in [
        (0, "0000"),
        (32_767, "0000"),
        (32_768, "0001"),
        (98_303, "0001"),
        (98_304, "0002"),
        (-1, "0000"),
        (-32_768, "0000"),
        (-32_769, "ffff"),
        (-98_304, "ffff"),
        (-98_305, "fffe"),
        (32_767 * 65_536, "7fff"),
        (32_767 * 65_536 + 32_767, "7fff"), // just below 32,767.5
        (-32_767 * 65_536, "8001"),
        (-32_767 * 65_536 - 32_768, "8001"), // -32,767.5
        (-32_767 * 65_536 - 32_769, "8000"),
        (i32::MIN, "8000"), // -32,768
    ] {
        assert_eq!(only(&long(9, [0; 4], dx)), format!("{wanted} 00000000"), "{dx}");
    }
    for dx in [32_767 * 65_536 + 32_768, 32_767 * 65_536 + 32_769, i32::MAX] {
        assert_eq!(only(&long(9, [0; 4], dx)), "refused 21 at 19", "{dx}");
    }
}

// The fields that give nothing to the record may hold anything.
#[test]
fn fields_not_looked_at() {
    let filled = |packet: Vec<u8>, from: usize| {
        let mut packet = packet;
        packet[from..].fill(255);
        only(&packet)
    };
    assert_eq!(filled(short(9, [1, 2, 3], 4), 7), "0004 00010203");
    assert_eq!(filled(extended(9, [1, 2, 3], 4), 9), "0004 00010203");
    assert_eq!(filled(long(9, [0, 1, 2, 3], 4 * 65_536), 17), "0004 00010203");
    let mut file = font(&plain(9));
    file[3..7].fill(255); // ds
    file[11..19].fill(255); // hppp, vppp
    assert_eq!(made(&file), "c55a1234000000640900000000000000\nend 1");
    file[7..11].fill(255); // cs
    assert_eq!(made(&file), "ffffffff000000640900000000000000\nend 1");
}

// ---- order ----

#[test]
fn order_at_one_packet() {
    // All at once: code above 255, width 1, escapement too great.
    let bad = long(256, [1, 0, 0, 0], i32::MAX);
    assert_eq!(only(&bad), "refused 21 at 19");
    // 20 before 21.
    let shorter = changed(bad.clone(), 4, 27);
    assert_eq!(made(&font(&shorter)), "refused 20 at 19");
    // 18 before 20 and 21.
    assert_eq!(made(&open(&shorter[..35])), "refused 18 at 19");
    assert_eq!(made(&open(&shorter[..36])), "refused 20 at 19");
    assert_eq!(made(&open(&bad[..36])), "refused 18 at 19");
    assert_eq!(made(&open(&bad)), "refused 21 at 19");
    // A code met before, in a packet that is too short.
    assert_eq!(made(&font(&[plain(1), vec![0, 0, 1]].concat())), "refused 20 at 30");
}

#[test]
fn the_front_goes_first() {
    let short_length = vec![0, 0, 1];
    let above = long(256, [0; 4], 0);
    assert_eq!(made(&open(&[&above[..], &short_length].concat())), "refused 21 at 19");
    assert_eq!(made(&open(&[&short_length[..], &above].concat())), "refused 20 at 19");
    assert_eq!(made(&open(&[&above[..], &[250]].concat())), "refused 21 at 19");
    assert_eq!(made(&open(&[&[250], &above[..]].concat())), "refused 19 at 19");
    assert_eq!(made(&open(&[&above[..], &[244]].concat())), "refused 21 at 19");
    let wrong = changed(open(&[244]), 1, 88);
    assert_eq!(made(&wrong), "refused 19 at 0");
}

// ---- lines ----

#[test]
fn lines_answered() {
    let packets = [long(200, [255, 240, 0, 1], -196_608), short(65, [16, 0, 0], 31)].concat();
    let right = written("right.pk", &font(&packets));
    let without = written("without.pk", &font(&[]));
    let empty = written("empty.pk", &[]);
    let ask = |line: &str, limits| {
        let line = line.replace("RIGHT", &right).replace("WITHOUT", &without).replace("EMPTY", &empty);
        answer(line.as_bytes(), limits)
    };
    let both = "c55a123400000064000000000000000000000000000000004100001f00100000\n\
                c55a12340000006400000000000000000000000000000000c800fffdfff00001\n\
                end 2";
    for (line, wanted) in [
        ("widths RIGHT 100 64", both),
        ("widths RIGHT 0100 000064", both),
        ("widths RIGHT 100 60000", both),
        ("widths RIGHT 100 63", "refused 17 at 0"),
        ("widths RIGHT 0 0", "refused 22 at 0"),
        ("widths RIGHT 134217728 0", "refused 22 at 0"),
        ("widths RIGHT 134217727 0", "refused 17 at 0"),
        ("widths RIGHT 4294967295 32", "refused 22 at 0"),
        ("widths RIGHT 4294967296 32", "no input"),
        ("widths WITHOUT 1 0", "end 0"),
        ("widths EMPTY 1 0", "refused 18 at 0"),
        ("widths EMPTY 0 0", "refused 22 at 0"),
        ("widths RIGHT -1 32", "no input"),
        ("widths RIGHT +1 32", "no input"),
        ("widths RIGHT 1 -1", "no input"),
        ("widths RIGHT 1 0x20", "no input"),
        ("widths RIGHT 1 ", "no input"),
        ("widths RIGHT 1", "no input"),
        ("widths RIGHT", "no input"),
        ("widths", "no input"),
        ("widths RIGHT 1 32 ", "no input"),
        ("widths RIGHT 1 32 32", "no input"),
        ("widths  RIGHT 1 32", "no input"),
        ("width RIGHT 1 32", "no input"),
        ("Widths RIGHT 1 32", "no input"),
        ("widths nowhere 100 32", "no input"),
        ("widths nowhere 0 32", "no input"),
        ("widths / 0 32", "no input"),
    ] {
        assert_eq!(ask(line, DESK), wanted, "{line:?}");
        assert_eq!(ask(line, LONG), wanted, "{line:?}");
    }
    for area in ["60001", "18446744073709551615"] {
        assert_eq!(ask(&format!("widths RIGHT 100 {area}"), DESK), "no input");
        assert_eq!(ask(&format!("widths RIGHT 100 {area}"), LONG), both);
    }
    assert_eq!(ask("widths RIGHT 100 18446744073709551616", LONG), "no input");
}

#[test]
fn lengths_of_files() {
    let mut file = font(&plain(9));
    file.resize(262_144, NO_OP);
    let path = written("desk.pk", &file);
    let line = format!("widths {path} 100 32");
    let wanted = "c55a123400000064000000000000000000000000000000000900000000000000\nend 1";
    assert_eq!(answer(line.as_bytes(), DESK), wanted);
    file.push(NO_OP);
    std::fs::write(&path, &file).unwrap();
    assert_eq!(answer(line.as_bytes(), DESK), "no input");
    assert_eq!(answer(line.as_bytes(), LONG), wanted);
    // A scale out of range does not make up for a file too long.
    assert_eq!(answer(format!("widths {path} 0 32").as_bytes(), DESK), "no input");
    // Document 01's bound on DVI files is none on PK files: a special of 16 MiB.
    let mut file = open(&[243, 1, 0, 0, 0]);
    file.resize(file.len() + 16_777_216, 0);
    file.extend(plain(9));
    file.push(POSTAMBLE);
    std::fs::write(&path, &file).unwrap();
    assert_eq!(answer(line.as_bytes(), LONG), wanted);
    std::fs::remove_file(&path).unwrap();
}

// Files changed at a few bytes by chance: whatever is made is a right table.
#[test]
fn changed_by_chance() {
    let special = vec![241, 0, 3, 1, 2, 3];
    let raster = [vec![0x88, 12, 70], vec![9; 12]].concat();
    let base = font(
        &[
            short(65, [16, 0, 0], 31),
            special,
            extended(66, [1, 2, 3], 300),
            raster,
            long(200, [0; 4], 65_536),
        ]
        .concat(),
    );
    assert!(made(&base).ends_with("\nend 4"));
    let mut chances = Chance(1);
    let mut chance = |below: usize| chances.below(below);
    for _ in 0..100_000 {
        let mut file = base.clone();
        for _ in 0..1 + chance(3) {
            let at = chance(file.len());
            file[at] = chance(256) as u8;
        }
        if chance(10) == 0 {
            file.truncate(chance(file.len()));
        }
        match width_table(&file, 100, 8192) {
            Ok(records) => assert_eq!(tabled(&records.concat()), format!("right {}", records.len())),
            Err(refusal) => {
                assert!((18..=21).contains(&refusal.number) && refusal.place <= file.len() as u64);
            }
        }
    }
}
