//! A PK font's commands, and the width records that its packets give.

use crate::fonts::GREATEST_SCALE;
use crate::numbers::{signed, unsigned};
use crate::refusal::{refusal, Refusal};
use crate::widths::{record_for_any_name, right_first_byte, Found, RECORD};
use std::collections::BTreeMap;

/// The identification of the PK files that are read here.
const IDENTIFICATION: u8 = 89;

/// The width records of a font at the caller's scale, in the order of the codes. The scale is
/// judged first (22), then the file from its front (18 to 21), and last of all whether an area
/// of so many bytes holds the records (17).
pub fn width_table(file: &[u8], scale: u32, area: u64) -> Result<Vec<[u8; RECORD]>, Refusal> {
    if !(1..=GREATEST_SCALE).contains(&scale) {
        return Err(refusal(22, 0));
    }
    let font = judge(file)?;
    // A PK file does not say its font's name.
    let records: Vec<[u8; RECORD]> = font
        .characters
        .iter()
        .map(|(code, character)| record_for_any_name(font.check_sum, scale, *code, *character))
        .collect();
    if area < (RECORD * records.len()) as u64 {
        return Err(refusal(17, 0));
    }
    Ok(records)
}

/// What a right file says of its font.
struct Font {
    check_sum: [u8; 4],
    characters: BTreeMap<u8, Found>,
}

/// One command after the other, from the file's front: the preamble; packets and what may stand
/// between them; the postamble byte; no-ops to the file's end.
fn judge(file: &[u8]) -> Result<Font, Refusal> {
    let read = |at| read_command(file, at).ok_or(refusal(18, at));

    let (first, mut at) = read(0)?;
    let check_sum = match first {
        Command::Preamble { identification: IDENTIFICATION, check_sum } => check_sum,
        _ => return Err(refusal(19, 0)),
    };

    let mut characters = BTreeMap::new();
    // The postamble byte is still to come, so the file's end is a command cut off.
    loop {
        let (command, after) = read(at)?;
        match command {
            Command::Packet(packet) => {
                let (code, character) = character(&packet).map_err(|number| refusal(number, at))?;
                if characters.insert(code, character).is_some() {
                    return Err(refusal(21, at));
                }
            }
            Command::Special | Command::NoOp => {}
            Command::Postamble => {
                at = after;
                break;
            }
            Command::Preamble { .. } | Command::Undefined => return Err(refusal(19, at)),
        }
        at = after;
    }

    while at < file.len() {
        match read(at)? {
            (Command::NoOp, after) => at = after,
            _ => return Err(refusal(19, at)),
        }
    }
    Ok(Font { check_sum, characters })
}

// ---- commands ----

enum Command<'a> {
    /// 0 to 239.
    Packet(Packet<'a>),
    /// 240 to 243 (xxx1 to xxx4) and 244 (yyy), which say nothing about a width.
    Special,
    /// 245.
    Postamble,
    /// 246.
    NoOp,
    /// 247.
    Preamble { identification: u8, check_sum: [u8; 4] },
    /// 248 to 255, without parameters.
    Undefined,
}

#[derive(Clone, Copy)]
enum Form {
    Short,
    Extended,
    Long,
}

struct Packet<'a> {
    form: Form,
    code: u32,
    /// The bytes that the packet length counts: from the tfm width to the packet's end.
    counted: &'a [u8],
}

/// The command at a place not past the file's end, and the place after it; none where the file
/// ends before the command does.
fn read_command(file: &[u8], at: usize) -> Option<(Command<'_>, usize)> {
    let mut left = &file[at..];
    let opcode = take(&mut left, 1)?[0];
    let command = match opcode {
        0..=239 => Command::Packet(read_packet(opcode, &mut left)?),
        240..=243 => {
            let bytes_of_length = u32::from(opcode) - 239;
            let length = unsigned(take(&mut left, bytes_of_length)?);
            take(&mut left, length)?;
            Command::Special
        }
        244 => {
            take(&mut left, 4)?;
            Command::Special
        }
        245 => Command::Postamble,
        246 => Command::NoOp,
        247 => {
            let identification = take(&mut left, 1)?[0];
            let length_of_comment = take(&mut left, 1)?[0];
            take(&mut left, length_of_comment.into())?;
            let _design_size = take_four(&mut left)?;
            let check_sum = take_four(&mut left)?;
            let _pixels_per_point_across = take_four(&mut left)?;
            let _pixels_per_point_down = take_four(&mut left)?;
            Command::Preamble { identification, check_sum }
        }
        248..=255 => Command::Undefined,
    };
    Some((command, file.len() - left.len()))
}

/// The packet behind its flag byte, or none where the file cuts it off.
fn read_packet<'a>(flag: u8, left: &mut &'a [u8]) -> Option<Packet<'a>> {
    // The short forms keep the two highest bits of the length in the flag.
    let high = u32::from(flag % 4);
    let (form, length, bytes_of_code) = match flag % 8 {
        0..=3 => (Form::Short, high * 256 + unsigned(take(left, 1)?), 1),
        4..=6 => (Form::Extended, high * 65_536 + unsigned(take(left, 2)?), 1),
        _ => (Form::Long, unsigned(take(left, 4)?), 4),
    };
    let code = unsigned(take(left, bytes_of_code)?);
    let counted = take(left, length)?;
    Some(Packet { form, code, counted })
}

/// So many bytes from the front of those left, or none where there are fewer.
fn take<'a>(left: &mut &'a [u8], count: u32) -> Option<&'a [u8]> {
    if u64::from(count) > left.len() as u64 {
        return None;
    }
    let (taken, rest) = left.split_at(count as usize);
    *left = rest;
    Some(taken)
}

fn take_four(left: &mut &[u8]) -> Option<[u8; 4]> {
    take(left, 4).map(|bytes| [bytes[0], bytes[1], bytes[2], bytes[3]])
}

// ---- packets ----

/// A packet's code, escapement and width, or the number by which it is refused.
fn character(packet: &Packet) -> Result<(u8, Found), u8> {
    let fields = match packet.form {
        // tfm width; dm; w, h, hoff, voff
        Form::Short => 3 + 1 + 4,
        Form::Extended => 3 + 2 + 4 * 2,
        // tfm width; dx, dy; w, h, hoff, voff
        Form::Long => 4 + 2 * 4 + 4 * 4,
    };
    let counted = packet.counted;
    if counted.len() < fields {
        return Err(20);
    }
    let (width, escapement) = match packet.form {
        Form::Short => ([0, counted[0], counted[1], counted[2]], i64::from(counted[3])),
        Form::Extended => ([0, counted[0], counted[1], counted[2]], i64::from(unsigned(&counted[3..5]))),
        Form::Long => {
            ([counted[0], counted[1], counted[2], counted[3]], whole_pixels(signed(&counted[4..8])))
        }
    };
    let code = u8::try_from(packet.code).map_err(|_| 21)?;
    let escapement = i16::try_from(escapement).map_err(|_| 21)?;
    if !right_first_byte(width[0]) {
        return Err(21);
    }
    Ok((code, Found { escapement, width }))
}

/// The nearest whole number to dx / 65536, of two the higher.
fn whole_pixels(dx: i32) -> i64 {
    // For a divisor above zero this division rounds down, also where dx is negative.
    (i64::from(dx) + 32_768).div_euclid(65_536)
}

#[cfg(test)]
mod tests {
    use super::*;

    #[test]
    fn pixels_from_dx() {
        for (dx, pixels) in [
            (0, 0),
            (32_767, 0),
            (32_768, 1),
            (65_536, 1),
            (98_303, 1),
            (98_304, 2),
            (-32_768, 0),
            (-32_769, -1),
            (-65_536, -1),
            (-98_304, -1),
            (-98_305, -2),
            (2_147_450_879, 32_767),
            (2_147_450_880, 32_768),
            (i32::MAX, 32_768),
            (i32::MIN, -32_768),
        ] {
            assert_eq!(whole_pixels(dx), pixels, "{dx}");
        }
    }

    // No byte more than there are, whatever the count.
    #[test]
    fn bytes_taken() {
        let bytes = [1, 2, 3];
        let mut left = &bytes[..];
        assert_eq!(take(&mut left, 2), Some(&bytes[..2]));
        assert_eq!(take(&mut left, 2), None);
        assert_eq!(take(&mut left, u32::MAX), None);
        assert_eq!(take(&mut left, 1), Some(&bytes[2..]));
        assert_eq!(take(&mut left, 0), Some(&bytes[3..]));
        assert_eq!(take(&mut left, 1), None);
    }
}
