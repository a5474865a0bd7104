//! The lines asked and the lines answered.

use crate::check::check;
use crate::commands::read_command;
use crate::cutting::cut;
use crate::fonts::name_of_font;
use crate::packed::width_table;
use crate::placing::{place, record_line};
use crate::refusal::Refusal;
use crate::units::round_distance;
use crate::widening::{narrow, widen};
use crate::widths::{scale_width, Table};
use std::ffi::OsStr;
use std::fs::File;
use std::io::Read;
use std::os::unix::ffi::OsStrExt;

const NO_INPUT: &str = "no input";

/// How long the files may be, none when any length will do; the output area, and that for a new
/// file; the line itself, and on it the list of pages and a font's name.
#[derive(Clone, Copy)]
pub struct Limits {
    pub dvi: Option<u64>,
    pub pk: Option<u64>,
    pub table: Option<u64>,
    pub area: u64,
    pub file_area: u64,
    pub line: usize,
    pub pages: usize,
    pub name: usize,
}

pub const DESK: Limits = Limits {
    dvi: Some(262_144),
    pk: Some(262_144),
    table: Some(65_536),
    area: 60_000,
    file_area: 262_144,
    line: 16_384,
    pages: 1_000,
    name: 255,
};
pub const LONG: Limits = Limits {
    dvi: None,
    pk: None,
    table: None,
    area: u64::MAX,
    file_area: u64::MAX,
    line: usize::MAX,
    pages: usize::MAX,
    name: usize::MAX,
};

/// How many bytes of a new file a line of the answer has.
const BYTES_A_LINE: usize = 32;

/// The line could not be understood, or a file not be read.
struct NoInput;

/// The answer to one line (without its line end); no line end stands after the last line.
pub fn answer(line: &[u8], limits: Limits) -> String {
    match asked(line, limits) {
        Ok(Ok(lines)) => lines,
        Ok(Err(refusal)) => refusal.to_string(),
        Err(NoInput) => NO_INPUT.to_string(),
    }
}

fn asked(line: &[u8], limits: Limits) -> Result<Result<String, Refusal>, NoInput> {
    if line.len() > limits.line {
        return Err(NoInput);
    }
    let words: Vec<&[u8]> = line.split(|byte| *byte == b' ').collect();
    let dvi = |name: &[u8]| contents(name, limits.dvi);
    let pk = |name: &[u8]| contents(name, limits.pk);
    let table = |name: &[u8]| contents(name, limits.table);
    match words[..] {
        [b"read", file, at] => {
            let at = plain(at, u64::MAX)?;
            let file = dvi(file)?;
            Ok(read_command(&file, at).map(|c| format!("command {} {} {}", c.opcode, c.before, c.after)))
        }
        [b"check", file] => {
            let file = dvi(file)?;
            Ok(check(&file).map(|survey| {
                let (pages, fonts) = (survey.pages.len(), survey.fonts.len());
                format!("accepted {pages} {fonts} {} {}", survey.greatest_depth, survey.post)
            }))
        }
        [b"name", file, font] => {
            let font = signed_word(font)?;
            let file = dvi(file)?;
            Ok(name_of_font(&file, font).map(|part| format!("name {} {}", part.start, part.end)))
        }
        [b"spell", file, font] => {
            let font = signed_word(font)?;
            let file = dvi(file)?;
            Ok(name_of_font(&file, font).map(|part| format!("spelled {}", hexadecimal(&file[part]))))
        }
        [b"round", num, den, mag, resolution, n] => {
            let (num, den, mag) = (signed_word(num)?, signed_word(den)?, signed_word(mag)?);
            let (resolution, n) = (unsigned_word(resolution)?, signed_word(n)?);
            Ok(round_distance(num, den, mag, resolution, n).map(|n| format!("rounded {n}")))
        }
        [b"scale", s, b0, b1, b2, b3] => {
            let s = unsigned_word(s)?;
            let width = [byte(b0)?, byte(b1)?, byte(b2)?, byte(b3)?];
            Ok(scale_width(s, width).map(|n| format!("width {n}")))
        }
        [b"table", file] => {
            let file = table(file)?;
            Ok(Table::check(&file).map(|table| format!("right {}", table.count())))
        }
        [b"look", file, check_sum, scale, name, code] => {
            let (check_sum, scale) = (unsigned_word(check_sum)?, unsigned_word(scale)?);
            let (name, code) = (spelled(name, limits.name)?, signed_word(code)?);
            let file = table(file)?;
            Ok(Table::check(&file).map(|table| match table.look_up(check_sum, scale, &name, code) {
                Some(found) => {
                    let [b0, b1, b2, b3] = found.width;
                    format!("found {} {b0} {b1} {b2} {b3}", found.escapement)
                }
                None => "absent".to_string(),
            }))
        }
        [b"place", file, widths, resolution, page, area] => {
            let (resolution, page) = (unsigned_word(resolution)?, unsigned_word(page)?);
            let area = plain(area, limits.area)?;
            let (file, widths) = (dvi(file)?, table(widths)?);
            Ok(place(&file, &widths, resolution, page, area).map(|placed| {
                let mut lines: Vec<String> = placed.records.iter().map(record_line).collect();
                // The counts come last.
                let records = placed.records.len();
                lines.push(format!("end {records} {} {}", placed.missing, placed.specials));
                lines.join("\n")
            }))
        }
        [b"widths", file, scale, area] => {
            let scale = unsigned_word(scale)?;
            let area = plain(area, limits.area)?;
            let file = pk(file)?;
            Ok(width_table(&file, scale, area).map(|records| width_lines(&records)))
        }
        [b"widen", file, area] => {
            let area = plain(area, limits.area)?;
            let file = table(file)?;
            Ok(widen(&file, area).map(|records| width_lines(&records)))
        }
        [b"narrow", file, area] => {
            let area = plain(area, limits.area)?;
            let file = table(file)?;
            Ok(narrow(&file, area).map(|records| width_lines(&records)))
        }
        [b"cut", file, area, ref pages @ ..] if pages.len() <= limits.pages => {
            let area = plain(area, limits.file_area)?;
            let pages =
                pages.iter().map(|page| unsigned_word(page)).collect::<Result<Vec<u32>, NoInput>>()?;
            let file = dvi(file)?;
            Ok(cut(&file, &pages, area).map(|new| {
                let mut lines: Vec<String> = new.chunks(BYTES_A_LINE).map(hexadecimal).collect();
                lines.push(format!("end {}", new.len()));
                lines.join("\n")
            }))
        }
        _ => Err(NoInput),
    }
}

/// Width records, one a line, and how many there are.
fn width_lines<R: AsRef<[u8]>>(records: &[R]) -> String {
    let mut lines: Vec<String> = records.iter().map(|record| hexadecimal(record.as_ref())).collect();
    lines.push(format!("end {}", records.len()));
    lines.join("\n")
}

/// Two digits for each byte; a dash stands for none, so that an answer never lacks a word.
fn hexadecimal(bytes: &[u8]) -> String {
    if bytes.is_empty() {
        return "-".to_string();
    }
    bytes.iter().map(|byte| format!("{byte:02x}")).collect()
}

/// The bytes that `hexadecimal` writes in this way, if there are no more than `most`.
fn spelled(word: &[u8], most: usize) -> Result<Vec<u8>, NoInput> {
    if word == b"-" {
        return Ok(Vec::new());
    }
    if word.is_empty() || word.len() % 2 != 0 || word.len() / 2 > most {
        return Err(NoInput);
    }
    word.chunks(2).map(|pair| Ok(16 * digit(pair[0])? + digit(pair[1])?)).collect()
}

/// A capital letter is none of the sixteen digits.
fn digit(sign: u8) -> Result<u8, NoInput> {
    match sign {
        b'0'..=b'9' => Ok(sign - b'0'),
        b'a'..=b'f' => Ok(sign - b'a' + 10),
        _ => Err(NoInput),
    }
}

/// The bytes of a file, if it can be read and is not longer than the limit.
fn contents(name: &[u8], limit: Option<u64>) -> Result<Vec<u8>, NoInput> {
    let file = File::open(OsStr::from_bytes(name)).map_err(|_| NoInput)?;
    // One byte more than the limit shows that the file is longer.
    let most = limit.map_or(u64::MAX, |limit| limit + 1);
    let mut bytes = Vec::new();
    file.take(most).read_to_end(&mut bytes).map_err(|_| NoInput)?;
    match limit {
        Some(limit) if bytes.len() as u64 > limit => Err(NoInput),
        _ => Ok(bytes),
    }
}

/// Decimal digits alone, one at least, for a number from 0 to `greatest`.
fn plain(word: &[u8], greatest: u64) -> Result<u64, NoInput> {
    if word.is_empty() {
        return Err(NoInput);
    }
    let mut number: u128 = 0;
    for digit in word {
        if !digit.is_ascii_digit() {
            return Err(NoInput);
        }
        number = number * 10 + u128::from(digit - b'0');
        if number > u128::from(greatest) {
            return Err(NoInput);
        }
    }
    Ok(number as u64)
}

fn unsigned_word(word: &[u8]) -> Result<u32, NoInput> {
    plain(word, u32::MAX.into()).map(|number| number as u32)
}

fn byte(word: &[u8]) -> Result<u8, NoInput> {
    plain(word, u8::MAX.into()).map(|number| number as u8)
}

/// A signed 32-bit number: decimal digits, a minus sign before them or not.
fn signed_word(word: &[u8]) -> Result<i32, NoInput> {
    let number = match word {
        [b'-', digits @ ..] => -(plain(digits, 2_147_483_648)? as i64),
        digits => plain(digits, 2_147_483_647)? as i64,
    };
    Ok(number as i32)
}
