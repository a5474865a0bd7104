//! Scaling a width; the width table.

use crate::fonts::GREATEST_SCALE;
use crate::numbers::unsigned;
use crate::refusal::{refusal, Refusal};

/// The bytes that a record has for the name of a font.
const NAME: usize = 16;

/// The bytes that one record of the table takes.
pub const RECORD: usize = NAMED.record();

/// A record with this in the place of a name is for every font of its check sum and scale.
pub const ANY_NAME: [u8; NAME] = [0; NAME];

/// From -16 to just below 16, a fix word's first byte does no more than repeat the sign.
pub fn right_first_byte(byte: u8) -> bool {
    byte == 0 || byte == 255
}

/// The fix word times the font's scale, in the very steps that TeX takes, so that no unit is
/// lost against it. Refused (14) where the steps are not made for the scale or the fix word.
pub fn scale_width(s: u32, width: [u8; 4]) -> Result<i64, Refusal> {
    if !(1..=GREATEST_SCALE).contains(&s) || !right_first_byte(width[0]) {
        return Err(refusal(14, 0));
    }
    // A great scale is cut to 23 bits, so that its products fit 32; alpha and beta make up
    // for the bits lost.
    let mut z = i64::from(s);
    let mut alpha: i64 = 16;
    while z >= 8_388_608 {
        z /= 2;
        alpha *= 2;
    }
    let beta = 256 / alpha;
    let [b0, b1, b2, b3] = width.map(i64::from);
    // From the last byte to the second. Nothing divided is negative, so `/` rounds down.
    let mut scaled = b3 * z / 256;
    scaled = (scaled + b2 * z) / 256;
    scaled = (scaled + b1 * z) / beta;
    // The three bytes of a negative fix word count upwards from -16.
    if b0 == 255 {
        scaled -= alpha * z;
    }
    Ok(scaled)
}

/// What the table holds for one character.
#[derive(Debug, Clone, Copy, PartialEq, Eq)]
pub struct Found {
    /// In pixels.
    pub escapement: i16,
    /// The fix word.
    pub width: [u8; 4],
}

/// A form of the table. All forms have the same fields in the same order, but for the name, which
/// one of them lacks: check sum (4 bytes), scale (4), name, code (1), a zero (1), escapement (2),
/// fix word (4).
#[derive(Debug, Clone, Copy, PartialEq, Eq)]
pub struct Form {
    bytes_of_name: usize,
}

pub const NAMED: Form = Form { bytes_of_name: NAME };

/// The form that tables once had. Two fonts of one check sum and scale cannot be told apart in it.
pub const NAMELESS: Form = Form { bytes_of_name: 0 };

impl Form {
    /// The bytes that one record takes.
    pub const fn record(self) -> usize {
        16 + self.bytes_of_name
    }

    /// Where in a record the name begins, and where the code stands behind it.
    pub const fn name_and_code(self) -> (usize, usize) {
        (8, 8 + self.bytes_of_name)
    }

    /// Judges the records in turn and refuses (14) at the start of the first bad one. No bytes
    /// at all are a table without records.
    pub fn records(self, table: &[u8]) -> Result<Vec<&[u8]>, Refusal> {
        let records: Vec<&[u8]> = table.chunks(self.record()).collect();
        for (index, record) in records.iter().enumerate() {
            let before = if index == 0 { None } else { Some(records[index - 1]) };
            if !self.right_record(record, before) {
                return Err(refusal(14, index * self.record()));
            }
        }
        Ok(records)
    }

    fn right_record(self, record: &[u8], before: Option<&[u8]>) -> bool {
        // The table's end may cut its last record short.
        if record.len() != self.record() {
            return false;
        }
        let (name, code) = self.name_and_code();
        // All up to the code is the key, and it must be greater than the key before.
        let rises = before.is_none_or(|before| before[..=code] < record[..=code]);
        rises
            && (1..=GREATEST_SCALE).contains(&unsigned(&record[4..8]))
            && right_name(&record[name..code])
            && record[code + 1] == 0
            && right_first_byte(record[code + 4])
    }
}

/// Once a name has ended there are only zeros, so that no name can be written in two ways.
fn right_name(field: &[u8]) -> bool {
    let length = field.iter().position(|byte| *byte == 0).unwrap_or(field.len());
    field[length..].iter().all(|byte| *byte == 0)
}

/// The name as records hold it, or none where no record can: it is too long, or its zeros would
/// be taken for those behind a name.
fn field_of_name(name: &[u8]) -> Option<[u8; NAME]> {
    if name.len() > NAME || name.contains(&0) {
        return None;
    }
    let mut field = ANY_NAME;
    field[..name.len()].copy_from_slice(name);
    Some(field)
}

/// A record for fonts of any name.
pub fn record_for_any_name(check_sum: [u8; 4], scale: u32, code: u8, found: Found) -> [u8; RECORD] {
    let (_, at) = NAMED.name_and_code();
    let mut record = [0; RECORD];
    record[0..4].copy_from_slice(&check_sum);
    record[4..8].copy_from_slice(&scale.to_be_bytes());
    record[at] = code;
    record[at + 2..at + 4].copy_from_slice(&found.escapement.to_be_bytes());
    record[at + 4..at + 8].copy_from_slice(&found.width);
    record
}

/// A width table that was found right.
pub struct Table<'a> {
    records: Vec<&'a [u8]>,
}

impl<'a> Table<'a> {
    pub fn check(bytes: &'a [u8]) -> Result<Table<'a>, Refusal> {
        NAMED.records(bytes).map(|records| Table { records })
    }

    pub fn count(&self) -> usize {
        self.records.len()
    }

    /// The metrics of a font's character, or none where the table lacks it. The name is the
    /// font's without an area and of any length. What stands under that name goes first; a
    /// character that does not is sought among those for any name, whatever became of the font's
    /// other characters. Only the last byte of the code counts.
    pub fn look_up(&self, check_sum: u32, scale: u32, name: &[u8], code: i32) -> Option<Found> {
        let own = field_of_name(name).and_then(|field| self.search(check_sum, scale, field, code));
        own.or_else(|| self.search(check_sum, scale, ANY_NAME, code))
    }

    fn search(&self, check_sum: u32, scale: u32, name: [u8; NAME], code: i32) -> Option<Found> {
        let last_byte = [code.rem_euclid(256) as u8];
        let sought = [&check_sum.to_be_bytes()[..], &scale.to_be_bytes(), &name, &last_byte].concat();
        // Keys are in order and none comes twice, so halving finds the one sought.
        let key = |record: &'a [u8]| &record[..sought.len()];
        let index = self.records.binary_search_by(|record| key(record).cmp(&sought)).ok()?;
        let record = self.records[index];
        let (_, at) = NAMED.name_and_code();
        Some(Found {
            escapement: i16::from_be_bytes([record[at + 2], record[at + 3]]),
            width: [record[at + 4], record[at + 5], record[at + 6], record[at + 7]],
        })
    }
}
