//! Font definitions and the rules for one of them.

use crate::check::check;
use crate::numbers::{signed_if_four, unsigned};
use crate::refusal::{refusal, Refusal};
use std::ops::Range;

/// A file may define no more fonts than this.
pub const MOST_FONTS: usize = 64;

/// 2^27 - 1: the bound of both the scale and the design size.
pub const GREATEST_SCALE: u32 = 134_217_727;

/// What a font definition says, its fields in the file's order.
#[derive(Debug, Clone, PartialEq, Eq)]
pub struct FontDefinition {
    pub number: i32,
    pub check_sum: u32,
    pub scale: u32,
    pub design_size: u32,
    pub area_length: u8,
    pub name_length: u8,
    /// The part of the file that holds the name, area first.
    pub name: Range<usize>,
}

impl FontDefinition {
    /// From a definition's parameter bytes, the first of which stands at `place` in the file.
    pub fn read(parameters: &[u8], bytes_of_number: usize, place: usize) -> FontDefinition {
        let (number, rest) = parameters.split_at(bytes_of_number);
        FontDefinition {
            number: signed_if_four(number),
            check_sum: unsigned(&rest[0..4]),
            scale: unsigned(&rest[4..8]),
            design_size: unsigned(&rest[8..12]),
            area_length: rest[12],
            name_length: rest[13],
            name: place + bytes_of_number + 14..place + parameters.len(),
        }
    }

    /// The name alone, by which the width table tells apart fonts of one check sum and scale. The
    /// area says where a font was kept, which is no part of what it is.
    pub fn name_without_area<'a>(&self, file: &'a [u8]) -> &'a [u8] {
        &file[self.name.start + usize::from(self.area_length)..self.name.end]
    }

    /// Whether the number fits one byte and both sizes are above zero and within their bound.
    pub fn in_range(&self) -> bool {
        (0..=255).contains(&self.number)
            && (1..=GREATEST_SCALE).contains(&self.scale)
            && (1..=GREATEST_SCALE).contains(&self.design_size)
    }

    /// Whether two definitions agree in all they say; in how many bytes they write the number
    /// is left open.
    pub fn same_font(&self, other: &FontDefinition, file: &[u8]) -> bool {
        self.number == other.number
            && self.check_sum == other.check_sum
            && self.scale == other.scale
            && self.design_size == other.design_size
            && self.area_length == other.area_length
            && self.name_length == other.name_length
            && file[self.name.clone()] == file[other.name.clone()]
    }
}

/// The definition of this number among those given.
pub fn find(fonts: &[FontDefinition], number: i32) -> Option<&FontDefinition> {
    fonts.iter().find(|font| font.number == number)
}

/// Where in the file a font's name stands, by its first definition. The whole file is checked
/// before; a number that it does not define is refused (8) without a place.
pub fn name_of_font(file: &[u8], number: i32) -> Result<Range<usize>, Refusal> {
    let survey = check(file)?;
    match find(&survey.fonts, number) {
        Some(font) => Ok(font.name.clone()),
        None => Err(refusal(8, 0)),
    }
}
