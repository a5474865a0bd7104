//! The placing of one page.

use crate::check::check;
use crate::commands::{meaning, read_command, Meaning};
use crate::fonts::{find, FontDefinition};
use crate::numbers::{signed, unsigned};
use crate::refusal::{refusal, Refusal};
use crate::units::{check_resolution, Unit};
use crate::widths::{scale_width, Table};

/// What was placed: its kind and font in a byte each, the page in two, then four numbers of four
/// bytes: hh and vv, and after them a character's code (all of it) and escapement or a rule's
/// height and width in pixels. The font of a rule is 0.
pub type Record = [u8; 20];

const CHARACTER: u8 = 1;
const RULE: u8 = 2;

/// So far from zero, on either side, h and v may be; a move beyond is refused (16).
const FURTHEST: i64 = 2_147_483_647;

/// What a page came to. Characters without metrics and specials are only counted.
#[derive(Debug)]
pub struct Placed {
    pub records: Vec<Record>,
    pub missing: usize,
    pub specials: usize,
}

/// Where the page has got to, in units and in pixels, and its kept distances: all that *push*
/// puts away.
#[derive(Debug, Clone, Copy, PartialEq, Eq)]
struct Registers {
    h: i64,
    v: i64,
    w: i64,
    x: i64,
    y: i64,
    z: i64,
    hh: i64,
    vv: i64,
}

/// How every page begins.
const FRESH: Registers = Registers { h: 0, v: 0, w: 0, x: 0, y: 0, z: 0, hh: 0, vv: 0 };

/// What stays the same throughout a page.
struct Measure {
    unit: Unit,
    /// D.
    drift: i64,
}

/// h or v would leave its range.
#[derive(Debug, PartialEq, Eq)]
struct Leaves;

impl Measure {
    fn new(unit: Unit, resolution: u32) -> Measure {
        // The coarser the pixels, the fewer of them may be astray.
        let drift = match resolution {
            0..=99 => 0,
            100..=199 => 1,
            _ => 2,
        };
        Measure { unit, drift }
    }

    /// A pixel strays no more than D from its position's own pixel: one further off is pulled
    /// back to D on the side where it was.
    fn held_to_drift(&self, pixel: i64, position: i64) -> i64 {
        let rounded = self.unit.rounded(position);
        if pixel > rounded + self.drift {
            rounded + self.drift
        } else if pixel < rounded - self.drift {
            rounded - self.drift
        } else {
            pixel
        }
    }

    /// One move over space, sideways or down: the new position and the new pixel.
    /// A near one moves the pixel by itself alone, so that equal distances look equal; a far one
    /// takes the pixel of the position reached.
    fn moved(&self, position: i64, pixel: i64, n: i64, near: bool) -> Result<(i64, i64), Leaves> {
        let position = grown(position, n)?;
        let pixel = if near { pixel + self.unit.rounded(n) } else { self.unit.rounded(position) };
        Ok((position, self.held_to_drift(pixel, position)))
    }
}

fn grown(position: i64, n: i64) -> Result<i64, Leaves> {
    let position = position + n;
    if (-FURTHEST..=FURTHEST).contains(&position) {
        Ok(position)
    } else {
        Err(Leaves)
    }
}

/// Small against the font: under a fifth of its scale to the right, nine tenths to the left.
fn near_sideways(n: i64, s: i64) -> bool {
    if n >= 0 {
        5 * n < s
    } else {
        10 * n.abs() < 9 * s
    }
}

/// Under four fifths of the font's scale, up as well as down.
fn near_down(n: i64, s: i64) -> bool {
    5 * n.abs() < 4 * s
}

/// Which of two moves a command makes sideways. Each caller says it, since neither is the usual
/// one.
#[derive(Debug, Clone, Copy, PartialEq, Eq)]
enum SidewaysMove {
    /// Nothing is drawn on the way: *right*, *w* and *x*.
    Space,
    /// A bar lies on the way, or would if it had an area: *set_rule*.
    Bar,
}

impl Registers {
    fn sideways(self, n: i64, which: SidewaysMove, s: i64, measure: &Measure) -> Result<Registers, Leaves> {
        match which {
            SidewaysMove::Space => {
                let (h, hh) = measure.moved(self.h, self.hh, n, near_sideways(n, s))?;
                Ok(Registers { h, hh, ..self })
            }
            // As many pixels as are drawn, whatever the font, so that what follows does not
            // overlap the bar.
            SidewaysMove::Bar => self.past(n, measure.unit.rounded_up(n), measure),
        }
    }

    fn down(self, n: i64, s: i64, measure: &Measure) -> Result<Registers, Leaves> {
        let (v, vv) = measure.moved(self.v, self.vv, n, near_down(n, s))?;
        Ok(Registers { v, vv, ..self })
    }

    /// Behind a character or a bar: its pixels are its own and need not agree with its units, so
    /// here too the pixel may have to be pulled back.
    fn past(self, units: i64, pixels: i64, measure: &Measure) -> Result<Registers, Leaves> {
        let h = grown(self.h, units)?;
        let hh = measure.held_to_drift(self.hh + pixels, h);
        Ok(Registers { h, hh, ..self })
    }
}

/// One page while it is walked.
struct Page<'a> {
    file: &'a [u8],
    number: u32,
    measure: Measure,
    table: Table<'a>,
    fonts: &'a [FontDefinition],
    registers: Registers,
    stack: Vec<Registers>,
    font: Option<&'a FontDefinition>,
    placed: Placed,
}

/// Places one page. Refusals are sought from the lowest to the highest number: first the file's
/// (1 to 11), then the others, of which only the table's (14) and a move's (16) have a place.
pub fn place(
    file: &[u8],
    table: &[u8],
    resolution: u32,
    page: u32,
    area_bytes: u64,
) -> Result<Placed, Refusal> {
    // 1 to 11
    let survey = check(file)?;
    // 12
    check_resolution(resolution)?;
    // 13
    let unit = Unit::new(survey.num, survey.den, survey.mag, resolution)?;
    // 14
    let table = Table::check(table)?;
    // 15
    if page < 1 || page as usize > survey.pages.len() {
        return Err(refusal(15, 0));
    }
    let mut walked = Page {
        file,
        number: page,
        measure: Measure::new(unit, resolution),
        table,
        fonts: &survey.fonts,
        registers: FRESH,
        stack: Vec::new(),
        font: None,
        placed: Placed { records: Vec::new(), missing: 0, specials: 0 },
    };
    // 16, at the first command of the page that would leave the range.
    let mut at = survey.pages[page as usize - 1];
    loop {
        let command = read_command(file, at as u64)?;
        let says = meaning(file, &command);
        if says == Meaning::EndPage {
            break;
        }
        walked.obey(says).map_err(|Leaves| refusal(16, at))?;
        at = command.after;
    }
    // 17, which only a page walked to its end can tell.
    if area_bytes < 20 * walked.placed.records.len() as u64 {
        return Err(refusal(17, 0));
    }
    Ok(walked.placed)
}

impl Page<'_> {
    fn obey(&mut self, says: Meaning) -> Result<(), Leaves> {
        match says {
            Meaning::Character { code, moves } => self.character(code, moves)?,
            Meaning::Rule { height, width, moves } => self.rule(height, width, moves)?,
            Meaning::Right(n) => self.sideways(n.into(), SidewaysMove::Space)?,
            Meaning::W(given) => {
                if let Some(n) = given {
                    self.registers.w = n.into();
                }
                self.sideways(self.registers.w, SidewaysMove::Space)?;
            }
            Meaning::X(given) => {
                if let Some(n) = given {
                    self.registers.x = n.into();
                }
                self.sideways(self.registers.x, SidewaysMove::Space)?;
            }
            Meaning::Down(n) => self.down(n.into())?,
            Meaning::Y(given) => {
                if let Some(n) = given {
                    self.registers.y = n.into();
                }
                self.down(self.registers.y)?;
            }
            Meaning::Z(given) => {
                if let Some(n) = given {
                    self.registers.z = n.into();
                }
                self.down(self.registers.z)?;
            }
            // The pixels go with the units, although appendix A names the units only. The font
            // stays as it is.
            Meaning::Push => self.stack.push(self.registers),
            Meaning::Pop => {
                self.registers = self.stack.pop().expect("the check refuses a pop too many");
            }
            Meaning::SelectFont(number) => {
                let font = find(self.fonts, number);
                self.font = Some(font.expect("the check refuses an undefined font"));
            }
            Meaning::Special => self.placed.specials += 1,
            // Nothing comes over from an earlier page.
            Meaning::BeginPage { .. } => {
                self.registers = FRESH;
                self.stack.clear();
                self.font = None;
            }
            Meaning::Nop
            | Meaning::DefineFont(_)
            | Meaning::EndPage
            | Meaning::Pre { .. }
            | Meaning::Post { .. }
            | Meaning::PostPost { .. } => {}
        }
        Ok(())
    }

    /// What moves over space are measured against; before a font is selected, none is near.
    fn scale(&self) -> i64 {
        self.font.map_or(0, |font| i64::from(font.scale))
    }

    fn sideways(&mut self, n: i64, which: SidewaysMove) -> Result<(), Leaves> {
        self.registers = self.registers.sideways(n, which, self.scale(), &self.measure)?;
        Ok(())
    }

    fn down(&mut self, n: i64) -> Result<(), Leaves> {
        self.registers = self.registers.down(n, self.scale(), &self.measure)?;
        Ok(())
    }

    fn character(&mut self, code: i32, moves: bool) -> Result<(), Leaves> {
        let font = self.font.expect("the check refuses a character before a selection");
        // The font's number has no part in this: the table serves many files.
        let name = font.name_without_area(self.file);
        let Some(found) = self.table.look_up(font.check_sum, font.scale, name, code) else {
            // Without metrics it can neither be placed nor passed.
            self.placed.missing += 1;
            return Ok(());
        };
        let font_number = u8::try_from(font.number).expect("font numbers are 0 to 255");
        let record = self.record(CHARACTER, font_number, code.into(), found.escapement.into());
        self.placed.records.push(record);
        if moves {
            let width = scale_width(font.scale, found.width).expect("font and table are right");
            let escapement = i64::from(found.escapement);
            self.registers = self.registers.past(width, escapement, &self.measure)?;
        }
        Ok(())
    }

    fn rule(&mut self, height: i32, width: i32, moves: bool) -> Result<(), Leaves> {
        // Without an area there is nothing to see, but its width may still have to be passed.
        if height > 0 && width > 0 {
            let unit = self.measure.unit;
            let record = self.record(RULE, 0, unit.rounded_up(height.into()), unit.rounded_up(width.into()));
            self.placed.records.push(record);
        }
        if moves {
            self.sideways(width.into(), SidewaysMove::Bar)?;
        }
        Ok(())
    }

    fn record(&self, kind: u8, font: u8, first: i64, second: i64) -> Record {
        let four = |number: i64| i32::try_from(number).expect("four bytes hold it").to_be_bytes();
        let page = u16::try_from(self.number).expect("at most 65,535 pages");
        let mut record = [0; 20];
        record[0] = kind;
        record[1] = font;
        record[2..4].copy_from_slice(&page.to_be_bytes());
        record[4..8].copy_from_slice(&four(self.registers.hh));
        record[8..12].copy_from_slice(&four(self.registers.vv));
        record[12..16].copy_from_slice(&four(first));
        record[16..20].copy_from_slice(&four(second));
        record
    }
}

/// A record in print: a letter for its kind, the page before the font, the rest as it stands.
pub fn record_line(record: &Record) -> String {
    let kind = if record[0] == CHARACTER { 'c' } else { 'r' };
    format!(
        "{kind} {} {} {} {} {} {}",
        unsigned(&record[2..4]),
        record[1],
        signed(&record[4..8]),
        signed(&record[8..12]),
        signed(&record[12..16]),
        signed(&record[16..20]),
    )
}

#[cfg(test)]
mod tests {
    use super::*;

    fn measure_three_tenths() -> Measure {
        Measure::new(Unit::new(254, 1, 1000, 300).unwrap(), 300)
    }

    // Each of six near moves of one pixel and a half counts as two; the sum, 12, is pulled back
    // to two beyond 9.
    #[test]
    fn right_five_six_times() {
        let measure = measure_three_tenths();
        assert_eq!(measure.unit, Unit { p: 3, q: 10 });
        assert_eq!(measure.drift, 2);
        for (n, h, hh) in [(5, 30, 11), (-5, -30, -11)] {
            let mut registers = FRESH;
            for _ in 0..6 {
                registers = registers.sideways(n, SidewaysMove::Space, 100, &measure).unwrap();
            }
            assert_eq!((registers.h, registers.hh), (h, hh));
            let mut registers = FRESH;
            for _ in 0..6 {
                registers = registers.down(n, 100, &measure).unwrap();
            }
            assert_eq!((registers.v, registers.vv), (h, hh));
        }
    }

    // The furthest near move and the nearest far one, in every direction.
    #[test]
    fn near_and_far() {
        assert!(near_sideways(19, 100) && !near_sideways(20, 100));
        assert!(near_sideways(-89, 100) && !near_sideways(-90, 100));
        assert!(near_down(79, 100) && !near_down(80, 100));
        assert!(near_down(-79, 100) && !near_down(-80, 100));
        // No font: nothing is near.
        assert!(!near_sideways(0, 0) && !near_sideways(-1, 0) && !near_down(0, 0));
    }

    // The same seen in pixels: at h 1, hh 2, a near move keeps the pixel's lead and a far one
    // rounds afresh.
    #[test]
    fn near_and_far_in_pixels() {
        let measure = measure_three_tenths();
        let from = Registers { h: 1, hh: 2, v: 1, vv: 2, ..FRESH };
        let right = |n| from.sideways(n, SidewaysMove::Space, 100, &measure).unwrap().hh;
        assert_eq!(right(19), 2 + 6);
        assert_eq!(right(20), 6);
        assert_eq!(right(-89), 2 - 27);
        assert_eq!(right(-90), -27);
        let down = |n| from.down(n, 100, &measure).unwrap().vv;
        assert_eq!(down(79), 2 + 24);
        assert_eq!(down(80), 24);
        assert_eq!(down(-79), 2 - 24);
        assert_eq!(down(-80), -24);
    }

    #[test]
    fn drift_by_resolution() {
        let unit = Unit { p: 1, q: 10 };
        for (resolution, drift) in [(1, 0), (99, 0), (100, 1), (199, 1), (200, 2), (10_000, 2)] {
            assert_eq!(Measure::new(unit, resolution).drift, drift);
        }
    }

    // From the same place past a bar: the pixel keeps its lead whether a move over space would
    // have been near or far, and the font's scale plays no part.
    #[test]
    fn bars_in_pixels() {
        let measure = measure_three_tenths();
        let from = Registers { h: 1, hh: 2, v: 1, vv: 2, ..FRESH };
        for s in [0, 1, 100, 134_217_727] {
            let bar = |n| from.sideways(n, SidewaysMove::Bar, s, &measure).unwrap();
            for (n, pixels) in [(0, 0), (1, 1), (18, 6), (19, 6), (20, 6), (21, 7)] {
                assert_eq!(bar(n), Registers { h: 1 + n, hh: 2 + pixels, ..from });
            }
            for (n, pixels) in [(-1, 0), (-4, -1), (-89, -26), (-90, -27), (-91, -27)] {
                assert_eq!(bar(n), Registers { h: 1 + n, hh: 2 + pixels, ..from });
            }
            // The lead is 2 at most: 8 against 5 and 2 against -1 are pulled back.
            assert_eq!((bar(17).hh, bar(-3).hh), (7, 1));
        }
    }

    #[test]
    fn range_of_positions() {
        let measure = measure_three_tenths();
        let at_one = Registers { h: 1, v: -1, ..FRESH };
        for which in [SidewaysMove::Space, SidewaysMove::Bar] {
            let h = |from: Registers, n| from.sideways(n, which, 0, &measure).map(|to| to.h);
            assert_eq!(h(at_one, -2_147_483_648), Ok(-2_147_483_647));
            assert_eq!(h(FRESH, -2_147_483_648), Err(Leaves));
            assert_eq!(h(at_one, 2_147_483_646), Ok(2_147_483_647));
            assert_eq!(h(at_one, 2_147_483_647), Err(Leaves));
        }
        assert_eq!(at_one.down(-2_147_483_646, 0, &measure).unwrap().v, -2_147_483_647);
        assert_eq!(at_one.down(-2_147_483_647, 0, &measure), Err(Leaves));
    }
}
