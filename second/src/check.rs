//! The check of a whole file.

use crate::commands::{meaning, read_command, Command, Meaning, LONGEST_FILE};
use crate::fonts::{find, FontDefinition, MOST_FONTS};
use crate::refusal::{refusal, Refusal};

/// No more pushes than this may be open at a time.
const DEEPEST: usize = 100;

/// What an accepted file holds.
#[derive(Debug)]
pub struct Survey {
    pub num: i32,
    pub den: i32,
    pub mag: i32,
    /// The place of each *bop*.
    pub pages: Vec<usize>,
    /// The definitions before *post*.
    pub fonts: Vec<FontDefinition>,
    /// The most pushes open at a time, as counted on the pages; the file's own number is not
    /// taken over.
    pub greatest_depth: usize,
    pub post: usize,
}

#[derive(Clone, Copy, PartialEq, Eq)]
enum Section {
    /// No command has passed yet.
    Start,
    /// After *pre* or *eop*.
    Between,
    /// After *bop*.
    Page,
    /// After *post*.
    Postamble,
    /// After *post_post*.
    End,
}

/// What has passed so far.
struct Passed<'a> {
    file: &'a [u8],
    section: Section,
    units: Option<(i32, i32, i32)>,
    pages: Vec<usize>,
    fonts: Vec<FontDefinition>,
    /// The definitions after *post*.
    repeated: Vec<FontDefinition>,
    depth: usize,
    greatest_depth: usize,
    /// Whether a font was selected on this page.
    selected: bool,
    post: Option<usize>,
}

/// Walks the whole file, command by command, and gathers what the answer and the placing of a
/// page need. The first command at fault decides which refusal is given.
pub fn check(file: &[u8]) -> Result<Survey, Refusal> {
    // No command is looked at in a file too long.
    if file.len() > LONGEST_FILE {
        return Err(refusal(1, 0));
    }
    let mut passed = Passed {
        file,
        section: Section::Start,
        units: None,
        pages: Vec::new(),
        fonts: Vec::new(),
        repeated: Vec::new(),
        depth: 0,
        greatest_depth: 0,
        selected: false,
        post: None,
    };
    let mut at = 0;
    while passed.section != Section::End {
        // 2 and 3.
        let command = read_command(file, at as u64)?;
        let says = meaning(file, &command);
        if let Some(number) = passed.lowest_refusal(&command, &says) {
            return Err(refusal(number, at));
        }
        passed.take(&command, says);
        at = command.after;
    }
    check_tail(file, at)?;
    let (num, den, mag) = passed.units.expect("a file begins with pre");
    Ok(Survey {
        num,
        den,
        mag,
        pages: passed.pages,
        fonts: passed.fonts,
        greatest_depth: passed.greatest_depth,
        post: passed.post.expect("post stands before post_post"),
    })
}

/// The padding at the end: 223s alone, four at least. A foreign byte is refused (11) where it
/// stands, a padding too short at the file's end.
fn check_tail(file: &[u8], from: usize) -> Result<(), Refusal> {
    let tail = &file[from..];
    if let Some(offset) = tail.iter().position(|byte| *byte != 223) {
        return Err(refusal(11, from + offset));
    }
    if tail.len() < 4 {
        return Err(refusal(11, file.len()));
    }
    Ok(())
}

impl Passed<'_> {
    /// A command can have several faults; the one of the smallest number is told.
    fn lowest_refusal(&self, command: &Command, says: &Meaning) -> Option<u8> {
        let judged = [
            (4, self.refused_4(says)),
            (5, self.refused_5(command.opcode)),
            (6, self.refused_6(says)),
            (7, self.refused_7(says)),
            (8, self.refused_8(says)),
            (9, self.refused_9(says)),
            (10, self.refused_10(says)),
        ];
        let lowest = judged.iter().find(|(_, applies)| *applies);
        lowest.map(|(number, _)| *number)
    }

    /// The file does not open with a *pre* of this format and with units above zero.
    fn refused_4(&self, says: &Meaning) -> bool {
        if self.section != Section::Start {
            return false;
        }
        match *says {
            Meaning::Pre { identification, num, den, mag } => {
                identification != 2 || num <= 0 || den <= 0 || mag <= 0
            }
            _ => true,
        }
    }

    /// The command has no business in this section of the file.
    fn refused_5(&self, opcode: u8) -> bool {
        const NOP: u8 = 138;
        const BOP: u8 = 139;
        const EOP: u8 = 140;
        const PRE: u8 = 247;
        const POST: u8 = 248;
        const POST_POST: u8 = 249;
        let may_stand = match self.section {
            Section::Start => opcode == PRE,
            // Outside pages fonts are made known and nothing is set. *post* has to wait for a
            // page.
            Section::Between => match opcode {
                NOP | BOP | 243..=246 => true,
                POST => !self.pages.is_empty(),
                _ => false,
            },
            // All but another *bop* and what frames the file.
            Section::Page => matches!(opcode, 0..=138 | 141..=246 | EOP),
            // The fonts are told once more.
            Section::Postamble => matches!(opcode, NOP | 243..=246 | POST_POST),
            Section::End => false,
        };
        !may_stand
    }

    /// The stack has nothing to give, no room left, or is not empty as its page ends.
    fn refused_6(&self, says: &Meaning) -> bool {
        match says {
            Meaning::Pop => self.depth == 0,
            Meaning::Push => self.depth >= DEEPEST,
            Meaning::EndPage => self.depth > 0,
            _ => false,
        }
    }

    /// A font is defined wrongly or once too often, or was not repeated after *post*.
    fn refused_7(&self, says: &Meaning) -> bool {
        match says {
            Meaning::DefineFont(font) if self.post.is_none() => {
                !font.in_range() || self.fonts.len() >= MOST_FONTS || find(&self.fonts, font.number).is_some()
            }
            Meaning::DefineFont(font) => {
                // It has to repeat an earlier definition that was not repeated yet.
                let before = find(&self.fonts, font.number);
                let equal = before.is_some_and(|first| font.same_font(first, self.file));
                !equal || find(&self.repeated, font.number).is_some()
            }
            // No definition can follow, so what is still unrepeated stays so.
            Meaning::PostPost { .. } => {
                self.fonts.iter().any(|font| find(&self.repeated, font.number).is_none())
            }
            _ => false,
        }
    }

    /// A font is selected that nothing has defined, or a character finds none selected.
    fn refused_8(&self, says: &Meaning) -> bool {
        match says {
            Meaning::SelectFont(number) => find(&self.fonts, *number).is_none(),
            Meaning::Character { .. } => !self.selected,
            _ => false,
        }
    }

    /// The chain that leads back from the file's end through *post* and page by page to -1 is
    /// broken.
    fn refused_9(&self, says: &Meaning) -> bool {
        let points_to = |pointer: i32, place: Option<usize>| match place {
            Some(place) => i64::from(pointer) == place as i64,
            None => pointer == -1,
        };
        let last_page = self.pages.last().copied();
        match *says {
            Meaning::BeginPage { pointer } => !points_to(pointer, last_page),
            Meaning::Post { pointer, .. } => !points_to(pointer, last_page),
            Meaning::PostPost { pointer, .. } => !points_to(pointer, self.post),
            _ => false,
        }
    }

    /// The postamble does not go with this file: its units, its number of pages or its format
    /// are others, or it promises a stack that the pages outgrew.
    fn refused_10(&self, says: &Meaning) -> bool {
        match *says {
            // Two bytes count the pages, so no file of more than 65,535 gets past here.
            // The depth has a lower bound alone: a writer that counts pushes and then leaves some
            // out promises too much, and that does no harm, even beyond `DEEPEST`.
            Meaning::Post { num, den, mag, depth, pages, .. } => {
                self.units != Some((num, den, mag))
                    || (depth as usize) < self.greatest_depth
                    || pages as usize != self.pages.len()
            }
            Meaning::PostPost { identification, .. } => identification != 2,
            _ => false,
        }
    }

    /// Takes a command that nothing refuses.
    fn take(&mut self, command: &Command, says: Meaning) {
        match says {
            Meaning::Pre { num, den, mag, .. } => {
                self.units = Some((num, den, mag));
                self.section = Section::Between;
            }
            Meaning::BeginPage { .. } => {
                self.pages.push(command.at);
                self.depth = 0;
                // Every page selects its fonts anew.
                self.selected = false;
                self.section = Section::Page;
            }
            Meaning::EndPage => self.section = Section::Between,
            Meaning::Push => {
                self.depth += 1;
                self.greatest_depth = self.greatest_depth.max(self.depth);
            }
            Meaning::Pop => self.depth -= 1,
            Meaning::SelectFont(_) => self.selected = true,
            Meaning::DefineFont(font) if self.post.is_none() => self.fonts.push(font),
            Meaning::DefineFont(font) => self.repeated.push(font),
            Meaning::Post { .. } => {
                self.post = Some(command.at);
                self.section = Section::Postamble;
            }
            Meaning::PostPost { .. } => self.section = Section::End,
            Meaning::Character { .. }
            | Meaning::Rule { .. }
            | Meaning::Nop
            | Meaning::Right(_)
            | Meaning::W(_)
            | Meaning::X(_)
            | Meaning::Down(_)
            | Meaning::Y(_)
            | Meaning::Z(_)
            | Meaning::Special => {}
        }
    }
}
