//! Reading one command, and what it means.

use crate::fonts::FontDefinition;
use crate::numbers::{signed, signed_if_four, unsigned};
use crate::refusal::{refusal, Refusal};

/// 16 MiB; a longer file is refused (1) unread.
pub const LONGEST_FILE: usize = 16_777_216;

/// How many parameter bytes each opcode from 128 on has at least. Names, comments and specials
/// come on top; their own parameters say how long they are.
#[rustfmt::skip]
const PARAMETER_BYTES: [usize; 122] = [
    1, 2, 3, 4,             // 128 to 131: set1 to set4
    8,                      // 132: set_rule
    1, 2, 3, 4,             // 133 to 136: put1 to put4
    8,                      // 137: put_rule
    0,                      // 138: nop
    44,                     // 139: bop
    0,                      // 140: eop
    0, 0,                   // 141, 142: push, pop
    1, 2, 3, 4,             // 143 to 146: right1 to right4
    0, 1, 2, 3, 4,          // 147 to 151: w0 to w4
    0, 1, 2, 3, 4,          // 152 to 156: x0 to x4
    1, 2, 3, 4,             // 157 to 160: down1 to down4
    0, 1, 2, 3, 4,          // 161 to 165: y0 to y4
    0, 1, 2, 3, 4,          // 166 to 170: z0 to z4
    0, 0, 0, 0, 0, 0, 0, 0, // 171 to 234: fnt_num_0 to fnt_num_63
    0, 0, 0, 0, 0, 0, 0, 0,
    0, 0, 0, 0, 0, 0, 0, 0,
    0, 0, 0, 0, 0, 0, 0, 0,
    0, 0, 0, 0, 0, 0, 0, 0,
    0, 0, 0, 0, 0, 0, 0, 0,
    0, 0, 0, 0, 0, 0, 0, 0,
    0, 0, 0, 0, 0, 0, 0, 0,
    1, 2, 3, 4,             // 235 to 238: fnt1 to fnt4
    1, 2, 3, 4,             // 239 to 242: xxx1 to xxx4
    15, 16, 17, 18,         // 243 to 246: fnt_def1 to fnt_def4
    14,                     // 247: pre
    28,                     // 248: post
    5,                      // 249: post_post
];

/// One command of the file: its opcode, where that stands, and its parameters'
/// part of the file (from `before` to `after`, which is the place after the command).
#[derive(Debug, Clone, Copy, PartialEq, Eq)]
pub struct Command {
    pub opcode: u8,
    pub at: usize,
    pub before: usize,
    pub after: usize,
}

/// Reads the command at any place whatever. A file too long is refused (1) at its start; a
/// command cut off or missing (2) and an opcode that does not exist (3) where it was sought.
pub fn read_command(file: &[u8], at: u64) -> Result<Command, Refusal> {
    if file.len() > LONGEST_FILE {
        return Err(refusal(1, 0));
    }
    if at >= file.len() as u64 {
        return Err(Refusal { number: 2, place: at });
    }
    let at = at as usize;
    let opcode = file[at];
    let before = at + 1;
    // An opcode that does not exist has no parameters to be cut off: 2 cannot go before 3.
    let fixed = match opcode {
        0..=127 => 0,
        128..=249 => PARAMETER_BYTES[usize::from(opcode) - 128],
        250..=255 => return Err(refusal(3, at)),
    };
    let left = file.len() - before;
    if fixed > left {
        return Err(refusal(2, at));
    }
    // These lengths never count as negative, not even those of four bytes.
    let parameters = &file[before..before + fixed];
    let added: u64 = match opcode {
        239..=242 => u64::from(unsigned(parameters)),
        243..=246 => u64::from(parameters[fixed - 2]) + u64::from(parameters[fixed - 1]),
        247 => u64::from(parameters[fixed - 1]),
        _ => 0,
    };
    if added > (left - fixed) as u64 {
        return Err(refusal(2, at));
    }
    Ok(Command { opcode, at, before, after: before + fixed + added as usize })
}

/// What a command says, its parameters read.
#[derive(Debug, Clone, PartialEq, Eq)]
pub enum Meaning {
    /// `moves` is true of the *set* forms, false of the *put* forms.
    Character {
        code: i32,
        moves: bool,
    },
    Rule {
        height: i32,
        width: i32,
        moves: bool,
    },
    Nop,
    BeginPage {
        pointer: i32,
    },
    EndPage,
    Push,
    Pop,
    Right(i32),
    /// The new value of the register, or none for the form without a parameter.
    W(Option<i32>),
    X(Option<i32>),
    Down(i32),
    Y(Option<i32>),
    Z(Option<i32>),
    SelectFont(i32),
    Special,
    DefineFont(FontDefinition),
    Pre {
        identification: u8,
        num: i32,
        den: i32,
        mag: i32,
    },
    Post {
        pointer: i32,
        num: i32,
        den: i32,
        mag: i32,
        /// How deep the writer says the stack gets, which may be deeper than it does.
        depth: u32,
        pages: u32,
    },
    PostPost {
        pointer: i32,
        identification: u8,
    },
}

/// The meaning of a command that `read_command` gave for this file.
pub fn meaning(file: &[u8], command: &Command) -> Meaning {
    let p = &file[command.before..command.after];
    // Distances have a sign in each of their forms.
    let register = || if p.is_empty() { None } else { Some(signed(p)) };
    match command.opcode {
        // Here and from 171 to 234 the opcode itself is the parameter.
        code @ 0..=127 => Meaning::Character { code: i32::from(code), moves: true },
        128..=131 => Meaning::Character { code: signed_if_four(p), moves: true },
        132 => Meaning::Rule { height: signed(&p[0..4]), width: signed(&p[4..8]), moves: true },
        133..=136 => Meaning::Character { code: signed_if_four(p), moves: false },
        137 => Meaning::Rule { height: signed(&p[0..4]), width: signed(&p[4..8]), moves: false },
        138 => Meaning::Nop,
        139 => Meaning::BeginPage { pointer: signed(&p[40..44]) },
        140 => Meaning::EndPage,
        141 => Meaning::Push,
        142 => Meaning::Pop,
        143..=146 => Meaning::Right(signed(p)),
        147..=151 => Meaning::W(register()),
        152..=156 => Meaning::X(register()),
        157..=160 => Meaning::Down(signed(p)),
        161..=165 => Meaning::Y(register()),
        166..=170 => Meaning::Z(register()),
        number @ 171..=234 => Meaning::SelectFont(i32::from(number) - 171),
        235..=238 => Meaning::SelectFont(signed_if_four(p)),
        239..=242 => Meaning::Special,
        243..=246 => {
            Meaning::DefineFont(FontDefinition::read(p, usize::from(command.opcode) - 242, command.before))
        }
        247 => Meaning::Pre {
            identification: p[0],
            num: signed(&p[1..5]),
            den: signed(&p[5..9]),
            mag: signed(&p[9..13]),
        },
        // Bytes 16 to 23, the greatest height and width of a page, are under no rule.
        248 => Meaning::Post {
            pointer: signed(&p[0..4]),
            num: signed(&p[4..8]),
            den: signed(&p[8..12]),
            mag: signed(&p[12..16]),
            depth: unsigned(&p[24..26]),
            pages: unsigned(&p[26..28]),
        },
        249 => Meaning::PostPost { pointer: signed(&p[0..4]), identification: p[4] },
        250..=255 => unreachable!("read_command refuses these opcodes"),
    }
}

#[cfg(test)]
mod tests {
    use super::*;

    fn read(file: &[u8], at: u64) -> Result<(u8, usize, usize), (u8, u64)> {
        read_command(file, at).map(|c| (c.opcode, c.before, c.after)).map_err(|r| (r.number, r.place))
    }

    #[test]
    fn places_and_refusals_of_one_command() {
        assert_eq!(read(&[], 0), Err((2, 0)));
        assert_eq!(read(&[138], 1), Err((2, 1)));
        assert_eq!(read(&[138], u64::MAX), Err((2, u64::MAX)));
        assert_eq!(read(&[0, 138], 1), Ok((138, 2, 2)));
        assert_eq!(read(&[0, 250], 1), Err((3, 1)));
        assert_eq!(read(&[255], 0), Err((3, 0)));
        assert_eq!(read(&[127], 0), Ok((127, 1, 1)));
        assert_eq!(read(&[128], 0), Err((2, 0)));
        assert_eq!(read(&[131, 1, 2, 3, 4], 0), Ok((131, 1, 5)));
        assert_eq!(read(&[131, 1, 2, 3], 0), Err((2, 0)));
        assert_eq!(read(&[239, 3, 1, 2, 3], 0), Ok((239, 1, 5)));
        assert_eq!(read(&[239, 4, 1, 2, 3], 0), Err((2, 0)));
        assert_eq!(read(&[242, 255, 255, 255, 255], 0), Err((2, 0)));
        assert_eq!(read(&[242, 0, 0, 0, 1, 9], 0), Ok((242, 1, 6)));
        assert_eq!(read(&vec![138; LONGEST_FILE], 16_777_215), Ok((138, 16_777_216, 16_777_216)));
        assert_eq!(read(&vec![255; LONGEST_FILE + 1], 99), Err((1, 0)));
    }

    #[test]
    fn every_opcode_has_its_length() {
        for opcode in 0..=249u8 {
            let mut file = vec![0; 60];
            file[0] = opcode;
            let length = match opcode {
                0..=127 | 138 | 140..=142 | 147 | 152 | 161 | 166 | 171..=234 => 0,
                128 | 133 | 143 | 148 | 153 | 157 | 162 | 167 | 235 | 239 => 1,
                129 | 134 | 144 | 149 | 154 | 158 | 163 | 168 | 236 | 240 => 2,
                130 | 135 | 145 | 150 | 155 | 159 | 164 | 169 | 237 | 241 => 3,
                131 | 136 | 146 | 151 | 156 | 160 | 165 | 170 | 238 | 242 => 4,
                132 | 137 => 8,
                139 => 44,
                243 => 15,
                244 => 16,
                245 => 17,
                246 => 18,
                247 => 14,
                248 => 28,
                249 => 5,
                250..=255 => unreachable!(),
            };
            assert_eq!(read(&file, 0), Ok((opcode, 1, 1 + length)), "opcode {opcode}");
            assert_eq!(read(&file[..1 + length], 0), Ok((opcode, 1, 1 + length)));
            if length > 0 {
                assert_eq!(read(&file[..length], 0), Err((2, 0)), "opcode {opcode}");
            }
            let command = read_command(&file, 0).unwrap();
            meaning(&file, &command);
        }
    }
}
