//! A DVI file of chosen pages of another one.

use crate::check::check;
use crate::commands::{meaning, read_command, Meaning};
use crate::refusal::{refusal, Refusal};

/// The bytes of a file of these pages. First the whole old file is judged (1 to 11), then the list
/// (23), and last of all whether an area of so many bytes holds the new file (17).
pub fn cut(file: &[u8], pages: &[u32], area: u64) -> Result<Vec<u8>, Refusal> {
    let survey = check(file)?;
    if !right_list(pages, survey.pages.len()) {
        return Err(refusal(23, 0));
    }
    let new = put_together(&take_apart(file), pages);
    if area < new.len() as u64 {
        return Err(refusal(17, 0));
    }
    Ok(new)
}

/// One page at least, each after the one before, all among those that there are.
fn right_list(pages: &[u32], count: usize) -> bool {
    let rising = pages.windows(2).all(|pair| pair[0] < pair[1]);
    match (pages.first(), pages.last()) {
        (Some(first), Some(last)) => rising && *first >= 1 && *last as usize <= count,
        _ => false,
    }
}

/// What a file of some of the pages is made of, as the old file has it.
#[derive(Default)]
struct Parts<'a> {
    preamble: &'a [u8],
    /// The definitions before *post*, those on pages too, one after the other.
    definitions: Vec<u8>,
    pages: Vec<Page<'a>>,
    post: &'a [u8],
    /// The definitions after *post*.
    repeated: Vec<u8>,
    post_post: &'a [u8],
}

struct Page<'a> {
    bop: &'a [u8],
    /// All after *bop*, with *eop* and without definitions.
    commands: Vec<u8>,
    greatest_depth: u16,
}

/// Walks over a file that the check accepts.
fn take_apart(file: &[u8]) -> Parts<'_> {
    let mut parts = Parts::default();
    let (mut at, mut depth, mut on_page) = (0, 0, false);
    while parts.post_post.is_empty() {
        let command = read_command(file, at as u64).expect("the check has passed");
        let bytes = &file[at..command.after];
        at = command.after;
        let says = meaning(file, &command);
        match says {
            Meaning::Pre { .. } => parts.preamble = bytes,
            Meaning::DefineFont(_) if parts.post.is_empty() => parts.definitions.extend(bytes),
            Meaning::DefineFont(_) => parts.repeated.extend(bytes),
            Meaning::Post { .. } => parts.post = bytes,
            Meaning::PostPost { .. } => parts.post_post = bytes,
            Meaning::BeginPage { .. } => {
                parts.pages.push(Page { bop: bytes, commands: Vec::new(), greatest_depth: 0 });
                on_page = true;
            }
            // Nothing else stands outside pages but *nop*.
            _ if !on_page => {}
            _ => {
                let page = parts.pages.last_mut().expect("bop has passed");
                page.commands.extend(bytes);
                match says {
                    Meaning::Push => depth += 1,
                    Meaning::Pop => depth -= 1,
                    Meaning::EndPage => on_page = false,
                    _ => {}
                }
                page.greatest_depth = page.greatest_depth.max(depth);
            }
        }
    }
    parts
}

/// The file of the chosen pages, its pointers to places of its own.
fn put_together(parts: &Parts, chosen: &[u32]) -> Vec<u8> {
    let mut out = [parts.preamble, &parts.definitions].concat();
    // A pointer has four bytes, and no file is so long that a place would not fit in.
    let place = |out: &Vec<u8>| (out.len() as u32).to_be_bytes();
    let mut last_page = (-1i32).to_be_bytes();
    let mut depth = 0;
    for number in chosen {
        let page = &parts.pages[*number as usize - 1];
        let here = place(&out);
        // The opcode and the ten counts.
        out.extend(&page.bop[..41]);
        out.extend(last_page);
        out.extend(&page.commands);
        last_page = here;
        depth = page.greatest_depth.max(depth);
    }
    let post = place(&out);
    out.push(parts.post[0]);
    out.extend(last_page);
    // num, den, mag, l and u.
    out.extend(&parts.post[5..25]);
    out.extend(depth.to_be_bytes());
    out.extend((chosen.len() as u16).to_be_bytes());
    out.extend(&parts.repeated);
    out.push(parts.post_post[0]);
    out.extend(post);
    // The identification.
    out.push(parts.post_post[5]);
    out.extend([223; 4]);
    while out.len() % 4 != 0 {
        out.push(223);
    }
    out
}
