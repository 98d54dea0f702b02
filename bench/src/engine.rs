//! The five calls on bytes and tables. A table is bytes; a word is four of
//! them, low byte first, in two's complement.

use crate::machine::{Machine, Outcome};
use crate::skeleton::Skeleton;
use crate::tokens::{refuse, Refusal, MAX_BYTES};
pub use crate::write::{read_back, write};

/// Lengths in bytes; of a longer table only these first bytes are used.
pub const SCRATCH: usize = 48000;
pub const ROWS: usize = 8208;
pub const SECTIONS: usize = 24052;
const ROW: usize = 16;

/// What a call answers: 0 and its value, or the refusal's number and place.
#[repr(C)]
#[derive(Clone, Copy, PartialEq, Eq, Debug)]
pub struct Answer {
    pub no: u32,
    pub value: u64,
}

impl From<Result<usize, Refusal>> for Answer {
    fn from(result: Result<usize, Refusal>) -> Answer {
        match result {
            Ok(value) => Answer { no: 0, value: value as u64 },
            Err(Refusal { no, place }) => Answer { no, value: place as u64 },
        }
    }
}

/// Refuses a master that is too long.
pub fn fits(master: &[u8]) -> Result<(), Refusal> {
    if master.len() > MAX_BYTES {
        refuse(10, 0)
    } else {
        Ok(())
    }
}

/// Checks a master and answers its page count.
pub fn load(master: &[u8]) -> Answer {
    let checked = fits(master).and_then(|()| Skeleton::check(master, |_| false));
    checked.map(|skeleton| skeleton.pages()).into()
}

/// Runs all pages into `rows` and answers the page count.
pub fn run(master: &[u8], allowance: i64, scratch: &mut [u8], rows: &mut [u8]) -> Answer {
    run_pages(master, allowance, scratch, rows).into()
}

fn run_pages(
    master: &[u8],
    allowance: i64,
    scratch: &mut [u8],
    rows: &mut [u8],
) -> Result<usize, Refusal> {
    let short = scratch.len() < SCRATCH || rows.len() < ROWS;
    let allowance = admit(master, short, allowance)?;
    let skeleton = Skeleton::check(master, |_| true)?;
    scratch[..SCRATCH].fill(0);
    let mut machine = Machine::new(master, &skeleton, allowance);
    let row = run_preamble(&mut machine)?;
    put_words(rows, &row);
    machine.keep();
    for page in 1..=skeleton.pages() {
        let row = machine.run(page);
        put_words(&mut rows[ROW * page..], &row);
    }
    Ok(skeleton.pages())
}

/// Runs one page, 0 being the preamble, into its row and `sections`, and
/// answers its number.
pub fn reprint(
    master: &[u8],
    allowance: i64,
    page: i64,
    scratch: &mut [u8],
    rows: &mut [u8],
    sections: &mut [u8],
) -> Answer {
    reprint_page(master, allowance, page, scratch, rows, sections).into()
}

fn reprint_page(
    master: &[u8],
    allowance: i64,
    page: i64,
    scratch: &mut [u8],
    rows: &mut [u8],
    sections: &mut [u8],
) -> Result<usize, Refusal> {
    let short = scratch.len() < SCRATCH || rows.len() < ROWS || sections.len() < SECTIONS;
    let allowance = admit(master, short, allowance)?;
    let skeleton = Skeleton::check(master, |body| body == 0 || body as i64 == page)?;
    let Some(page) = usize::try_from(page).ok().filter(|&page| page <= skeleton.pages()) else {
        return refuse(13, 0);
    };
    scratch[..SCRATCH].fill(0);
    let mut machine = Machine::new(master, &skeleton, allowance);
    let mut row = run_preamble(&mut machine)?;
    if page > 0 {
        machine.keep();
        row = machine.run(page);
    }
    put_words(&mut rows[ROW * page..], &row);
    put_sections(&mut sections[..SECTIONS], &machine, page);
    Ok(page)
}

/// What goes before the reading of a master: 10, 11 and 14.
fn admit(master: &[u8], short: bool, allowance: i64) -> Result<u32, Refusal> {
    fits(master)?;
    if short {
        return refuse(11, 0);
    }
    match allowance {
        1..=1_000_000 => Ok(allowance as u32),
        _ => refuse(14, 0),
    }
}

fn run_preamble(machine: &mut Machine) -> Result<[i32; 4], Refusal> {
    let row = machine.run(0);
    if row[0] == Outcome::Broken as i32 {
        refuse(12, 0)
    } else {
        Ok(row)
    }
}

/// Puts words at the start of a table and answers the rest of it.
fn put_words<'t>(table: &'t mut [u8], words: &[i32]) -> &'t mut [u8] {
    let (head, rest) = table.split_at_mut(4 * words.len());
    for (bytes, word) in head.chunks_exact_mut(4).zip(words) {
        bytes.copy_from_slice(&word.to_le_bytes());
    }
    rest
}

/// Writes each section after its count, then zero to the end.
fn put_sections(sections: &mut [u8], machine: &Machine, page: usize) {
    let mut rest = sections;
    for section in machine.sections() {
        rest = put_words(rest, &[section.len() as i32]);
        for &value in section {
            rest = put_words(rest, &machine.words(value, page));
        }
    }
    rest.fill(0);
}
