//! The listing of document 01, made from the tables that the calls fill.

use crate::engine::{self, Answer, ROWS, SCRATCH, SECTIONS};
use crate::machine::FRAME;
use crate::skeleton::Skeleton;
use crate::tokens::Sequence;
use std::fmt::Write;

const MAX_LISTED: usize = 32768;
const ALLOWANCE: i64 = 100_000;

pub fn refused(answer: Answer) -> String {
    format!("refused {} at {}", answer.no, answer.value)
}

/// The words of a table.
pub fn words(table: &[u8]) -> Vec<i32> {
    table.chunks_exact(4).map(|b| i32::from_le_bytes([b[0], b[1], b[2], b[3]])).collect()
}

/// Row and sections, up to the last value, of one page.
pub fn reprinted(master: &[u8], allowance: i64, page: i64) -> Result<(Vec<i32>, Vec<i32>), Answer> {
    let (mut scratch, mut rows) = (vec![7; SCRATCH], vec![7; ROWS]);
    let mut sections = vec![7; SECTIONS];
    let answer = engine::reprint(master, allowance, page, &mut scratch, &mut rows, &mut sections);
    if answer.no != 0 {
        return Err(answer);
    }
    let row = words(&rows[16 * page as usize..][..16]);
    let mut sections = words(&sections);
    let mut used = 0;
    for _ in 0..3 {
        used += 1 + 5 * sections[used] as usize;
    }
    sections.truncate(used);
    Ok((row, sections))
}

/// What the program `pages` prints.
pub fn pages(master: &[u8]) -> String {
    if master.len() > MAX_LISTED {
        return "refused 10 at 0\n".into();
    }
    list(master).unwrap_or_else(|answer| refused(answer) + "\n")
}

fn list(master: &[u8]) -> Result<String, Answer> {
    let count = engine::load(master);
    if count.no != 0 {
        return Err(count);
    }
    let mut out = String::new();
    for page in 0..=count.value as usize {
        let (row, sections) = reprinted(master, ALLOWANCE, page as i64)?;
        let outcome = ["?", "F", "R", "B"][row[0] as usize];
        let [errors, steps, cells] = [row[1], row[2], row[3]];
        let _ = writeln!(
            out,
            "page {page} outcome {outcome} errors {errors} steps {steps} cells {cells}"
        );
        list_sections(&mut out, &sections, &Texts::new(master, page));
    }
    Ok(out)
}

fn list_sections(out: &mut String, sections: &[i32], texts: &Texts) {
    let (stack, rest) = section(sections);
    let (frame, rest) = section(rest);
    let (cells, _) = section(rest);
    assert_eq!(frame.len(), FRAME);
    let _ = writeln!(out, "stack {}", stack.len());
    stack.iter().for_each(|value| texts.list(out, value));
    let set: Vec<_> = frame.iter().enumerate().filter(|(_, v)| **v != [1, 0, 1, 0, 0]).collect();
    let _ = writeln!(out, "frame {}", set.len());
    for (index, value) in set {
        let _ = write!(out, "{index} ");
        texts.list(out, value);
    }
    let _ = writeln!(out, "cells {}", cells.len());
    cells.iter().for_each(|value| texts.list(out, value));
}

/// The values of the first section, and the words after it.
fn section(words: &[i32]) -> (&[[i32; 5]], &[i32]) {
    let (values, rest) = words[1..].split_at(5 * words[0] as usize);
    (values.as_chunks().0, rest)
}

/// The master with the starts of the preamble and of a page.
struct Texts<'a> {
    master: &'a [u8],
    starts: [usize; 2],
}

impl Texts<'_> {
    fn new(master: &[u8], page: usize) -> Texts<'_> {
        let starts = match Skeleton::check(master, |_| true) {
            Ok(s) => [0, page].map(|page| s.bodies[s.heads[page] as usize].start as usize),
            Err(_) => [0, 0],
        };
        Texts { master, starts }
    }

    /// One value on one line.
    fn list(&self, out: &mut String, value: &[i32; 5]) {
        let [kind, a, b, c, d] = *value;
        let _ = match kind {
            1 => writeln!(out, "n {a}/{b}"),
            2 => writeln!(out, "i {}", self.text(a, b)),
            3 => writeln!(out, "v {a} {b} {c}"),
            4 => writeln!(out, "o {a} {b} {c} {d}"),
            _ => writeln!(out, "m"),
        };
    }

    fn text(&self, origin: i32, start: i32) -> String {
        let at = self.starts[origin as usize] + start as usize;
        let text = Sequence::read(self.master, at).ok();
        text.into_iter().flat_map(|text| text.lower(self.master)).map(char::from).collect()
    }
}
