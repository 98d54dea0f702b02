//! The big masters that speed is measured on.

use crate::builder::Builder;
use crate::rng::Rng;
use crate::tokens::{kind, MAX_BYTES};

pub const NAMES: [&str; 7] = ["calls", "book", "tokens", "deep", "count", "recover", "reprint"];

/// The speed master of that name.
pub fn master(name: &str) -> Option<Vec<u8>> {
    let mut m = Builder::new();
    m.text("BEGIN");
    match name {
        "calls" => calls(&mut m),
        "book" => book(&mut m),
        "tokens" => tokens(&mut m),
        "deep" => deep(&mut m),
        "count" => count(&mut m),
        "recover" => recover(&mut m),
        "reprint" => library(&mut m),
        _ => return None,
    }
    m.text("END");
    Some(m.bytes)
}

/// Eleven operators, each calling the one before three times: 974,307 steps.
fn calls(m: &mut Builder) {
    m.text("{ MAKESIMPLECO { 3 4 ADD 5 MUL 0 FSET 0 FGET 2 DIV POP } 1 FSET");
    for level in 1..=10 {
        let call = format!("{level} FGET DO ").repeat(3);
        m.text(&format!("MAKESIMPLECO {{ {call} }} {} FSET", level + 1));
    }
    m.text("} { 11 FGET DO }");
}

/// 512 pages of strings and vectors that fill the room.
fn book(m: &mut Builder) {
    m.text("{ MAKESIMPLECO { SHAPE POP POP } 0 FSET MAKESIMPLECO { GET 1 ADD POP } 1 FSET }");
    for page in 0..512 {
        m.text("{ 0 MARK");
        for line in 0..24 {
            m.text(&format!("(line-{line:02}-of-page-{page:03}-of-the-book) {} FSET", line + 2));
            m.text(&format!("{} FGET DUP 0 FGET DO {line} 1 FGET DO", line + 2));
            m.text(&format!("{line} {page} chapter-{page} times 4 MAKEVEC DUP 2 GET times EQ"));
            m.text("POP 1 GET POP 1/3 2/3 ADD POP 7 8 9 10 12 MAKEVECLU SHAPE POP POP");
        }
        m.text("COUNT POP UNMARK0 }");
    }
}

/// 512 pages of small tokens, just below the longest master.
fn tokens(m: &mut Builder) {
    const PAGE: usize = (MAX_BYTES - 100) / 512;
    let mut rng = Rng::new(1);
    m.text("{ }");
    for _ in 0..512 {
        let start = m.bytes.len();
        m.text("{");
        while m.bytes.len() - start < PAGE - 40 {
            match rng.below(8) {
                0 => m.text("NOP NOP"),
                1 => m.text("5 DUP ADD POP"),
                2 => m.text("70000 POP"),
                3 => m.text("1/2 POP"),
                4 => m.text("a POP"),
                5 => m.text("0 FGET 3 FSET"),
                6 => m.text("1 2 GT POP"),
                _ => {
                    m.sequence(kind::COMMENT, b"x");
                    m.text("7 8 EXCH POP POP")
                }
            };
        }
        m.text("}");
    }
}

/// Bodies run eleven deep, with bodies in them that are passed over.
fn deep(m: &mut Builder) {
    let passed = format!("0 IF {}{}", "{ 4 MAKESIMPLECO ".repeat(3), "{ } } } }");
    let nest = format!("{}{passed} 5 POP {}", "1 IF { ".repeat(11), "} ".repeat(11));
    m.text("{ } {");
    for _ in 0..36_000 {
        m.text(&nest);
    }
    m.text("}");
}

/// COUNT over 120 values: 942,303 steps.
fn count(m: &mut Builder) {
    let (push, pop, counts) = ("1 ".repeat(120), "POP ".repeat(120), "COUNT POP ".repeat(400));
    m.text("{ } { MAKESIMPLECO {");
    m.text(&format!("0 MARK {push} {counts} 120 UNMARK {pop} }} 0 FSET"));
    m.text(&"0 FGET DO ".repeat(900)).text("}");
}

/// Recoveries in the same body, from a called body, and by skipping to a body's end.
fn recover(m: &mut Builder) {
    m.text("{ MAKESIMPLECO { 1 0 DIV 3 } 0 FSET MAKESIMPLECO { 0 MARK 1 0 DIV 3 4 } 1 FSET");
    m.text("MAKESIMPLECO { 5 0 MARK 1 0 DIV 6 (skipped) name 1 IF { 2 UNMARK0 } 7 UNMARK0");
    m.text("0 MARK 0 FGET DO 8 9 UNMARK0 0 MARK 1 FGET DO 8 UNMARK0 POP } 2 FSET");
    m.text("MAKESIMPLECO {").text(&"2 FGET DO ".repeat(50)).text("} 3 FSET }");
    m.text("{").text(&"3 FGET DO ".repeat(400)).text("}");
}

/// 512 pages of 32 KB, mostly strings in bodies that are passed over.
fn library(m: &mut Builder) {
    const PAGE: usize = (MAX_BYTES - 100) / 512;
    let mut rng = Rng::new(2);
    m.text("{ MAKESIMPLECO { SHAPE POP POP } 0 FSET }");
    for page in 0..512 {
        let start = m.bytes.len();
        m.text("{");
        for line in 1..=20 {
            m.text(&format!("(line-{line:02}-of-page-{page:03}-of-a-big-book) {line} FSET"));
            m.text(&format!("{line} FGET DUP 0 FGET DO {line} GET POP"));
        }
        while m.bytes.len() - start < PAGE - 200 {
            m.text("CORRECT { 1 IF {");
            let text: Vec<u8> = (0..rng.between(10, 90)).map(|i| b'a' + i as u8 % 26).collect();
            m.sequence(kind::STRING, &text);
            m.text("POP 3 4 ADD POP } 5 POP }");
        }
        m.text("}");
    }
}
