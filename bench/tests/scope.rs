//! The bench cases of document 01 and examples of document 000.

use oracle::builder::{hex, Builder};
use oracle::engine;
use oracle::listing::{pages, words};
use oracle::tokens::HEADER;

/// Outcome, errors, steps and the stack of a page with that program.
fn page(program: &str) -> String {
    let mut m = Builder::new();
    m.text("BEGIN { } {").text(program).text("} END");
    let listing = pages(&m.bytes);
    let lines = listing.lines().skip_while(|line| !line.starts_with("page 1"));
    let stack: Vec<&str> = lines.clone().skip(2).take_while(|l| !l.starts_with("frame")).collect();
    let row: Vec<&str> = lines.take(1).flat_map(str::split_whitespace).collect();
    format!("{} {} {} [{}]", row[3], row[5], row[7], stack.join(" "))
}

/// The token that bytes after a header are, or the refusal.
fn token(text: &str) -> Result<Vec<i32>, (u32, u64)> {
    let bytes = [HEADER.to_vec(), hex(text).unwrap()].concat();
    let (mut list, mut chars) = ([0; 16], [0; 16]);
    let answer = engine::read_back(&bytes, &mut list, &mut chars);
    if answer.no == 0 {
        Ok(words(&list))
    } else {
        Err((answer.no, answer.value))
    }
}

#[test]
fn tokens() {
    let number = |num, den| Ok(vec![1, num, den, 0]);
    let operator = |op| Ok(vec![4, op, 0, 0]);
    assert_eq!(token("0000"), number(-4000, 1));
    assert_eq!(token("7FFF"), number(28767, 1));
    assert_eq!(token("C2027060"), number(28768, 1));
    assert_eq!(token("C202F05F"), number(-4001, 1));
    assert_eq!(token("C20480000001"), number(-2147483647, 1));
    assert_eq!(token("C20480000000"), Err((4, 21)));
    assert_eq!(token("9F"), operator(31));
    assert_eq!(token("A020"), operator(32));
    assert_eq!(token("BFFF"), operator(8191));
    assert_eq!(token("C4020204"), number(1, 2));
    assert_eq!(token("C4020100"), Err((4, 21)));
}

#[test]
fn writing() {
    let list: Vec<u8> = [1, 1, 200, 0].into_iter().flat_map(i32::to_le_bytes).collect();
    let mut out = [7; 40];
    assert_eq!(engine::write(&list, &[], &mut out).value, 27);
    assert_eq!(out[21..28], [0xC4, 4, 0, 1, 0, 0xC8, 7]);
}

#[test]
fn running() {
    assert_eq!(page("9 0 MARK 1 0 DIV 5 UNMARK0 6"), "F 1 9 [n 9/1 n 6/1]");
    assert_eq!(page("1 0 DIV 5"), "R 1 3 []");
    assert_eq!(page("9 1 IF { 0 MARK 4 } POP POP 3"), "R 1 8 []");
    assert_eq!(page("1 IF { 5 0 FSET } 0 FGET"), "F 0 7 [n 0/1]");
    assert_eq!(page("2147483647 1 ADD"), "R 1 3 []");
}

#[test]
fn standard() {
    assert_eq!(page("7/2 TRUNC -7/2 TRUNC"), "F 0 4 [n 3/1 n -3/1]");
    assert_eq!(page("-7/2 FLOOR -7/2 CEILING -7/2 ROUND"), "F 0 6 [n -4/1 n -3/1 n -3/1]");
    assert_eq!(page("-7 3 MOD -7 3 REM 7 -3 MOD"), "F 0 9 [n 2/1 n -1/1 n -2/1]");
    assert_eq!(page("1 2 3 4 4 1 ROLL"), "F 0 7 [n 2/1 n 3/1 n 4/1 n 1/1]");
    assert_eq!(page("0 IFELSE { 5 } IF { 6 }"), "F 0 4 [n 6/1]");
    assert_eq!(page("1 IFELSE { 5 } IF { 6 }"), "F 0 4 [n 5/1]");
    assert_eq!(page("47 111 112 115 4 MAKEVEC 100 ERROR"), "F 0 8 []");
}
