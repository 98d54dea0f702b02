//! `cases FILE`, `gen NAME FILE`, and the like; see `usage`.

use oracle::builder::{hex, to_hex};
use oracle::compare::{self, Server};
use oracle::engine::{self, Answer, ROWS, SCRATCH, SECTIONS};
use oracle::gen::{self, Call, Calls};
use oracle::json::Json;
use oracle::{listing, speed};
use std::collections::BTreeMap;
use std::process::ExitCode;
use std::time::Instant;

fn main() -> ExitCode {
    let args: Vec<String> = std::env::args().skip(1).collect();
    let args: Vec<&str> = args.iter().map(String::as_str).collect();
    match args[..] {
        ["cases", file] => cases(file),
        ["gen", name, file] => generate(name, file),
        ["time", call, file] => time(call, file, &gen::Oracle),
        #[cfg(feature = "host")]
        ["host-time", call, file] => time(call, file, &oracle::host::Host),
        ["tally", seed, count] => tally(number(seed), number(count)),
        ["show", seed, index] => show(number(seed), number(index)),
        ["compare", seed, count, ref server @ ..] if !server.is_empty() => {
            compare(number(seed), number(count), server)
        }
        _ => usage(),
    }
}

fn usage() -> ExitCode {
    eprintln!("bench cases FILE          checks every case of a case file");
    eprintln!("bench gen NAME FILE       writes a speed master: {}", speed::NAMES.join(", "));
    eprintln!("bench time CALL FILE      times load, run or reprint of a master");
    eprintln!("bench host-time CALL FILE the same with the library (feature host)");
    eprintln!("bench tally SEED COUNT    what random inputs lead to");
    eprintln!("bench show SEED INDEX     one random input and its answer");
    eprintln!("bench compare SEED COUNT COMMAND.. both engines on random inputs (of serve.c)");
    ExitCode::FAILURE
}

fn number(word: &str) -> u64 {
    word.parse().expect("a number")
}

fn generate(name: &str, file: &str) -> ExitCode {
    let Some(master) = speed::master(name) else { return usage() };
    std::fs::write(file, &master).expect("a file to write");
    println!("{name}: {} bytes", master.len());
    ExitCode::SUCCESS
}

/// Times one call on a master; a reprint is of page 400.
fn time(call: &str, file: &str, calls: &impl Calls) -> ExitCode {
    let master = std::fs::read(file).expect("the master");
    let (mut scratch, mut rows) = (vec![7; SCRATCH], vec![7; ROWS]);
    let mut sections = vec![7; SECTIONS];
    let allowance = 1_000_000;
    let start = Instant::now();
    let answer = match call {
        "load" => calls.load(&master),
        "run" => calls.run(&master, allowance, &mut scratch, &mut rows),
        "reprint" => calls.reprint(&master, allowance, 400, &mut scratch, &mut rows, &mut sections),
        _ => return usage(),
    };
    let spent = start.elapsed();
    println!("{call} {file}: {answer:?} in {} us", spent.as_micros());
    if call == "run" && answer.no == 0 {
        let rows = listing::words(&rows[..16 * (answer.value as usize + 1)]);
        let sum = |at| rows.chunks(4).map(|row: &[i32]| i64::from(row[at])).sum::<i64>();
        println!("steps {} errors {} cells {} page 1 outcome {}", sum(2), sum(1), sum(3), rows[4]);
    }
    ExitCode::SUCCESS
}

/// Compares both engines; a server that breaks off is a failure too.
fn compare(seed: u64, count: u64, server: &[&str]) -> ExitCode {
    let mut server = Server::start(server).expect("the server");
    let differing = compare::compare(seed, count, &mut server).expect("an answer of the server");
    println!("{differing} of {count} differ");
    let ended = server.end().expect("the server's end");
    if ended && differing == 0 {
        ExitCode::SUCCESS
    } else {
        ExitCode::FAILURE
    }
}

/// Counts calls by their answers, and of reprints the outcomes; the digest is
/// over every answer and table, to tell engines or versions apart.
fn tally(seed: u64, count: u64) -> ExitCode {
    let mut counts = BTreeMap::new();
    let mut digest = 0xCBF2_9CE4_8422_2325;
    for index in 0..count {
        let mut input = gen::input(seed, index);
        let answer = input.perform(&gen::Oracle);
        hash(&mut digest, &answer.no.to_le_bytes());
        hash(&mut digest, &answer.value.to_le_bytes());
        input.lent.iter().for_each(|table| hash(&mut digest, table));
        let row = match (input.call, answer.no) {
            (Call::Reprint, 0) => listing::words(&input.lent[1][16 * input.page as usize..][..16]),
            _ => vec![0; 4],
        };
        let key =
            format!("{:?} {} {}", input.call, answer.no, ["", "F", "R", "B"][row[0] as usize]);
        let entry = counts.entry(key).or_insert([0; 4]);
        entry[0] += 1;
        (1..4).for_each(|at| entry[at] += i64::from(row[at]));
    }
    println!("call, refusal, outcome: calls, errors, steps, cells");
    counts.iter().for_each(|(key, sums)| println!("{key}: {sums:?}"));
    println!("digest {digest:016x}");
    ExitCode::SUCCESS
}

/// Adds bytes to a digest (FNV by words).
fn hash(digest: &mut u64, bytes: &[u8]) {
    for chunk in bytes.chunks(8) {
        let mut word = [0; 8];
        word[..chunk.len()].copy_from_slice(chunk);
        *digest =
            (*digest ^ u64::from_le_bytes(word)).wrapping_mul(0x0100_0000_01B3).rotate_left(29);
    }
}

fn show(seed: u64, index: u64) -> ExitCode {
    let mut input = gen::input(seed, index);
    println!("{:?} allowance {} page {}", input.call, input.allowance, input.page);
    input.given.iter().for_each(|table| println!("given {}", to_hex(table)));
    println!("lent {:?}", input.lent.each_ref().map(Vec::len));
    println!("{:?}", input.perform(&gen::Oracle));
    ExitCode::SUCCESS
}

/// Checks every case of a case file.
fn cases(file: &str) -> ExitCode {
    let text = std::fs::read_to_string(file).expect("the case file");
    let (mut right, mut wrong) = (0, 0);
    for line in text.lines() {
        let case = Json::parse(line).expect("a case");
        let name = case.get("name").and_then(Json::text).unwrap_or("?");
        let want = case.get("want").expect("want");
        match perform(&case) {
            Some(got) if got == *want => right += 1,
            got => {
                wrong += 1;
                println!("wrong: {name}\n  want {want:?}\n  got  {got:?}");
            }
        }
    }
    println!("{right} right, {wrong} wrong");
    if wrong == 0 {
        ExitCode::SUCCESS
    } else {
        ExitCode::FAILURE
    }
}

/// What a case's call gives, in the form of its `want`.
fn perform(case: &Json) -> Option<Json> {
    let call = case.get("call")?.list()?;
    let input = case.get("in")?;
    let result = match call {
        [Json::Text(name)] if name == "load" => load(&hex(input.text()?)?),
        [Json::Text(name)] if name == "pages" => {
            Ok(Json::Text(listing::pages(&hex(input.text()?)?)))
        }
        [Json::Text(name)] if name == "readback" => read_back(&hex(input.text()?)?),
        [Json::Text(name)] if name == "write" => write(input)?,
        [Json::Text(name), Json::Number(allowance), Json::Number(page)] if name == "reprint" => {
            listing::reprinted(&hex(input.text()?)?, *allowance, *page)
                .map(|(row, sections)| map([("row", ints(&row)), ("sections", ints(&sections))]))
        }
        _ => return None,
    };
    Some(result.unwrap_or_else(|answer| Json::Text(listing::refused(answer))))
}

fn load(master: &[u8]) -> Result<Json, Answer> {
    let answer = engine::load(master);
    done(answer).map(|pages| Json::Text(pages.to_string()))
}

fn read_back(bytes: &[u8]) -> Result<Json, Answer> {
    let (mut list, mut text) = (vec![7; 16 * bytes.len()], vec![7; bytes.len()]);
    let count = done(engine::read_back(bytes, &mut list, &mut text))?;
    let words = listing::words(&list[..16 * count as usize]);
    let used = words.chunks(4).filter(|t| t[0] == 2 || t[0] == 3).map(|t| t[2] as usize).sum();
    let text = to_hex(&text[..used]);
    Ok(map([("tokens", ints(&words)), ("text", Json::Text(text))]))
}

fn write(input: &Json) -> Option<Result<Json, Answer>> {
    let words = input.get("words")?.list()?.iter().map(Json::number);
    let list: Vec<u8> =
        words.collect::<Option<Vec<_>>>()?.iter().flat_map(|&w| (w as i32).to_le_bytes()).collect();
    let text = hex(input.get("text")?.text()?)?;
    let mut out = vec![7; input.get("buf")?.number()? as usize];
    let answer = engine::write(&list, &text, &mut out);
    Some(done(answer).map(|len| Json::Text(to_hex(&out[..len as usize]))))
}

fn done(answer: Answer) -> Result<u64, Answer> {
    if answer.no == 0 {
        Ok(answer.value)
    } else {
        Err(answer)
    }
}

fn map<const N: usize>(entries: [(&str, Json); N]) -> Json {
    Json::Map(entries.into_iter().map(|(name, value)| (name.to_string(), value)).collect())
}

fn ints(words: &[i32]) -> Json {
    Json::List(words.iter().map(|&word| Json::Number(word.into())).collect())
}
