//! Both engines on random inputs. The library's calls are made by a program of
//! their own (`serve.c`, which has the words of a request), so that they can be
//! compared on a machine that the library is not compiled for.

use crate::engine::Answer;
use crate::gen::{input, Input, Oracle};
use std::io::{self, Read, Write};
use std::process::{Child, ChildStdin, ChildStdout, Command, Stdio};

/// The program that makes the library's calls.
pub struct Server {
    child: Child,
    to: ChildStdin,
    from: ChildStdout,
}

impl Server {
    /// Starts it: a command and its words.
    pub fn start(words: &[&str]) -> io::Result<Server> {
        let mut command = Command::new(words[0]);
        command.args(&words[1..]).stdin(Stdio::piped()).stdout(Stdio::piped());
        let mut child = command.spawn()?;
        let (to, from) = (child.stdin.take().unwrap(), child.stdout.take().unwrap());
        Ok(Server { child, to, from })
    }

    /// Makes the call; afterwards the tables are as it left them.
    fn perform(&mut self, input: &mut Input) -> io::Result<Answer> {
        let numbers = [input.call as u64, input.allowance as u64, input.page as u64];
        let lengths = tables(input).map(|table| table.len() as u64);
        let mut request: Vec<u8> =
            numbers.iter().chain(&lengths).flat_map(|n| n.to_le_bytes()).collect();
        tables(input).iter().for_each(|table| request.extend_from_slice(table));
        self.to.write_all(&request)?;
        self.to.flush()?;
        let mut number = || {
            let mut bytes = [0; 8];
            self.from.read_exact(&mut bytes).map(|()| u64::from_le_bytes(bytes))
        };
        let answer = Answer { no: number()? as u32, value: number()? };
        for table in input.given.iter_mut().chain(&mut input.lent) {
            self.from.read_exact(table)?;
        }
        Ok(answer)
    }

    /// Ends it, and tells whether it ended well.
    pub fn end(self) -> io::Result<bool> {
        let Server { mut child, to, from } = self;
        drop((to, from));
        Ok(child.wait()?.success())
    }
}

fn tables(input: &Input) -> [&[u8]; 5] {
    let ([a, b], [c, d, e]) = (&input.given, &input.lent);
    [a, b, c, d, e]
}

/// Makes `count` calls on both engines, prints where they differ in an answer
/// or in a byte of a table, and answers how many do.
pub fn compare(seed: u64, count: u64, server: &mut Server) -> io::Result<u64> {
    let mut differing = 0;
    for index in 0..count {
        let mut ours = input(seed, index);
        let mut theirs = ours.clone();
        let answers = [ours.perform(&Oracle), server.perform(&mut theirs)?];
        if answers[0] != answers[1] || ours != theirs {
            differing += 1;
            report(seed, index, answers, &ours, &theirs);
        }
    }
    Ok(differing)
}

fn report(seed: u64, index: u64, answers: [Answer; 2], ours: &Input, theirs: &Input) {
    println!(
        "seed {seed} index {index}: {:?}, oracle {:?}, library {:?}",
        ours.call, answers[0], answers[1]
    );
    for (number, (a, b)) in tables(ours).iter().zip(tables(theirs)).enumerate() {
        if let Some(at) = a.iter().zip(b).position(|(a, b)| a != b) {
            println!(
                "  table {number} from byte {at}: oracle {:?}, library {:?}",
                &a[at..a.len().min(at + 20)],
                &b[at..b.len().min(at + 20)]
            );
        }
    }
}
