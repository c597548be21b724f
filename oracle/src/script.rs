//! Command lines with the oracle's answers.
use crate::bench::{Bench, Store};
use crate::line::{lines, parse, Answer};
use crate::past::Past;

pub struct Script {
    pub commands: Vec<u8>,
    pub answers: Vec<u8>,
    /// Where each line's command and answer end, newlines included.
    ends: Vec<(usize, usize)>,
    pub past: Past,
    bench: Bench,
    with_lists: bool,
}

impl Script {
    /// An empty script. `with_lists` adds the list contents after each answer.
    pub fn new(with_lists: bool) -> Script {
        Script {
            commands: vec![],
            answers: vec![],
            ends: vec![],
            past: Past::default(),
            bench: Bench::default(),
            with_lists,
        }
    }

    /// The same for a bench that knows the line of a poll with a limit.
    pub fn limited(with_lists: bool) -> Script {
        Script {
            bench: Bench::default().with_limits(),
            ..Script::new(with_lists)
        }
    }

    pub fn bench(&self) -> &Bench {
        &self.bench
    }

    pub fn len(&self) -> usize {
        self.ends.len()
    }

    pub fn is_empty(&self) -> bool {
        self.ends.is_empty()
    }

    pub fn add(&mut self, line: &[u8]) -> Answer {
        let elapsed = self.bench.store().map_or(0, Store::elapsed);
        let answer = self.bench.line(line);
        if let Some(command) = parse(line, self.bench.limits()) {
            self.past.count(elapsed, command, answer);
        }
        self.commands.extend_from_slice(line);
        self.commands.push(b'\n');
        self.answers
            .extend_from_slice(format!("{answer}\n").as_bytes());
        if let (true, Some(store)) = (self.with_lists, self.bench.store()) {
            self.answers
                .extend_from_slice(format!("{}\n", store.contents()).as_bytes());
        }
        self.ends.push((self.commands.len(), self.answers.len()));
        answer
    }

    pub fn add_all(&mut self, text: &[u8]) {
        for line in lines(text) {
            self.add(line);
        }
    }

    /// The number, counted from 1, and the text of the command whose answer begins at or before
    /// this place in the answers. No text if that is past the last.
    pub fn line_of(&self, at: usize) -> (usize, Option<&[u8]>) {
        let i = self.ends.partition_point(|&(_, answer)| answer <= at);
        (i + 1, lines(&self.commands).nth(i))
    }

    /// A last line needs no newline, but an empty one is not there without it.
    pub fn drop_last_newline(&mut self) {
        let last = lines(&self.commands).last();
        if last.is_some_and(|line| !line.is_empty()) {
            self.commands.pop();
        }
    }
}
