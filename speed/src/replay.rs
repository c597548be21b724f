//! The program replay: the same commands as lines of its bench, from a file.
use crate::clock::{in_turns, timed_outside, Side, Times};
use speed::script::{Mix, INSERT, POLL, REMOVE, RESET};
use std::fmt::Write;
use std::fs::{self, File};
use std::path::PathBuf;
use std::process::{Command, Stdio};

/// The mix's first commands, one a line; the first line formats.
pub fn lines(mix: &Mix, many: usize) -> String {
    let mut text = format!("f {} 1\n", mix.records);
    for (i, &[first, second]) in mix.script[..many - 1].iter().enumerate() {
        let key = first & ((1 << 60) - 1);
        match first >> 60 {
            INSERT => writeln!(text, "i {i} {second} 0"),
            RESET => writeln!(text, "s {key} {second}"),
            REMOVE => writeln!(text, "r {key}"),
            POLL => writeln!(text, "p {second}"),
            _ => writeln!(text, "w"),
        }
        .unwrap();
    }
    text
}

/// ns a line, the start of the program included. Nothing may be refused.
pub fn run(program: &str, lines: &str, rounds: usize) -> Times {
    let input = PathBuf::from(program).with_extension("lines");
    fs::write(&input, lines).unwrap();
    let command = |out: Stdio| {
        let mut command = Command::new(program);
        command.stdin(File::open(&input).unwrap()).stdout(out);
        command
    };
    let answers = command(Stdio::piped()).output().unwrap().stdout;
    let answers = String::from_utf8(answers).unwrap();
    let many = lines.lines().count();
    assert_eq!(answers.lines().count(), many, "an answer to each line");
    assert!(!answers.lines().any(|a| a == "bad" || a.starts_with("no ")));
    let side: Side = (
        "replay",
        Box::new(|| {
            timed_outside(many, || {
                command(Stdio::null()).status().unwrap().success() as u64
            })
        }),
    );
    let ([times], _) = in_turns("replay", rounds, [side]);
    times
}
