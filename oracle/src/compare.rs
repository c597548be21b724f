//! A program's answers to a script, held against the oracle's, byte for byte.
use crate::script::Script;
use std::ffi::OsString;
use std::io::{Read, Write};
use std::process::{Command, ExitStatus, Stdio};
use std::thread;

/// A program that goes on writing is stopped when it is this much over what was expected.
const SPARE: u64 = 4096;

/// Runs the program on the script's commands. Answers what differs first, if anything does, or why
/// the program cannot be run.
pub fn compare(program: &[OsString], script: &Script) -> Result<Option<String>, String> {
    let most = script.answers.len() as u64 + SPARE;
    let (got, status) = run(program, &script.commands, most)
        .map_err(|e| format!("cannot run {}: {e}", program[0].display()))?;
    if let Some(at) = first_difference(&script.answers, &got) {
        return Ok(Some(describe(script, &got, at)));
    }
    Ok((!status.success()).then(|| format!("every answer is right, but it ended with {status}")))
}

/// The input is written from a thread of its own, so that neither side waits for the other.
fn run(
    program: &[OsString],
    input: &[u8],
    most: u64,
) -> Result<(Vec<u8>, ExitStatus), std::io::Error> {
    let mut child = Command::new(&program[0])
        .args(&program[1..])
        .stdin(Stdio::piped())
        .stdout(Stdio::piped())
        .spawn()?;
    let mut stdin = child.stdin.take().expect("piped");
    let stdout = child.stdout.take().expect("piped");
    let mut got = vec![];
    thread::scope(|scope| {
        // If the program stops reading, its answers will tell.
        scope.spawn(move || stdin.write_all(input));
        stdout.take(most).read_to_end(&mut got)?;
        if got.len() as u64 == most {
            child.kill()?;
        }
        Ok((got, child.wait()?))
    })
}

fn first_difference(expected: &[u8], got: &[u8]) -> Option<usize> {
    let same = expected.iter().zip(got).take_while(|(a, b)| a == b).count();
    (same < expected.len().max(got.len())).then_some(same)
}

fn describe(script: &Script, got: &[u8], at: usize) -> String {
    let before = script.answers[..at].iter().rposition(|&b| b == b'\n');
    let start = before.map_or(0, |newline| newline + 1);
    let (number, command) = script.line_of(start);
    let command = command.map_or("none, all were answered".into(), show);
    format!(
        "line {number}\n  command:  {command}\n  expected: {}\n  got:      {}",
        show_line(&script.answers[start..]),
        show_line(&got[start..])
    )
}

/// The first line of what is left.
fn show_line(rest: &[u8]) -> String {
    match rest.iter().position(|&byte| byte == b'\n') {
        _ if rest.is_empty() => "nothing".into(),
        Some(newline) => show(&rest[..newline]),
        None => format!("{} (and no newline)", show(rest)),
    }
}

fn show(line: &[u8]) -> String {
    if line.is_empty() {
        return "(an empty line)".into();
    }
    line.escape_ascii().to_string()
}
