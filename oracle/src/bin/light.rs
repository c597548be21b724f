//! light: what the program `light` writes against Rust's own f64: cases by hand, then generated lines.
use oracle::exit::exit;
use oracle::gauge::{lines, text};
use std::env;
use std::io::{Read, Write};
use std::process::{Command, ExitCode, Stdio};

const USAGE: &str = "usage: light [--to SEED] PROGRAM [ARGS..] | light --write";

/// Written by hand, not by this program.
const CASES: [(&str, &str); 17] = [
    ("10\n100\n8\n16\n", "calm 4022000000000000 4030000000000000\n"),
    ("10\n100\n8\n16", "calm 4022000000000000 4030000000000000\n"),
    ("0\n0\n", "calm 0000000000000000 0000000000000000\n"),
    ("0\n0\n0\n", "late 0000000000000000 0000000000000000\n"),
    ("1\n100\n0\n8\n", "slow 3ff0000000000000 4020000000000000\n"),
    ("9\n16\n8\n16\n", "late 4022000000000000 4030000000000000\n"),
    ("9\n17\n8\n16\n", "slow 4022000000000000 4030000000000000\n"),
    ("10\n17\n8\n16\n", "calm 4022000000000000 4030000000000000\n"),
    ("4294967295\n4294967295\n4294967295\n", "late 41efffffffe00000 41efffffffe00000\n"),
    ("08\n100\n", "bad\n"),
    ("10\n\n8\n", "bad\n"),
    ("10\n100\n4294967296\n", "bad\n"),
    ("10\n-100\n8\n", "bad\n"),
    ("10\n100\n8\n16\n\n", "bad\n"),
    ("10\n", "bad\n"),
    ("\n", "bad\n"),
    ("", "bad\n"),
];

fn main() -> ExitCode {
    let words: Vec<String> = env::args().skip(1).collect();
    exit("light", run(&words))
}

fn run(words: &[String]) -> Result<bool, String> {
    if words == ["--write"] {
        return write();
    }
    let (to, program) = match words {
        [option, to, program @ ..] if option == "--to" => (to.parse().map_err(|_| USAGE)?, program),
        _ => (1000, words),
    };
    if program.is_empty() || program[0].starts_with("--") {
        return Err(USAGE.into());
    }
    for (input, expected) in CASES {
        if text(input.as_bytes()) != expected {
            return Err(format!("{input:?}: Rust's own f64 gives {:?}", text(input.as_bytes())));
        }
        if !same(program, input.as_bytes(), expected)? {
            return Ok(false);
        }
    }
    let mut read = 0;
    for seed in 1..=to {
        let input = lines(seed);
        read += input.split(|&b| b == b'\n').count();
        if !same(program, &input, &text(&input))? {
            println!("seed {seed}");
            return Ok(false);
        }
    }
    println!("{} cases and seeds 1..{to}, {read} lines: 0 differences", CASES.len());
    Ok(true)
}

/// What the program is to write to standard input.
fn write() -> Result<bool, String> {
    let mut input = vec![];
    std::io::stdin().read_to_end(&mut input).map_err(|e| e.to_string())?;
    print!("{}", text(&input));
    Ok(true)
}

fn same(program: &[String], input: &[u8], expected: &str) -> Result<bool, String> {
    let cannot = |e| format!("cannot run {}: {e}", program[0]);
    let mut child = Command::new(&program[0])
        .args(&program[1..])
        .stdin(Stdio::piped())
        .stdout(Stdio::piped())
        .spawn()
        .map_err(cannot)?;
    // It reads to the end before it writes, so that neither side waits for the other. If it stops reading, what it writes
    // will tell.
    let _ = child.stdin.take().expect("piped").write_all(input);
    let got = child.wait_with_output().map_err(cannot)?;
    let well = got.stdout == expected.as_bytes() && got.status.success();
    if !well {
        println!("input:    {}", input.escape_ascii());
        println!("expected: {}", expected.escape_debug());
        println!("got:      {} ({})", got.stdout.escape_ascii(), got.status);
    }
    Ok(well)
}
