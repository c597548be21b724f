//! replay [--lists] [--limits] [FILE]: the oracle's answers to bench lines, and with --limits to `q now limit`.
use oracle::bench::Bench;
use oracle::exit::exit;
use oracle::line::bare;
use std::env;
use std::ffi::OsString;
use std::fs::File;
use std::io::{self, BufRead, BufReader, BufWriter, IsTerminal, Write};
use std::process::ExitCode;

const USAGE: &str = "usage: replay [--lists] [--limits] [FILE]";

fn main() -> ExitCode {
    let outcome = run(env::args_os().skip(1).collect());
    exit("replay", outcome.map(|()| true))
}

fn run(mut args: Vec<OsString>) -> Result<(), String> {
    let with_lists = args.first().is_some_and(|arg| arg == "--lists");
    args.drain(..with_lists as usize);
    let limits = args.first().is_some_and(|arg| arg == "--limits");
    args.drain(..limits as usize);
    let bench = if limits { Bench::default().with_limits() } else { Bench::default() };
    match &args[..] {
        [] => answer(io::stdin().lock(), bench, with_lists, io::stdin().is_terminal())
            .map_err(|e| e.to_string()),
        [file] if !file.to_string_lossy().starts_with("--") => File::open(file)
            .and_then(|open| answer(BufReader::new(open), bench, with_lists, false))
            .map_err(|e| format!("{}: {e}", file.display())),
        _ => Err(USAGE.into()),
    }
}

/// At a terminal each answer is shown at once.
fn answer(mut input: impl BufRead, mut bench: Bench, with_lists: bool, at_once: bool) -> io::Result<()> {
    let mut output = BufWriter::new(io::stdout().lock());
    let mut line = vec![];
    while input.read_until(b'\n', &mut line)? > 0 {
        writeln!(output, "{}", bench.line(bare(&line)))?;
        if let (true, Some(store)) = (with_lists, bench.store()) {
            writeln!(output, "{}", store.contents())?;
        }
        if at_once {
            output.flush()?;
        }
        line.clear();
    }
    output.flush()
}
