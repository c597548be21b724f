//! selfcheck [FROM TO LINES]: generated lines and all short sequences through the original, with
//! its debug assertions live and every check of ours.
use oracle::exit::exit;
use oracle::generator::{generate, generate_limited};
use oracle::script::Script;
use oracle::short::{self, About};
use oracle::tally::Tally;
use std::env;
use std::process::ExitCode;

const USAGE: &str = "usage: selfcheck [FROM TO LINES]";
const DEPTH: u32 = 3;

fn main() -> ExitCode {
    let outcome = run(env::args().skip(1).collect());
    exit("selfcheck", outcome.map(|()| true))
}

fn run(args: Vec<String>) -> Result<(), String> {
    if !cfg!(debug_assertions) {
        return Err("built without the original's debug assertions".into());
    }
    let numbers: Result<Vec<u64>, _> = args.iter().map(|arg| arg.parse()).collect();
    let (from, to, lines) = match numbers.map_err(|_| USAGE)?[..] {
        [] => (1, 240, 5000),
        [from, to, lines] if from <= to && lines > 0 => (from, to, lines),
        _ => return Err(USAGE.into()),
    };
    let mut tally = Tally::default();
    let mut count = 0;
    for seed in from..=to {
        for script in [generate(seed, lines as usize, false), generate_limited(seed, lines as usize, false)] {
            tally.add(&script);
            count += script.len();
        }
    }
    println!("{tally}");
    println!("seeds {from}..{to}: {count} lines run, every check held");

    for (about, mut script) in [
        (About::Slots, Script::new(false)),
        (About::Slots, Script::limited(false)),
        (About::BlockEnds, Script::limited(false)),
    ] {
        let limits = script.bench().limits();
        short::add(about, DEPTH, 0..short::count(about, DEPTH, limits), &mut script);
        let at = if about == About::BlockEnds { " about block ends" } else { "" };
        let with = if limits { ", with limits" } else { "" };
        println!("every sequence of {DEPTH} commands{at}{with}: {} lines run, every check held", script.len());
        count += script.len();
    }
    println!("{count} lines run in all");
    Ok(())
}
