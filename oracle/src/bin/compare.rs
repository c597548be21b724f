//! compare: the oracle's answers against those of another program.
use oracle::compare::compare;
use oracle::exit::exit;
use oracle::generator::{generate, generate_limited};
use oracle::script::Script;
use oracle::short::{self, About};
use std::env;
use std::ffi::{OsStr, OsString};
use std::fs;
use std::io;
use std::iter;
use std::path::PathBuf;
use std::process::ExitCode;
use std::str::FromStr;

const USAGE: &str =
    "usage: compare [--lists] [--limits] [--keep FOLDER] [ [--from SEED] [--to SEED] [--lines N] \
    | --short DEPTH | --ends DEPTH | --files FILE.. -- ] PROGRAM [ARGS..]";
/// Where a script with a difference is kept, unless --keep names another folder.
const KEEP: &str = concat!(env!("CARGO_MANIFEST_DIR"), "/target/differences");
/// So many short sequences go to the program at once.
const CHUNK: u64 = 10_000;
/// Deeper ones would be billions of lines.
const DEEPEST: u32 = 5;

struct Options {
    lists: bool,
    /// The program knows the line of a poll with a limit.
    limits: bool,
    from: u64,
    to: u64,
    lines: usize,
    /// Every sequence of so many commands, about the first slots or block ends.
    short: Option<(About, u32)>,
    files: Vec<OsString>,
    keep: PathBuf,
    program: Vec<OsString>,
}

type Scripts<'a> = Box<dyn Iterator<Item = (String, io::Result<Script>)> + 'a>;

fn main() -> ExitCode {
    let outcome = options(env::args_os().skip(1)).and_then(|options| run(&options));
    exit("compare", outcome)
}

fn options(mut args: impl Iterator<Item = OsString>) -> Result<Options, String> {
    let mut options = Options {
        lists: false,
        limits: false,
        from: 1,
        to: 200,
        lines: 5000,
        short: None,
        files: vec![],
        keep: KEEP.into(),
        program: vec![],
    };
    while options.program.is_empty() {
        let arg = args.next().ok_or(USAGE)?;
        match arg.to_str() {
            Some("--lists") => options.lists = true,
            Some("--limits") => options.limits = true,
            Some("--from") => options.from = number(args.next())?,
            Some("--to") => options.to = number(args.next())?,
            Some("--lines") => options.lines = number(args.next())?,
            Some("--keep") => options.keep = args.next().ok_or(USAGE)?.into(),
            Some("--short") => options.short = Some((About::Slots, depth(args.next())?)),
            Some("--ends") => options.short = Some((About::BlockEnds, depth(args.next())?)),
            Some("--files") => options.files = files(&mut args)?,
            Some(other) if other.starts_with("--") => return Err(USAGE.into()),
            _ => options.program.push(arg),
        }
    }
    options.program.extend(args);
    Ok(options)
}

fn number<T: FromStr>(arg: Option<OsString>) -> Result<T, String> {
    let text = arg.and_then(|arg| arg.into_string().ok());
    text.and_then(|text| text.parse().ok()).ok_or(USAGE.into())
}

fn depth(arg: Option<OsString>) -> Result<u32, String> {
    let depth = number(arg)?;
    let too_deep = format!("sequences of {depth}: at most {DEEPEST}");
    (depth <= DEEPEST).then_some(depth).ok_or(too_deep)
}

/// The names up to `--`, at least one.
fn files(args: &mut impl Iterator<Item = OsString>) -> Result<Vec<OsString>, String> {
    let files: Vec<OsString> = args.take_while(|arg| arg != "--").collect();
    (!files.is_empty()).then_some(files).ok_or(USAGE.into())
}

/// Says whether all answers agree. Stops at the first script with a difference.
fn run(options: &Options) -> Result<bool, String> {
    let (title, scripts) = scripts(options);
    let mut lines = 0;
    for (name, script) in scripts {
        let script = script.map_err(|e| format!("{name}: {e}"))?;
        lines += script.len();
        if let Some(difference) = compare(&options.program, &script)? {
            println!("{name}, {difference}");
            println!("  kept in:  {}", keep(options, &name, &script)?);
            println!("{title}: 1 difference, stopped there");
            return Ok(false);
        }
    }
    if lines == 0 {
        return Err(format!("{title}: nothing to compare"));
    }
    println!("{title}: {lines} lines compared, 0 differences");
    Ok(true)
}

fn scripts(options: &Options) -> (String, Scripts<'_>) {
    let (lists, limits) = (options.lists, options.limits);
    if !options.files.is_empty() {
        let files = options.files.iter();
        let each = files.map(move |file| (file.display().to_string(), from_file(file, empty(lists, limits))));
        (format!("{} files", options.files.len()), Box::new(each))
    } else if let Some((about, depth)) = options.short {
        let at = if about == About::BlockEnds { " about block ends" } else { "" };
        let title = format!("every sequence of {depth} commands{at}");
        (title, short_sequences(about, depth, lists, limits))
    } else {
        let title = format!("seeds {}..{}", options.from, options.to);
        (title, seeds(options))
    }
}

fn empty(lists: bool, limits: bool) -> Script {
    if limits {
        Script::limited(lists)
    } else {
        Script::new(lists)
    }
}

fn from_file(file: &OsStr, mut script: Script) -> io::Result<Script> {
    let text = fs::read(file)?;
    script.add_all(&text);
    if !text.ends_with(b"\n") {
        script.drop_last_newline();
    }
    Ok(script)
}

fn short_sequences(about: About, depth: u32, lists: bool, limits: bool) -> Scripts<'static> {
    let count = short::count(about, depth, limits);
    let chunk = move |start: u64| {
        let mut script = empty(lists, limits);
        short::add(about, depth, start..count.min(start + CHUNK), &mut script);
        (format!("sequences from {start} on"), Ok(script))
    };
    Box::new((0..count).step_by(CHUNK as usize).map(chunk))
}

/// Empty input, then each seed; every second one ends without a newline.
fn seeds(options: &Options) -> Scripts<'_> {
    let nothing = empty(options.lists, options.limits);
    let empty = ("empty input".to_string(), Ok(nothing));
    let each = |seed: u64| {
        let generate = if options.limits { generate_limited } else { generate };
        let mut script = generate(seed, options.lines, options.lists);
        if seed.is_multiple_of(2) {
            script.drop_last_newline();
        }
        (format!("seed {seed}"), Ok(script))
    };
    let seeds = (options.from..=options.to).map(each);
    Box::new(iter::once(empty).chain(seeds))
}

/// Answers where the commands were put.
fn keep(options: &Options, name: &str, script: &Script) -> Result<String, String> {
    let odd = |c: char| !c.is_ascii_alphanumeric();
    let file = options.keep.join(name.replace(odd, "-") + ".cmd");
    fs::create_dir_all(&options.keep)
        .and_then(|()| fs::write(&file, &script.commands))
        .map_err(|e| format!("{}: {e}", file.display()))?;
    Ok(file.display().to_string())
}
