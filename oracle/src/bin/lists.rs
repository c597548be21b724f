//! lists CASES FOLDER: writes the fixed lists below FOLDER/crates. All of them are made before the
//! first is written, and each is moved into its place when all are whole.
use oracle::exit::exit;
use oracle::generator::{generate, generate_small};
use oracle::script::Script;
use oracle::tally::Tally;
use std::env;
use std::fs;
use std::path::{Path, PathBuf};
use std::process::ExitCode;

fn main() -> ExitCode {
    let args: Vec<PathBuf> = env::args_os().skip(1).map(PathBuf::from).collect();
    let outcome = match &args[..] {
        [cases, folder] => run(cases, folder),
        _ => Err("usage: lists [FOLDER]".into()),
    };
    exit("lists", outcome)
}

fn run(cases: &Path, folder: &Path) -> Result<bool, String> {
    let lists = [
        ("replay", answers(cases)?),
        ("replay_lists", contents()?),
    ];
    let files = lists.iter().flat_map(|(name, script)| {
        let list = folder.join("crates").join(name);
        [
            (list.join("stdin"), &script.commands),
            (list.join("stdout"), &script.answers),
        ]
    });
    write_all(&files.collect::<Vec<_>>())?;
    for (name, script) in &lists {
        println!("crates/{name}: {} lines", script.len());
    }
    Ok(true)
}

/// Hand-written cases, 40 seeds of 400 lines, then 4 of 4,000 that fill stores of 1,024 records. The
/// case `lines` is the first: it asks before there is a store.
fn answers(cases: &Path) -> Result<Script, String> {
    let mut script = Script::new(false);
    for case in ["lines", "paper", "mornings", "wake", "traps", "order", "repeat", "old", "parking"] {
        add_case(cases, case, &mut script)?;
    }
    for seed in 1..=40 {
        script.add_all(&generate(seed, 400, false).commands);
    }
    for seed in [63, 70, 85, 88] {
        script.add_all(&generate(seed, 4000, false).commands);
    }
    script.drop_last_newline();
    check_kinds(&script)?;
    Ok(script)
}

/// 20 seeds of 100 lines on small stores, then 3 of 400 lines that fill larger ones.
fn contents() -> Result<Script, String> {
    let mut script = Script::new(true);
    for seed in 1..=20 {
        script.add_all(&generate_small(seed, 100, 24, false).commands);
    }
    for seed in [43, 110, 140] {
        script.add_all(&generate_small(seed, 400, 150, false).commands);
    }
    check_kinds(&script)?;
    Ok(script)
}

/// Adds NAME.cmd, whose answers must be those of NAME.ans.
fn add_case(cases: &Path, name: &str, script: &mut Script) -> Result<(), String> {
    let read = |file: PathBuf| fs::read(&file).map_err(|e| format!("{}: {e}", file.display()));
    let commands = read(cases.join(name).with_extension("cmd"))?;
    let expected = read(cases.join(name).with_extension("ans"))?;
    let before = script.answers.len();
    script.add_all(&commands);
    if script.answers[before..] != expected {
        return Err(format!("{name}.ans: the oracle answers otherwise"));
    }
    Ok(())
}

fn check_kinds(script: &Script) -> Result<(), String> {
    let mut tally = Tally::default();
    tally.add(script);
    match tally.missing()[..] {
        [] => Ok(()),
        ref missing => Err(format!("no answer of kind {}", missing.join(", "))),
    }
}

fn write_all(files: &[(PathBuf, &Vec<u8>)]) -> Result<(), String> {
    let temporary = |file: &Path| file.with_extension("new");
    let written = files.iter().try_for_each(|(file, bytes)| {
        let folder = file.parent().expect("a file lies in a folder");
        fs::create_dir_all(folder)
            .and_then(|()| fs::write(temporary(file), bytes))
            .map_err(|e| format!("{}: {e}", file.display()))
    });
    let moved = written.and_then(|()| {
        files.iter().try_for_each(|(file, _)| {
            fs::rename(temporary(file), file).map_err(|e| format!("{}: {e}", file.display()))
        })
    });
    if moved.is_err() {
        for (file, _) in files {
            let _ = fs::remove_file(temporary(file));
        }
    }
    moved
}
