//! Brings the original's text to the compiler. Nothing of it is retyped:
//!  * entries join a list's tail, by the edits of tails.rs in delay_queue.rs;
//!  * a seventh level is the parking list, by those of parking.rs in the wheel: the two changes;
//!  * src/tokio_util is copied byte for byte otherwise, with two lines added at the end of
//!    delay_queue.rs that let src/whole.rs see its private fields;
//!  * for src/queue.rs, whole items of delay_queue.rs are cut out, each one slice of the file.
//!
//! The original's folder is $NGAWDRELO_RUST, or shared/docs/src beside the repository.
mod parking;
mod tails;

use std::env;
use std::fs;
use std::path::{Path, PathBuf};

/// First lines of the items of delay_queue.rs that src/queue.rs takes.
const ITEMS: [&str; 20] = [
    "use super::wheel::{self, Wheel};",
    "use core::ops::{Index, IndexMut};",
    "use slab::Slab;",
    "use std::collections::HashMap;",
    "use std::convert::From;",
    "use std::marker::PhantomData;",
    "struct SlabStorage<T> {",
    "impl<T> SlabStorage<T> {",
    "impl<T> Index<Key> for SlabStorage<T> {",
    "impl<T> IndexMut<Key> for SlabStorage<T> {",
    "pub struct Key {",
    "struct KeyInternal {",
    "struct Stack<T> {",
    "struct Data<T> {",
    "impl<T> wheel::Stack for Stack<T> {",
    "impl<T> Default for Stack<T> {",
    "impl Key {",
    "impl KeyInternal {",
    "impl From<Key> for KeyInternal {",
    "impl From<KeyInternal> for Key {",
];

/// Methods of `DelayQueue` that go, whole, under `impl Queue`.
const METHODS: [&str; 2] = [
    "    fn insert_idx(&mut self, when: u64, key: Key) {",
    "    fn remove_key(&mut self, key: &Key) {",
];

fn main() {
    println!("cargo:rerun-if-env-changed=NGAWDRELO_RUST");
    let here = PathBuf::from(env::var("CARGO_MANIFEST_DIR").unwrap());
    let original = env::var_os("NGAWDRELO_RUST")
        .map_or(here.join("../../shared/docs/src"), PathBuf::from)
        .join("src/tokio_util");
    let out = PathBuf::from(env::var("OUT_DIR").unwrap());
    let copy = out.join("tokio_util");

    fs::create_dir_all(copy.join("wheel")).unwrap();
    for file in ["mod.rs", "wheel/mod.rs", "wheel/level.rs", "wheel/stack.rs"] {
        match parking::edited(file, &read(&original.join(file))) {
            Ok(text) => fs::write(copy.join(file), text).unwrap(),
            Err(line) => return println!("cargo::error={line}"),
        }
    }
    let queue = match tails::edited(&read(&original.join("delay_queue.rs"))) {
        Ok(text) => text,
        Err(line) => return println!("cargo::error={line}"),
    };
    let view = format!(
        "\n#[path = {:?}]\npub mod whole;\n",
        here.join("src/whole.rs")
    );
    fs::write(copy.join("delay_queue.rs"), format!("{queue}{view}")).unwrap();
    fs::write(out.join("delay_queue_parts.rs"), parts(&queue)).unwrap();
    fs::write(out.join("original.rs"), modules(&copy)).unwrap();
}

fn read(file: &Path) -> String {
    println!("cargo:rerun-if-changed={}", file.display());
    fs::read_to_string(file).unwrap_or_else(|e| panic!("{}: {e}", file.display()))
}

/// The same copied text as two modules: the wheel that src/queue.rs drives, and the whole.
fn modules(copy: &Path) -> String {
    format!(
        "#[allow(dead_code)]\n#[path = {:?}]\nmod wheel;\n\
         #[allow(dead_code, unexpected_cfgs, unused_imports)]\n#[path = {:?}]\nmod tokio_util;\n",
        copy.join("wheel/mod.rs"),
        copy.join("mod.rs")
    )
}

fn parts(text: &str) -> String {
    let items = ITEMS.map(|first| cut(text, first)).join("\n");
    let methods = METHODS.map(|first| cut(text, first)).join("\n");
    format!("{items}\nimpl Queue {{\n{methods}}}\n")
}

/// The item that begins with the line `first`: with the attribute lines above it, up to the line
/// that closes it at the same indent. `first` must be there exactly once.
fn cut<'a>(text: &'a str, first: &str) -> &'a str {
    let lines: Vec<&str> = text.split_inclusive('\n').collect();
    let is = |i: usize, line: &str| lines[i].strip_suffix('\n') == Some(line);
    let hits: Vec<usize> = (0..lines.len()).filter(|&i| is(i, first)).collect();
    assert_eq!(hits.len(), 1, "lines that read {first:?}");

    let indent = &first[..first.len() - first.trim_start().len()];
    let attribute = format!("{indent}#[");
    let mut from = hits[0];
    while from > 0 && lines[from - 1].starts_with(&attribute) {
        from -= 1;
    }
    let close = format!("{indent}}}");
    let mut to = hits[0];
    while !first.ends_with(';') && !is(to, &close) {
        to += 1;
    }

    let start: usize = lines[..from].iter().map(|l| l.len()).sum();
    let length: usize = lines[from..=to].iter().map(|l| l.len()).sum();
    &text[start..start + length]
}
