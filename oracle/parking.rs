//! The second change that is made to the original, in wheel/mod.rs and wheel/level.rs: "Add one parking list for
//! deadlines in the next block, height 6" (02 [12]). A seventh level is that list: of its slots only the next block's
//! is ever filled, it is looked at when the six levels are empty, and its drain moves each entry to level 5.

/// What stands in a file exactly once, and what takes its place. No line is added.
const WHEEL: [(&str, &str); 3] = [
    ("const NUM_LEVELS: usize = 6;", "const NUM_LEVELS: usize = 7;"),
    // "4 stays": a deadline may lie as far ahead as before
    ("(1 << (6 * NUM_LEVELS)) - 1;", "(1 << (6 * 6)) - 1;"),
    // the next block's number may differ in more than the seventh level's six bits
    ("    significant / 6\n", "    (significant / 6).min(6)\n"),
];

/// A slot of the seventh level that lies before elapsed's is one of its next turn.
const LEVEL: [(&str, &str); 1] = [(
    "let deadline = level_start + slot as u64 * slot_range;",
    "let deadline = level_start + slot as u64 * slot_range + if self.level == 6 && (slot as u64) < now / slot_range % 64 { level_range } else { 0 };",
)];

/// The text of the file with every edit made, or one line that says which of them does not fit.
pub fn edited(file: &str, text: &str) -> Result<String, String> {
    let edits: &[(&str, &str)] = match file {
        "wheel/mod.rs" => &WHEEL,
        "wheel/level.rs" => &LEVEL,
        _ => &[],
    };
    let mut made = text.to_string();
    for (old, new) in edits {
        if text.matches(old).count() != 1 {
            return Err(format!("parking.rs: {old:?} must stand in {file} exactly once"));
        }
        made = made.replace(old, new);
    }
    Ok(made)
}
