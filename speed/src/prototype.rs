//! The C prototype, through calls.c and judge.c. It has one store, its own. New and drained entries come to a list's head there, so that its
//! answers are not held against ours, and it refuses some calls of a script.
use speed::script::Command;

extern "C" {
    fn c_format(n: u64);
    fn c_inner(script: *const Command, commands: usize) -> u64;
    fn c_refused() -> usize;
    fn c_judged_format(n: u64);
    fn c_judged(script: *const Command, commands: usize) -> u64;
    fn c_judge() -> bool;
}

pub fn format(n: usize) {
    unsafe { c_format(n as u64) }
}

pub fn inner(script: &[Command]) -> u64 {
    unsafe { c_inner(script.as_ptr(), script.len()) }
}

/// How many commands of the last script it refused.
pub fn refused() -> usize {
    unsafe { c_refused() }
}

pub fn judged_format(n: usize) {
    unsafe { c_judged_format(n as u64) }
}

pub fn judged(script: &[Command]) -> u64 {
    unsafe { c_judged(script.as_ptr(), script.len()) }
}

pub fn judge() -> bool {
    unsafe { c_judge() }
}
