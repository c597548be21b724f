//! The one change that is made to the original, in `Stack` of delay_queue.rs alone: "New entries and
//! drained entries now join a list's tail, and heads still leave first, on slots and expired stack
//! alike" (02 [6]). Both the oracle and speed/ are built with it.

/// What stands in the original exactly once, in its order, and what takes its place. No line is
/// added, so that a panic of the original names the line that it has there.
const EDITS: [(&str, &str); 9] = [
    // the list keeps a tail
    (
        "head: Option<Key>,",
        "head: Option<Key>, tail: Option<Key>,",
    ),
    // push: behind the old tail; on an empty list the newcomer is the head as well
    ("Remove the old head entry", "Remove the old tail entry"),
    ("let old = self.head.take();", "let old = self.tail.take();"),
    (
        "store[idx].prev = Some(item);",
        "store[idx].next = Some(item); } else { self.head = Some(item);",
    ),
    ("store[item].next = old;", "store[item].prev = old;"),
    ("self.head = Some(item);", "self.tail = Some(item);"),
    // pop: whoever leaves last was the tail
    (
        "store[idx].prev = None;",
        "store[idx].prev = None; } else { self.tail = None;",
    ),
    // remove: if the tail leaves, the one before it is the tail
    (
        "store[next].prev = store[key].prev;",
        "store[next].prev = store[key].prev; } else { self.tail = store[key].prev;",
    ),
    // an empty list has none
    ("head: None,", "head: None, tail: None,"),
];

/// The text with every edit made, or one line that says which of them does not fit.
pub fn edited(text: &str) -> Result<String, String> {
    let mut made = String::new();
    let mut rest = text;
    for (old, new) in EDITS {
        let (1, Some((before, after))) = (text.matches(old).count(), rest.split_once(old)) else {
            return Err(format!(
                "tails.rs: {old:?} must stand in delay_queue.rs exactly once, in this order"
            ));
        };
        made += before;
        made += new;
        rest = after;
    }
    Ok(made + rest)
}
