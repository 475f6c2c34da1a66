//! The texts of --help, which docs/CLI.md is made from too.

pub const PROGRAM: &str = include_str!("../help/codeplug.txt");
const EDITING: &str = include_str!("../help/editing.txt");

/// A verb's text; none where there is no such verb.
pub fn of(verb: &str) -> Option<String> {
    let (text, editing) = match verb {
        "check" => (include_str!("../help/check.txt"), false),
        "show" => (include_str!("../help/show.txt"), false),
        "new" => (include_str!("../help/new.txt"), false),
        "set" => (include_str!("../help/set.txt"), true),
        "add" => (include_str!("../help/add.txt"), true),
        "remove" => (include_str!("../help/remove.txt"), true),
        "rename" => (include_str!("../help/rename.txt"), true),
        "move" => (include_str!("../help/move.txt"), true),
        "undo" => (include_str!("../help/undo.txt"), true),
        "history" => (include_str!("../help/history.txt"), false),
        "migrate" => (include_str!("../help/migrate.txt"), false),
        "diff" => (include_str!("../help/diff.txt"), false),
        "tone" => (include_str!("../help/tone.txt"), false),
        "callsign" => (include_str!("../help/callsign.txt"), false),
        "address" => (include_str!("../help/address.txt"), false),
        "help" => (include_str!("../help/help.txt"), false),
        _ => return None,
    };
    Some(if editing { format!("{text}{EDITING}") } else { text.to_string() })
}
