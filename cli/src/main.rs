//! codeplug: checks, shows and edits OBCF 0.1.0 codeplug files. What it decides about a codeplug, the proved library decides.
mod align;
mod args;
mod attributes;
mod cell;
mod check;
mod convert;
mod diff;
mod disk;
mod edition;
mod edits;
mod explain;
mod fail;
mod fields;
mod help;
mod history;
mod layout;
mod migrate;
mod moves;
mod out;
mod reading;
mod records;
mod rows;
mod session;
mod sha256;
mod show;
mod stored;
mod values;
mod verbs;
mod which;

use args::Args;
use fail::{usage, Done};
use fields::{CHANNEL, CONTACT, HEADER};
use out::{say, Out};
use std::ffi::OsString;
use std::process::ExitCode;

fn main() -> ExitCode {
    let mut words: Vec<OsString> = std::env::args_os().skip(1).collect();
    let verb = if words.is_empty() { String::new() } else { words.remove(0).to_string_lossy().into_owned() };
    let mut out = Out::new();
    let done = run(&verb, words, &mut out).and_then(|()| out.flush());
    let Err(fail) = done else { return ExitCode::SUCCESS };
    // What was printed before it failed; where that fails too, one line is enough.
    let _ = out.flush();
    let known = if help::of(&verb).is_some() && verb != "help" { &verb[..] } else { "" };
    if let Some(line) = fail.line(known) {
        say(&line);
    }
    ExitCode::from(fail.status())
}

fn run(verb: &str, words: Vec<OsString>, out: &mut Out) -> Done {
    match verb {
        "" => return usage("no verb is given"),
        "--help" => return text(help::PROGRAM, out),
        "--version" => return version(out),
        _ => {}
    }
    let Some(help) = help::of(verb) else { return usage(format!("there is no verb '{verb}'")) };
    let (values, flags) = options(verb);
    let mut args = Args::parse(words, &values, &flags)?;
    if args.flag("help") {
        return text(&help, out);
    }
    if args.flag("version") {
        return version(out);
    }
    make(verb, args, out)
}

fn make(verb: &str, args: Args, out: &mut Out) -> Done {
    match verb {
        "check" => check::check(args, out),
        "show" => show::show(args, out),
        "new" => verbs::new(args, out),
        "set" => verbs::set(args, out),
        "add" => verbs::add(args, out),
        "remove" => verbs::remove(args, out),
        "rename" => verbs::rename(args, out),
        "move" => moves::move_to(args, out),
        "undo" => verbs::undo(args, out),
        "history" => session::history(args, out),
        "migrate" => migrate::migrate(args, out),
        "diff" => diff::diff(args, out),
        "tone" => convert::tone(args, out),
        "callsign" => convert::callsign(args, out),
        "address" => convert::address(args, out),
        _ => print_help(args, out),
    }
}

/// The options that a verb knows: those with a value, and those without.
fn options(verb: &str) -> (Vec<&'static str>, Vec<&'static str>) {
    let (mut values, mut flags) = match verb {
        "check" => (vec![], vec!["legacy"]),
        "new" => fields::options(HEADER),
        "set" | "add" => {
            let all = [fields::options(HEADER), fields::options(CONTACT), fields::options(CHANNEL)];
            all.into_iter().fold((vec!["at", "like"], vec![]), |(mut values, mut flags), (v, f)| {
                values.extend(v);
                flags.extend(f);
                (values, flags)
            })
        }
        "show" => (vec![], vec!["json", "csv"]),
        "rename" => (vec![], vec!["no-name"]),
        "undo" => (vec!["count"], vec![]),
        "history" => (vec!["count", "wait"], vec![]),
        "migrate" => (vec!["wait"], session::FLAGS.to_vec()),
        "tone" => (vec!["index"], vec![]),
        "callsign" => (vec![], vec!["hex"]),
        _ => (vec![], vec![]),
    };
    if matches!(verb, "set" | "add" | "remove" | "rename" | "move" | "undo") {
        values.extend(session::VALUES);
        flags.extend(session::FLAGS);
    }
    // All but these read or write codeplugs or addresses.
    if !matches!(verb, "tone" | "help") {
        values.push(edition::OPTION);
    }
    flags.extend(["help", "version"]);
    (values, flags)
}

fn print_help(mut args: Args, out: &mut Out) -> Done {
    if !args.has_next() {
        return text(help::PROGRAM, out);
    }
    let verb = args.next_text("VERB")?;
    args.end("help")?;
    match help::of(&verb) {
        Some(help) => text(&help, out),
        None => usage(format!("there is no verb '{verb}'")),
    }
}

fn text(text: &str, out: &mut Out) -> Done {
    out.line(text.trim_end_matches('\n'))
}

fn version(out: &mut Out) -> Done {
    let (major, minor, patch) = codeplug::version();
    out.line(&format!("codeplug {} (library {major}.{minor}.{patch})", env!("CARGO_PKG_VERSION")))
}
