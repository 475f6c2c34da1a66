//! The declarations are those of bindings/c/include/codeplug.h.
use std::{env, fs, process::Command};

const ROOT: &str = concat!(env!("CARGO_MANIFEST_DIR"), "/../..");

/// The structures are laid out as C lays out the header's.
#[test]
fn laid_out_as_in_c() {
    let program = concat!(env!("OUT_DIR"), "/layout");
    let cc = env::var("CC").unwrap_or("cc".into());
    let built =
        Command::new(cc).args(["-std=c11", "-Ibindings/c/include", "bindings/c/layout.c", "-o", program]).current_dir(ROOT).status();
    assert!(built.expect("a C compiler").success());
    let printed = Command::new(program).output().unwrap();
    assert_eq!(super::layout(), String::from_utf8(printed.stdout).unwrap());
}

/// A type of the header, in Rust.
fn in_rust(c: &str) -> String {
    match c {
        "size_t" => "usize".into(),
        "uint8_t" => "u8".into(),
        "uint16_t" => "u16".into(),
        "uint32_t" => "u32".into(),
        "uint64_t" => "u64".into(),
        "uint8_t *" => "*mut u8".into(),
        "const uint8_t *" => "*const u8".into(),
        _ => {
            let name = c.strip_prefix("struct codeplug_").unwrap_or_else(|| panic!("{c}"));
            name.split('_').map(|word| word[..1].to_uppercase() + &word[1..]).collect()
        }
    }
}

/// `const uint8_t *file` as its type and its name.
fn declared(c: &str) -> (String, &str) {
    let at = c.rfind([' ', '*']).unwrap() + 1;
    (in_rust(c[..at].trim()), &c[at..])
}

/// A prototype of the header, in Rust.
fn prototype(c: &str) -> String {
    let (head, arguments) = c.trim_end_matches(')').split_once('(').unwrap();
    let (answer, name) = declared(head);
    let arguments = arguments.split(',').filter(|a| *a != "void");
    let arguments: Vec<_> = arguments.map(|a| declared(a.trim())).map(|(kind, name)| format!("{name}: {kind}")).collect();
    format!("pub fn {name}({}) -> {answer}", arguments.join(", "))
}

fn on_one_line(text: &str) -> String {
    text.split_whitespace().collect::<Vec<_>>().join(" ")
}

/// The header's prototypes: what stands before a semicolon and takes arguments, but for comments, what opens a block and the inline
/// functions.
fn prototypes(header: &str) -> Vec<String> {
    let code: String = header.split("/*").map(|part| part.split_once("*/").map_or(part, |(_, code)| code)).collect();
    let code: String = code.replace("\\\n", "").lines().filter(|line| !line.starts_with('#')).map(|line| format!("{line}\n")).collect();
    let statements = code.split(';').map(|s| on_one_line(s.rsplit(['{', '}']).next().unwrap()));
    statements.filter(|s| s.contains(" codeplug_") && s.contains('(')).map(|s| prototype(&s)).collect()
}

/// The functions take and answer what the header's do, in its order.
#[test]
fn functions_as_in_the_header() {
    let there = prototypes(&fs::read_to_string(format!("{ROOT}/bindings/c/include/codeplug.h")).unwrap());
    let (_, ours) = include_str!("../c.rs").split_once("extern \"C\" {").unwrap();
    let (ours, _) = ours.split_once("\n}").unwrap();
    let ours: Vec<_> = ours.split_terminator(';').map(|s| on_one_line(s).replace("( ", "(").replace(", )", ")")).collect();
    assert_eq!(ours, there);
    assert_eq!(there.len(), 24);
}
