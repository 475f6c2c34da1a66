//! Times the proved library, through its C interface, beside plain Rust: the second program, and a leaner path.

mod against;
mod batch;
mod cases;
mod files;
mod heap;
mod lean;
mod library;
mod makers;
mod plot;
mod profile;
mod table;
#[cfg(test)]
mod tests;
mod timing;
mod work;

fn main() {
    heap::keep();
    let words: Vec<String> = std::env::args().skip(1).collect();
    let words: Vec<&str> = words.iter().map(String::as_str).collect();
    let number = |word: &str| word.parse().expect("a number");
    match words[..] {
        [] => table::print(),
        ["files"] => table::print_files(|_| false),
        ["addresses"] => table::print_addresses(),
        ["against", this, other] => against::print(this, other),
        ["plot", path] => plot::write(path),
        ["profile", maker, what, kind, times] => profile::run(maker, what, number(kind), number(times)),
        _ => eprintln!("usage: bench/run [files | addresses | against THIS.so OTHER.so | plot FILE.svg | profile proved|second|lean validate|validate-legacy|migrate|read|edit|undo KIND TIMES]"),
    }
}
