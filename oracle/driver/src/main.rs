//! The oracle: what the Rust answers, as text. docs/ORACLE.md has the forms.
//!
//!     oracle lines FILE|-        a records file in, the lines of `swaps` out
//!     oracle internals FILE|-    the same with internals
//!     oracle states FILE|-       library states in, one a line, and their answers out
//!     oracle raw FILE|-          as states, but the Rust bare where document 01 parts from it
//!     oracle batch FILE|-        cases in, one a line, and blocks of case and answer out

use std::io::{Read, Write};

use oracle::{file, states, text};

fn main() {
    std::panic::set_hook(Box::new(|_| {}));
    let arguments: Vec<String> = std::env::args().skip(1).collect();
    let [mode, path] = &arguments[..] else {
        usage();
    };
    let input = read(path);
    let lines = || std::str::from_utf8(&input).expect("ASCII").lines();
    let answer = match mode.as_str() {
        "lines" => file::answer(&input, false),
        "internals" => file::answer(&input, true),
        "states" => lines().map(|line| states::answer(line, false)).collect(),
        "raw" => lines().map(|line| states::answer(line, true)).collect(),
        "batch" => lines().map(block).collect(),
        _ => usage(),
    };
    std::io::stdout()
        .write_all(answer.as_bytes())
        .expect("standard output takes the answer");
}

fn usage() -> ! {
    eprintln!("usage: oracle lines|internals|states|raw|batch FILE|-");
    std::process::exit(2);
}

fn read(path: &str) -> Vec<u8> {
    let mut bytes = Vec::new();
    if path == "-" {
        std::io::stdin()
            .read_to_end(&mut bytes)
            .expect("standard input can be read");
        bytes
    } else {
        std::fs::read(path).unwrap_or_else(|error| {
            eprintln!("oracle: {path}: {error}");
            std::process::exit(2);
        })
    }
}

/// A case, its answer and an empty line.
fn block(case: &str) -> String {
    let answer = match case.strip_prefix("file") {
        Some(hex) => file::answer(&text::bytes(hex.trim()), true),
        None => states::answer(case, false),
    };
    format!("{case}\n{answer}\n")
}
