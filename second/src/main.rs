//! The second program: an independent implementation of the scope of work ("document 01"), written from the documents alone,
//! with the bench's grammar. It answers scripts, and it makes them.
mod bench;
mod datagram;
mod fragments;
mod generate;
mod hash;
mod message;
mod names;
mod session;
mod streams;

use std::io::{BufRead, Write};

const HELP: &str = "\
second                            answers the script on standard input, a line for each command
second generate SEED LINES AREA   writes a script of about LINES commands, made at random from SEED
                                  AREA: hashes text lines datagrams sessions streams arrivals images fragments grammar
";

fn main() {
    let words: Vec<String> = std::env::args().skip(1).collect();
    let words: Vec<&str> = words.iter().map(String::as_str).collect();
    match words.as_slice() {
        [] => answer(),
        ["generate", seed, lines, area] => {
            let made = seed.parse().ok().zip(lines.parse().ok()).and_then(|(s, n)| generate::script(s, n, area));
            match made {
                Some(script) => drop(std::io::stdout().write_all(&script)),
                None => eprint!("{HELP}"),
            }
        }
        _ => eprint!("{HELP}"),
    }
}

fn answer() {
    let mut input = std::io::stdin().lock();
    let mut output = std::io::stdout().lock();
    let mut bench = bench::Bench::new();
    let mut line = vec![];
    while input.read_until(b'\n', &mut line).is_ok_and(|n| n > 0) {
        if line.last() == Some(&b'\n') {
            line.pop();
        }
        if let Some(answer) = bench.line(&line) {
            if writeln!(output, "{answer}").is_err() {
                return;
            }
        }
        line.clear();
    }
}
