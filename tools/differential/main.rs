//! The differential test of the proved codec (tools/differential/run).
//!
//!     differential                            answers the calls of standard input with the Rust codec, as sbc_replay must
//!     differential generate SEED COUNT        writes a list of calls
//!     differential streams FOLDER             writes a list of calls on streams that others made
//!     differential record FOLDER              writes the Rust's PCM beside each of those streams
//!     differential compare LIST PROGRAM SAVE  runs a list through the Rust and through a program; a difference is made small and shown
//!
//! Where the Rust does not answer a call within a time, each of them says so and ends with 1.
mod boundaries;
mod compare;
mod generate;
mod protocol;
mod streams;
mod ties;
mod watch;

use std::io::{BufWriter, Read, Write};

/// Does work that calls the Rust, within its time.
fn watched<T>(name: &str, work: impl FnOnce() -> T) -> T {
    watch::watched(|answered| format!("call {} of {name}", answered + 1), work)
}

fn main() {
    let words: Vec<String> = std::env::args().skip(1).collect();
    let words: Vec<&str> = words.iter().map(String::as_str).collect();
    let mut output = BufWriter::new(std::io::stdout());
    match words[..] {
        [] => {
            let mut list = Vec::new();
            std::io::stdin().read_to_end(&mut list).expect("the calls are read");
            compare::replay(&list, &mut output);
        }
        ["generate", seed, count] => {
            let (seed, count) = (seed.parse().expect("a seed"), count.parse().expect("a count"));
            let list = watched("generate", || generate::generate(seed, count));
            output.write_all(&list).expect("the list is written");
        }
        ["streams", folder] => {
            let list = watched("streams", || streams::streams(folder.as_ref()));
            output.write_all(&list).expect("the list is written");
        }
        ["record", folder] => watched("record", || streams::record(folder.as_ref())),
        ["compare", list, program, save] => {
            let same = compare::compare(&std::fs::read(list).expect("the list is read"), program, save);
            std::process::exit(if same { 0 } else { 1 });
        }
        _ => panic!("the words are not understood"),
    }
    output.flush().expect("the output is written");
}
