//! The same list through the Rust and through a replay program, compared call by call.
use crate::protocol::{Codec, Reader, Request, shown};
use crate::watch::watched;
use std::io::{Read, Write};
use std::process::{Command, ExitStatus, Stdio};
use std::time::{Duration, Instant};

/// How long the list of a difference is made smaller.
const SHRINKING: Duration = Duration::from_secs(100);

/// The most calls that are shown, the last ones.
const SHOWN: usize = 20;

/// Answers a list with the Rust, up to the first record that is not whole.
pub fn replay(list: &[u8], output: &mut impl Write) {
    let call = |answered: usize| {
        let mut reader = Reader(list);
        let request = (0..=answered).map_while(|_| reader.request()).last().expect("a call");
        format!("call {}: {request}", answered + 1)
    };
    watched(call, || {
        let (mut codec, mut reader) = (Codec::new(), Reader(list));
        while let Some(request) = reader.request() {
            output.write_all(&codec.answer(request)).expect("the answer is written");
        }
    });
}

fn rust_answers(list: &[u8]) -> Vec<u8> {
    let mut answers = Vec::new();
    replay(list, &mut answers);
    answers
}

/// The time that a replay program has for a list.
fn seconds(list: &[u8]) -> usize {
    3 + list.len() / 200_000
}

/// Whether a replay program was ended as its time was over.
fn is_over(status: ExitStatus) -> bool {
    status.code() == Some(124)
}

/// The answers of a replay program to a list, and how it ended. They are short where it ends early, or is ended as it takes too long.
fn replay_answers(program: &str, list: &[u8]) -> (Vec<u8>, ExitStatus) {
    let mut command = Command::new("timeout");
    command.args([&seconds(list).to_string(), program]).stdin(Stdio::piped()).stdout(Stdio::piped());
    let mut child = command.spawn().expect("timeout starts");
    let (mut input, mut output) = (child.stdin.take().unwrap(), child.stdout.take().unwrap());
    let mut answers = Vec::new();
    std::thread::scope(|scope| {
        // A program that has ended takes no more input. That is no failure here: its short answers are the difference.
        scope.spawn(move || input.write_all(list).is_ok());
        output.read_to_end(&mut answers).expect("the replay program's answers are read");
    });
    (answers, child.wait().expect("the replay program ends"))
}

/// A call, and what each side answered.
struct Answered<'a> {
    request: Request,
    rust: &'a [u8],
    replay: &'a [u8],
}

/// The calls of a list with their parts of the answers; all that the replay program wrote beyond its last answer counts as part of that.
fn answered<'a>(list: &'a [u8], mut rust: &'a [u8], mut replay: &'a [u8]) -> Vec<Answered<'a>> {
    let (mut reader, mut calls) = (Reader(list), Vec::new());
    while let Some(request) = reader.request() {
        let length = request.answer_length();
        let until = if reader.0.is_empty() { replay.len() } else { length.min(replay.len()) };
        let (ours, theirs) = (rust.split_off(..length).unwrap(), replay.split_off(..until).unwrap());
        calls.push(Answered { request, rust: ours, replay: theirs });
    }
    calls
}

/// The bytes of each record.
fn records(list: &[u8]) -> Vec<&[u8]> {
    let (mut reader, mut records) = (Reader(list), Vec::new());
    loop {
        let start = reader.0;
        if reader.request().is_none() {
            assert!(start.is_empty(), "the list has a record that is not whole");
            return records;
        }
        records.push(&start[..start.len() - reader.0.len()]);
    }
}

/// The place of the first call that the two answer differently, and how the replay program ended.
fn difference(program: &str, list: &[u8]) -> Option<(usize, ExitStatus)> {
    let (rust, (replay, status)) = std::thread::scope(|scope| {
        let replay = scope.spawn(|| replay_answers(program, list));
        (rust_answers(list), replay.join().unwrap())
    });
    if rust == replay {
        return None;
    }
    let place = answered(list, &rust, &replay).iter().position(|call| call.rust != call.replay)?;
    Some((place, status))
}

fn first_difference(program: &str, list: &[u8]) -> Option<usize> {
    difference(program, list).map(|(place, _)| place)
}

/// Drops calls, first many at once and then one at a time, while the two still differ.
fn smallest<'a>(program: &str, mut calls: Vec<&'a [u8]>, mut first: usize) -> Vec<&'a [u8]> {
    let start = Instant::now();
    let mut many = calls.len().div_ceil(2);
    loop {
        // What follows the first difference is not needed, unless the program ended before it had written all its answers.
        for more in [1, 1000] {
            if first + more < calls.len() && first_difference(program, &calls[..first + more].concat()).is_some() {
                calls.truncate(first + more);
            }
        }
        many = many.min(calls.len());
        let mut dropped = false;
        let mut from = 0;
        while from < calls.len() && start.elapsed() < SHRINKING {
            let fewer = [&calls[..from], &calls[calls.len().min(from + many)..]].concat();
            match first_difference(program, &fewer.concat()) {
                Some(place) => (calls, first, dropped) = (fewer, place, true),
                None => from += many,
            }
        }
        if start.elapsed() >= SHRINKING || many == 1 && !dropped {
            return calls;
        }
        many = many.div_ceil(2);
    }
}

/// Compares, and on a difference prints the smallest list found and writes it to `save`. True if there is none.
pub fn compare(list: &[u8], program: &str, save: &str) -> bool {
    let calls = records(list);
    let Some((first, status)) = difference(program, list) else {
        println!("{} calls, no difference", calls.len());
        return true;
    };
    if is_over(status) {
        println!("the replay program did not answer within {} s at call {} of {}", seconds(list), first + 1, calls.len());
    } else {
        println!("call {} of {} differs", first + 1, calls.len());
    }
    let list = smallest(program, calls, first).concat();
    std::fs::write(save, &list).expect("the smallest list is written");
    let (rust, (replay, status)) = (rust_answers(&list), replay_answers(program, &list));
    let calls = answered(&list, &rust, &replay);
    println!("a list of {} calls shows it (written to {save}):", calls.len());
    for (place, call) in calls.iter().enumerate().skip(calls.len().saturating_sub(SHOWN)) {
        println!("{:3} {}", place + 1, call.request);
        show(call);
    }
    println!("the replay program ended with {status}{}", if is_over(status) { ", which is time over" } else { "" });
    false
}

fn show(call: &Answered) {
    let ((rust, ours), (replay, theirs)) = (call.request.describe(call.rust), call.request.describe(call.replay));
    if call.rust == call.replay {
        println!("    both: {rust} {}", shown(&ours));
        return;
    }
    println!("    Rust:   {rust} {}\n    replay: {replay} {}", shown(&ours), shown(&theirs));
    let places: Vec<usize> = (0..ours.len().min(theirs.len())).filter(|place| ours[*place] != theirs[*place]).collect();
    println!("    {} places of the buffer differ", places.len());
    for place in places.iter().take(8) {
        println!("      {place}: Rust {}, replay {}", ours[*place], theirs[*place]);
    }
}
