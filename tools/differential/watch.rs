//! A limit on the time that the Rust has for a call. Some faults make it run without end, and a test that waits for ever says nothing.
use std::sync::atomic::{AtomicUsize, Ordering};
use std::sync::mpsc::{RecvTimeoutError, channel};
use std::time::Duration;

/// Far more than a call takes: all of a gate's take a second.
const SECONDS: u64 = 10;

/// The calls that the Rust has answered.
static ANSWERED: AtomicUsize = AtomicUsize::new(0);

/// One more call is answered.
pub fn answered() {
    ANSWERED.fetch_add(1, Ordering::Relaxed);
}

/// Does work that calls the Rust. Where no call is answered for too long, says which one, in the words given, and ends the program with 1.
pub fn watched<T>(call: impl Fn(usize) -> String + Send, work: impl FnOnce() -> T) -> T {
    let first = ANSWERED.load(Ordering::Relaxed);
    let (working, done) = channel::<()>();
    std::thread::scope(|scope| {
        scope.spawn(move || {
            let mut before = first;
            while done.recv_timeout(Duration::from_secs(SECONDS)) == Err(RecvTimeoutError::Timeout) {
                let now = ANSWERED.load(Ordering::Relaxed);
                if now == before {
                    eprintln!("the Rust did not answer within {SECONDS} s at {}", call(now - first));
                    std::process::exit(1);
                }
                before = now;
            }
        });
        let result = work();
        drop(working);
        result
    })
}
