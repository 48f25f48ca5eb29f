//! What two threads can do that have no protocol: a ping-pong, or windows of 64 messages, each with an empty answer.
//!
//!   limits flags|channels pingpong|window LENGTH TIMES      so many round trips or windows
//!
//! flags: a message's bytes are copied into a slot, its flag is set, and the other one, which waits for that, copies
//! them out. With no bytes that is the least that two processors take. channels: std's channels of vectors, as a Rust
//! programmer would write it; who waits looks again and again.
//!
//! Standard output: nanoseconds for each message.
use std::hint::black_box;
use std::process::exit;
use std::sync::atomic::{AtomicU64, Ordering::*};
use std::sync::mpsc::{channel, Receiver, Sender};
use std::thread;
use std::time::Instant;

const WINDOW: usize = 64;
// Slots begin in lines of memory of their own, two of which a processor fetches at once.
const WORDS: usize = 16;

/// One end of a way for messages both ways.
trait End {
    fn send(&mut self, k: usize, body: &[u8]);
    fn receive(&mut self, k: usize, place: &mut [u8]);
}

/// Slots that one end fills and the other one empties: a flag, and then the bytes.
struct Slots {
    words: Vec<AtomicU64>,
    each: usize,
}

impl Slots {
    fn new(length: usize) -> Slots {
        let each = (length.div_ceil(8) + 1).next_multiple_of(WORDS);
        Slots { words: (0..(WINDOW + 1) * each).map(|_| AtomicU64::new(0)).collect(), each }
    }
    fn at(&self, k: usize) -> (&AtomicU64, *mut u8) {
        let first = self.words.as_ptr().align_offset(8 * WORDS) + k % WINDOW * self.each;
        (&self.words[first], self.words[first + 1..].as_ptr() as *mut u8)
    }
}

struct Flags<'a> {
    out: &'a Slots,
    back: &'a Slots,
}

impl End for Flags<'_> {
    fn send(&mut self, k: usize, body: &[u8]) {
        let (flag, bytes) = self.out.at(k);
        while flag.load(Acquire) != 0 {}
        // SAFETY: a slot has room for a body, and a free one is its sender's.
        unsafe { bytes.copy_from_nonoverlapping(body.as_ptr(), body.len()) };
        flag.store(1, Release);
    }
    fn receive(&mut self, k: usize, place: &mut [u8]) {
        let (flag, bytes) = self.back.at(k);
        while flag.load(Acquire) == 0 {}
        // SAFETY: a filled slot is its receiver's.
        unsafe { bytes.copy_to_nonoverlapping(place.as_mut_ptr(), place.len()) };
        flag.store(0, Release);
    }
}

struct Channels {
    out: Sender<Vec<u8>>,
    back: Receiver<Vec<u8>>,
}

impl End for Channels {
    fn send(&mut self, _: usize, body: &[u8]) {
        self.out.send(body.to_vec()).expect("the other end waits");
    }
    fn receive(&mut self, _: usize, place: &mut [u8]) {
        loop {
            if let Ok(body) = self.back.try_recv() {
                return place.copy_from_slice(&body);
            }
        }
    }
}

/// So many round trips of the first end, or of the second one.
fn pingpong(it: &mut impl End, first: bool, body: &[u8], place: &mut [u8], times: usize) {
    for k in 0..times {
        if first {
            it.send(k, body);
        }
        it.receive(k, place);
        if !first {
            it.send(k, body);
        }
    }
}

/// So many windows, from the first end to the second one.
fn window(it: &mut impl End, first: bool, body: &[u8], place: &mut [u8], times: usize) {
    for k in 0..times {
        if first {
            (0..WINDOW).for_each(|n| it.send(n, body));
            it.receive(k, &mut []);
        } else {
            (0..WINDOW).for_each(|n| it.receive(n, place));
            it.send(k, &[]);
        }
    }
}

/// Nanoseconds that two threads take, each with its end.
fn timed(ends: [impl End + Send; 2], windows: bool, length: usize, times: usize) -> f64 {
    let run = |mut it, first| {
        let (body, mut place) = (vec![7; length], vec![0; length]);
        let shape = if windows { window } else { pingpong };
        shape(&mut it, first, &body, &mut place, times);
        black_box(place);
    };
    let [one, other] = ends;
    let begun = Instant::now();
    thread::scope(|scope| {
        scope.spawn(|| run(other, false));
        run(one, true);
    });
    begun.elapsed().as_nanos() as f64
}

fn main() {
    let words: Vec<String> = std::env::args().skip(1).collect();
    let words: Vec<&str> = words.iter().map(String::as_str).collect();
    let [kind @ ("flags" | "channels"), shape @ ("pingpong" | "window"), length, times] = words[..] else {
        eprintln!("limits flags|channels pingpong|window LENGTH TIMES");
        exit(2)
    };
    let (length, times) = (length.parse().expect("a number"), times.parse().expect("a number"));
    let windows = shape == "window";
    let took = if kind == "flags" {
        let (out, back) = (&Slots::new(length), &Slots::new(length));
        timed([Flags { out, back }, Flags { out: back, back: out }], windows, length, times)
    } else {
        let ((out, there), (answers, back)) = (channel(), channel());
        timed([Channels { out, back }, Channels { out: answers, back: there }], windows, length, times)
    };
    println!("{:.1}", took / (times * if windows { WINDOW } else { 2 }) as f64);
}
