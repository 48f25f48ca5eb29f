//! `nemesis flood` as a Rust programmer would write it with std alone who keeps the program's protocol and proves
//! nothing: cells and their queues, fastboxes, rings of places for pieces, the eager limit with requests and
//! clearances, matching by source, tag and context, and a history of all events that stays until the end.
//!
//!   protocol flood KEY RANKS MESSAGES [--cells N]
//!   protocol pingpong|window LENGTH TIMES
//!
//! A ping-pong has so many round trips of two ranks, and a window 64 messages, each with an empty answer.
//!
//! What its figures are for: they show what the protocol itself need not exceed. Where `threads.rs` is faster than
//! this program, that is at most the price of the protocol; what the proved program takes beyond this one may still
//! be won.
//!
//! Left out: wildcards, probes, cancels and receives that are too short, of which a flood has none; want of memory,
//! which ends the program; threads that can't be started; and that a run goes on in one crew where other work has the
//! processors.
//!
//! Ranks take turns in crews, one for each processor, which sleep where nothing is to be done. A rank has one record
//! for each message at each end, by rank and number. Two switches tell what the history costs (`rustc --cfg`):
//!   no_history     none is kept
//!   small_events   events of 24 bytes, and not of 48
//! a third one what the size of its records costs:
//!   wide_records   each record of a message or a request has about as many bytes as the proved program keeps of it
//! and four what else a message could gain between two ranks:
//!   rung_bells     a crew of one rank leaves its bell rung while it is at work, so who rings again writes nothing, and
//!                  looks into the boxes of all that ever sent to it
//!   at_once        a message leaves right after its command, and pieces in the turn in which places were emptied
//!   used_bodies    the memory of a body is used again once its receive was waited for
//!   long_pieces    pieces of 8,192 bytes, and not of 1,024
//!
//! Standard output: the summary, as `nemesis flood` prints it. The last line is `done` where each receive got a
//! message that fits it, with the bytes that were sent, all cells are home and each rank came to its end; else `bad`,
//! with status 1. A ping-pong and windows print nanoseconds for each message in its place.
use std::cell::UnsafeCell;
use std::collections::{HashMap, VecDeque};
use std::hash::{BuildHasherDefault, Hasher};
use std::iter::from_fn;
use std::mem::{replace, size_of, take, ManuallyDrop};
use std::ops::Range;
use std::process::exit;
use std::sync::atomic::{AtomicU64, Ordering::SeqCst};
use std::sync::OnceLock;
use std::thread::{self, Thread};
use std::time::Instant;

// The protocol's numbers, as the program has them.
const CELLS: usize = 8;
const PACKET: usize = 256;
const BOXES: usize = 4;
const BOX: usize = 64;
const PLACES: usize = 4;
const PIECE: usize = if cfg!(long_pieces) { 8192 } else { 1024 };
const EAGER: u32 = 1024;
// How many messages are under way before the sender waits, where they go in windows.
const WINDOW: u16 = 64;
// How much a rank does of one kind in a turn, and how often a crew looks at its bell before it sleeps.
const TURN: usize = 64;
const PULLS: usize = 4;
const LOOKS: usize = 10_000;
// How many turns for nothing a crew makes while its bell stays rung.
const SPINS: usize = 200;

// ---------------------------------------------------------------- the script

/// What a message is known by at both ends, beside its ranks and its number.
#[derive(Clone, Copy, PartialEq)]
struct Envelope {
    len: u32,
    tag: u16,
    ctx: u8,
    ask: bool, // a request goes first: the message is long, or synchronous
}

enum Command {
    Send { q: u16, to: u8, env: Envelope },
    Receive { q: u16, from: u8, env: Envelope },
    Wait { q: u16, from: u8, env: Envelope }, // a receive's: of a message like this, whatever its length
}

// Receives are named from here on.
const RECEIVES: u16 = 16384;

fn length(key: usize, k: usize) -> u32 {
    ((331 * k + 17 * key) % 2048) as u32
}

fn envelope(k: usize, len: u32, ask: bool) -> Envelope {
    Envelope { len, tag: (k % 1000) as u16, ctx: (k % 3) as u8, ask }
}

/// What ranks do: their commands, and how many messages of how many bytes there are in all.
struct Script {
    own: Vec<Vec<Command>>,
    messages: usize,
    bytes: usize,
}

impl Script {
    fn new(ranks: usize, messages: usize, bytes: usize) -> Script {
        let each = 4 * messages.div_ceil(ranks);
        Script { own: (0..ranks).map(|_| Vec::with_capacity(each)).collect(), messages, bytes }
    }
    fn send(&mut self, k: u16, from: usize, to: usize, env: Envelope) {
        self.own[from].push(Command::Send { q: k, to: to as u8, env });
    }
    fn receive(&mut self, k: u16, from: usize, to: usize, env: Envelope) {
        self.own[to].push(Command::Receive { q: RECEIVES + k, from: from as u8, env });
    }
    fn wait_for_send(&mut self, k: u16, from: usize) {
        self.own[from].push(Command::Wait { q: k, from: from as u8, env: NONE });
    }
    fn wait_for_receive(&mut self, k: u16, from: usize, to: usize, env: Envelope) {
        self.own[to].push(Command::Wait { q: RECEIVES + k, from: from as u8, env });
    }
}

/// A flood.
fn flood(key: usize, ranks: usize, messages: usize) -> Script {
    let sender = |k: usize| k % ranks;
    let receiver = |k: usize| (k % ranks + k / ranks + key) % ranks;
    let mut it = Script::new(ranks, messages, (0..messages).map(|k| length(key, k) as usize).sum());
    for k in 0..messages {
        it.send(k as u16, sender(k), receiver(k), envelope(k, length(key, k), k % 8 == 7));
    }
    for k in (0..messages).rev() {
        it.receive(k as u16, sender(k), receiver(k), envelope(k, 2048, false));
    }
    for k in 0..messages {
        it.wait_for_send(k as u16, sender(k));
    }
    for k in 0..messages {
        it.wait_for_receive(k as u16, sender(k), receiver(k), envelope(k, 2048, false));
    }
    it
}

/// So many round trips between two ranks.
fn pingpong(length: u32, times: usize) -> Script {
    let mut it = Script::new(2, 2 * times, 2 * times * length as usize);
    let env = envelope(0, length, false);
    for (from, to) in [(0, 1), (1, 0)].repeat(times) {
        it.send(0, from, to, env);
        it.wait_for_send(0, from);
        it.receive(0, from, to, env);
        it.wait_for_receive(0, from, to, env);
    }
    it
}

/// So many windows of messages from the first rank to the second one.
fn window(length: u32, times: usize) -> Script {
    let mut it = Script::new(2, times * (WINDOW as usize + 1), times * WINDOW as usize * length as usize);
    let (env, empty) = (envelope(0, length, false), envelope(1, 0, false));
    for _ in 0..times {
        for k in 0..WINDOW {
            it.send(k, 0, 1, env);
            it.receive(k, 0, 1, env);
        }
        for k in 0..WINDOW {
            it.wait_for_send(k, 0);
            it.wait_for_receive(k, 0, 1, env);
        }
        it.send(0, 1, 0, empty);
        it.wait_for_send(0, 1);
        it.receive(0, 1, 0, empty);
        it.wait_for_receive(0, 1, 0, empty);
    }
    it
}

/// The bytes of all bodies, from any byte of the period on.
static PATTERN: [u8; 251 + 8192] = {
    let mut bytes = [0; 251 + 8192];
    let mut k = 0;
    while k < bytes.len() {
        bytes[k] = ((31 * k + 7) % 251) as u8;
        k += 1;
    }
    bytes
};

/// The rest of a body, from this byte on and so long, or as much of it as fits.
fn part(at: u32, rest: u32, fit: usize) -> &'static [u8] {
    &PATTERN[at as usize % 251..][..fit.min(rest as usize)]
}

// ---------------------------------------------------------------- the history

/// What a rank records, of a message or of a command.
enum Did {
    Send,
    Post,
    Arrive,
    Complete,
    Leave,
    Start,
    Sent,
    Got,
}

const WORDS: usize = if cfg!(small_events) { 3 } else { 6 };
const NONE: Envelope = Envelope { len: 0, tag: 0, ctx: 0, ask: false };

/// Events in blocks, none of which is moved.
#[derive(Default)]
struct History {
    clock: u64,
    last: Vec<[u64; WORDS]>,
    full: Vec<Vec<[u64; WORDS]>>,
}

impl History {
    #[cold]
    fn grow(&mut self) {
        let bytes = (4096 << self.full.len().min(5)) - 64;
        let full = replace(&mut self.last, Vec::with_capacity(bytes / size_of::<[u64; WORDS]>()));
        self.full.push(full);
    }
    /// Records what was done with message `n` of a rank, or by this command.
    #[inline(always)]
    fn add(&mut self, did: Did, rank: u8, n: u32, command: usize, env: Envelope) {
        self.clock += 1;
        if cfg!(no_history) {
            return;
        }
        if self.last.len() == self.last.capacity() {
            self.grow();
        }
        let mut words = [0; WORDS];
        words[0] = self.clock;
        words[1] = did as u64 | (rank as u64) << 8 | (env.ask as u64) << 16 | (env.ctx as u64) << 24;
        words[1] |= (env.tag as u64) << 32 | (command as u64) << 48;
        words[2] = n as u64 | (env.len as u64) << 32;
        self.last.push(words);
    }
}

// ---------------------------------------------------------------- what ranks share

#[derive(Clone, Copy)]
#[repr(u8)]
enum Kind {
    First, // of a message, or its request
    More,  // bytes of the last message
    Clear, // an asked message may come; its number stands for the length
}

struct Head {
    stamp: u64,
    seq: u32,
    env: Envelope,
    bytes: u16,
    kind: Kind,
    from: u8,
}

#[repr(C)]
struct Packet<const ROOM: usize> {
    head: Head,
    bytes: [u8; ROOM],
}

impl<const ROOM: usize> Packet<ROOM> {
    fn fill(&mut self, head: Head, bytes: &[u8]) {
        self.head = head;
        self.bytes[..bytes.len()].copy_from_slice(bytes);
    }
}

#[repr(C, align(64))]
struct Fastbox {
    flag: AtomicU64, // the number of the packet among those of the pair, and 1; or 0: free
    packet: UnsafeCell<Packet<BOX>>,
}

#[repr(C, align(64))]
struct Place {
    flag: AtomicU64, // 0: free
    piece: UnsafeCell<Piece>,
}

/// A piece goes by the memory that it is in; other memory goes back by the same place.
struct Piece {
    n: u32,
    len: u32,
    bytes: Option<Box<[u8; PIECE]>>,
}

/// What an ordered pair of ranks has.
struct Pair {
    boxes: [Fastbox; BOXES],
    places: [Place; PLACES],
}

#[repr(C, align(64))]
struct Cell {
    link: AtomicU64,
    packet: UnsafeCell<Packet<PACKET>>,
}

/// A word in lines of memory of its own.
#[repr(C, align(128))]
struct Alone(AtomicU64);

struct Queue {
    head: Alone,
    tail: Alone,
}

/// What others reach a rank by.
struct Door {
    received: Queue,
    free: Queue,    // own cells that came back
    senders: Alone, // who sent to it
}

/// So many of them, in memory that nobody has touched. All bytes 0 must be one.
unsafe fn zeroed<T>(count: usize) -> &'static [T] {
    let mut bytes = ManuallyDrop::new(vec![0u8; count * size_of::<T>() + 128]);
    let first = bytes.as_mut_ptr();
    // SAFETY: no type here wants to be aligned to more than 128, and the memory is never given back.
    unsafe { std::slice::from_raw_parts(first.add(first.align_offset(128)) as *const T, count) }
}

struct Shared {
    ranks: usize,
    cells: usize, // of each rank: rank r has those from r * cells + 1 on, and cell 0 is none
    cell: &'static [Cell],
    pairs: &'static [Pair], // by receiver and sender
    doors: &'static [Door],
    crews: Vec<Range<usize>>,
    bells: Vec<Bell>,
    awake: Alone, // how many crews are awake or rung, and no less
}

// SAFETY: what is no atomic word is in a slot, which at each time one rank has: who may fill it, or who may empty it.
unsafe impl Sync for Shared {}

impl Shared {
    fn new(ranks: usize, cells: usize, crews: usize) -> Shared {
        let bell = || Bell { word: Alone(AtomicU64::new(0)), sleeper: OnceLock::new() };
        // SAFETY: 0 is a word, a number, a flag, a kind of packet and no memory.
        let (cell, pairs, doors) = unsafe { (zeroed(ranks * cells + 1), zeroed(ranks * ranks), zeroed(ranks)) };
        Shared {
            ranks,
            cells,
            cell,
            pairs,
            doors,
            crews: (0..crews).map(|c| c * ranks / crews..(c + 1) * ranks / crews).collect(),
            bells: (0..crews).map(|_| bell()).collect(),
            awake: Alone(AtomicU64::new(crews as u64)),
        }
    }
    fn pair(&self, from: u8, to: u8) -> &Pair {
        &self.pairs[to as usize * self.ranks + from as usize]
    }
    fn enqueue(&self, queue: &Queue, c: u32) {
        self.cell[c as usize].link.store(0, SeqCst);
        match queue.tail.0.swap(c as u64, SeqCst) {
            0 => queue.head.0.store(c as u64, SeqCst),
            last => self.cell[last as usize].link.store(c as u64, SeqCst),
        }
    }
    /// The first cell of a queue. Only its rank asks, and keeps a shadow of its head.
    fn dequeue(&self, queue: &Queue, shadow: &mut u32) -> Option<u32> {
        if *shadow == 0 {
            *shadow = queue.head.0.load(SeqCst) as u32;
            if *shadow == 0 {
                return None;
            }
            queue.head.0.store(0, SeqCst);
        }
        let c = *shadow;
        let link = &self.cell[c as usize].link;
        let is_last = || queue.tail.0.compare_exchange(c as u64, 0, SeqCst, SeqCst).is_ok();
        let was_last = link.load(SeqCst) == 0 && is_last();
        let next = link.load(SeqCst) as u32;
        if next == 0 && !was_last {
            // another one is about to stand behind it
            return None;
        }
        *shadow = next;
        Some(c)
    }
}

// ---------------------------------------------------------------- bells

/// A crew's bell: which of its ranks may have something to do, or that it sleeps, or that all is over.
struct Bell {
    word: Alone,
    sleeper: OnceLock<Thread>,
}

const SLEEPS: u64 = 1 << 62;
const OVER: u64 = 1 << 63;

impl Shared {
    /// Rings for these ranks of a crew. What they are to see was stored before.
    fn ring(&self, crew: usize, ranks: u64) {
        let bell = &self.bells[crew];
        let seen = bell.word.0.load(SeqCst);
        if ranks & !seen == 0 {
            return;
        }
        if seen & SLEEPS == 0 && bell.word.0.compare_exchange(seen, seen | ranks, SeqCst, SeqCst).is_ok() {
            return;
        }
        self.awake.0.fetch_add(1, SeqCst);
        if bell.word.0.fetch_or(ranks, SeqCst) == SLEEPS {
            bell.sleeper.wait().unpark();
        } else {
            self.awake.0.fetch_sub(1, SeqCst);
        }
    }
    /// Which ranks of a crew are rung, and stay so.
    fn still_rung(&self, crew: usize) -> Option<u64> {
        let seen = self.bells[crew].word.0.load(SeqCst);
        (seen != 0 && seen & (OVER | SLEEPS) == 0).then_some(seen)
    }
    /// Which ranks of a crew may have something to do, beside these. None: no crew has, so all is over.
    fn next(&self, crew: usize, due: u64) -> Option<u64> {
        let bell = &self.bells[crew];
        let looks = if due == 0 { LOOKS } else { 1 };
        let is_rung = (0..looks).any(|_| bell.word.0.load(SeqCst) != 0);
        if due == 0 && !is_rung {
            self.sleep(bell);
        }
        let rung = if due == 0 || is_rung { bell.word.0.swap(0, SeqCst) } else { 0 };
        (rung & OVER == 0).then_some(due | rung & !SLEEPS)
    }
    fn sleep(&self, bell: &Bell) {
        if bell.word.0.compare_exchange(0, SLEEPS, SeqCst, SeqCst).is_err() {
            return;
        }
        if self.awake.0.fetch_sub(1, SeqCst) == 1 {
            for other in &self.bells {
                other.word.0.fetch_or(OVER, SeqCst);
                other.sleeper.wait().unpark();
            }
        }
        while bell.word.0.load(SeqCst) == SLEEPS {
            thread::park();
        }
    }
}

// ---------------------------------------------------------------- a rank's tables

#[derive(Default, PartialEq)]
enum Waits {
    #[default]
    Nothing,
    Receives,
    Messages,
}

/// Receives that wait, or messages that do, of one source, tag and context: the numbers of the oldest and the newest
/// one. Each one's record has the number of the next.
#[derive(Default)]
struct Bucket {
    waits: Waits,
    first: u32,
    last: u32,
}

impl Bucket {
    /// Takes the oldest one out. This one is behind it, if any is.
    fn leave(&mut self, next: u32) {
        if self.first == self.last {
            self.waits = Waits::Nothing;
        }
        self.first = next;
    }
    /// Puts one behind the others, and tells which one it is behind.
    fn join(&mut self, waits: Waits, number: u32) -> Option<u32> {
        let last = replace(&mut self.last, number);
        if self.waits != Waits::Nothing {
            return Some(last);
        }
        (self.waits, self.first) = (waits, number);
        None
    }
}

/// A hasher of short keys.
#[derive(Default)]
struct Fold(u64);

impl Hasher for Fold {
    fn finish(&self) -> u64 {
        self.0.rotate_left(26)
    }
    fn write(&mut self, bytes: &[u8]) {
        bytes.iter().for_each(|&byte| self.write_u32(byte as u32));
    }
    fn write_u32(&mut self, key: u32) {
        self.0 = (self.0 ^ key as u64).wrapping_mul(0x9E37_79B9_7F4A_7C15);
    }
}

type Matcher = HashMap<u32, Bucket, BuildHasherDefault<Fold>>;

fn bucket(matcher: &mut Matcher, from: u8, env: Envelope) -> &mut Bucket {
    matcher.entry((from as u32) << 24 | (env.tag as u32) << 8 | env.ctx as u32).or_default()
}

// What the proved program keeps of a message or a request beside what this one does, in words.
const WORDS_OF_DEPARTURE: usize = 4;
const WORDS_OF_RECEIPT: usize = 4;
const WORDS_OF_POST: usize = 9;
const WORDS_OF_NOTE: usize = 6;
const WORDS_OF_REQUEST: usize = 7;

/// So many words more of a record, which are written where it is made.
#[cfg(wide_records)]
struct More<const WORDS: usize>([u64; WORDS]);
#[cfg(not(wide_records))]
struct More<const WORDS: usize>;

impl<const WORDS: usize> More<WORDS> {
    fn new() -> Self {
        #[cfg(wide_records)]
        return More(std::hint::black_box([1; WORDS]));
        #[cfg(not(wide_records))]
        More
    }
}

/// A message at its sender.
struct Departure {
    _more: More<WORDS_OF_DEPARTURE>,
    env: Envelope,
    out: bool,
}

/// A message at its receiver.
struct Receipt {
    _more: More<WORDS_OF_RECEIPT>,
    body: Vec<u8>,
    env: Envelope,
    link: u32, // while it waits: the next one of its bucket
}

impl Receipt {
    fn is_whole(&self) -> bool {
        self.body.len() == self.env.len as usize
    }
}

/// A receive.
struct Post {
    _more: More<WORDS_OF_POST>,
    link: u32, // the message that it took; while it waits, the next one of its bucket
    paired: bool,
    from: u8,
}

/// A message that is to leave, or a clearance of one.
struct Note {
    _more: More<WORDS_OF_NOTE>,
    clear: bool,
    rank: u8,
    n: u32,
}

/// What a rank knows of another one, and of itself as another.
#[derive(Default)]
struct Peer {
    sent: Vec<Departure>,
    came: Vec<Receipt>,
    packets: u32, // sent to it
    taken: u32,   // from it
    boxed: u32,   // those that were sent by box
    unboxed: u32,
    pushed: u32, // pieces
    pulled: u32,
    due: u32, // bytes that it was cleared for and that are still to come
}

// The request of a name, in a word: 0 for none, a receive's number, or a send's rank and number.
const RECEIVE: u32 = 1 << 31;
const SEND: u32 = 1 << 30;

// Memory for bodies is asked for so much ahead.
const AHEAD: usize = 98304;

#[derive(Default)]
struct Rank<'a> {
    me: u8,
    crew: usize,
    own: &'a [Command],
    at: usize, // the next command
    names: Vec<u32>,
    requests: Vec<More<WORDS_OF_REQUEST>>,
    peers: Vec<Peer>,
    posts: Vec<Post>,
    matcher: Matcher,
    history: History,
    outbox: VecDeque<Note>,          // what is to leave in packets
    gone: u32,                       // bytes of the first message there
    cleared: VecDeque<Note>,         // messages that are to leave in pieces
    pushed: u32,                     // bytes of the first one there
    spare: Option<Box<[u8; PIECE]>>, // memory for a piece
    used_bodies: Vec<Vec<u8>>,       // whose memory is used again
    asked: usize,                    // memory that was taken since it was asked for ahead
    due: u64,                        // whose pieces are to come
    hot: u64,                        // whose boxes may be filled
    sent_to: u64,                    // whom it did not tell
    took_from: u64,
    used: usize, // own cells that were ever used
    free: u32,   // the shadows of the heads of both queues
    received: u32,
    totals: [u64; 4], // messages that were sent, those that were received, their bytes, how many were right
}

/// The places of the bits that are set.
fn bits(mut word: u64) -> impl Iterator<Item = u8> {
    from_fn(move || {
        let first = (word != 0).then_some(word.trailing_zeros() as u8);
        word &= word.wrapping_sub(1);
        first
    })
}

/// Goes on so long as something is done, up to so often, and tells whether anything was.
fn some(most: usize, mut step: impl FnMut() -> bool) -> bool {
    (0..most).take_while(|_| step()).count() > 0
}

impl Rank<'_> {
    // ------------------------------------------------------------ what leaves

    fn free_cell(&mut self, s: &Shared) -> Option<u32> {
        if self.used == s.cells {
            return s.dequeue(&s.doors[self.me as usize].free, &mut self.free);
        }
        self.used += 1;
        Some((self.me as usize * s.cells + self.used) as u32)
    }
    /// Sends a packet by a box, else by a cell, if there is one.
    fn send(&mut self, s: &Shared, to: u8, kind: Kind, env: Envelope, bytes: &[u8]) -> bool {
        let peer = &mut self.peers[to as usize];
        let seq = peer.packets;
        let head = Head { stamp: self.history.clock, seq, env, bytes: bytes.len() as u16, kind, from: self.me };
        let slot = &s.pair(self.me, to).boxes[peer.boxed as usize % BOXES];
        if bytes.len() <= BOX && slot.flag.load(SeqCst) == 0 {
            peer.boxed += 1;
            // SAFETY: a free box is its sender's.
            unsafe { (*slot.packet.get()).fill(head, bytes) };
            slot.flag.store(seq as u64 + 1, SeqCst);
        } else {
            let Some(c) = self.free_cell(s) else { return false };
            // SAFETY: a free cell that was taken is its owner's.
            unsafe { (*s.cell[c as usize].packet.get()).fill(head, bytes) };
            s.enqueue(&s.doors[to as usize].received, c);
        }
        self.peers[to as usize].packets += 1;
        self.sent_to |= 1 << to;
        true
    }
    fn send_next(&mut self, s: &Shared) -> bool {
        let Some(&Note { clear, rank: to, n, .. }) = self.outbox.front() else { return false };
        if clear {
            let env = Envelope { len: n, ..NONE };
            return self.send(s, to, Kind::Clear, env, &[]) && self.outbox.pop_front().is_some();
        }
        let env = self.peers[to as usize].sent[n as usize].env;
        let all = if env.ask { 0 } else { env.len };
        let bytes = part(self.gone, all - self.gone, PACKET);
        let kind = if self.gone == 0 { Kind::First } else { Kind::More };
        if !self.send(s, to, kind, env, bytes) {
            return false;
        }
        self.gone += bytes.len() as u32;
        if self.gone == all {
            self.gone = 0;
            self.outbox.pop_front();
            if !env.ask {
                self.leave(to, n);
            }
        }
        true
    }
    /// A message has left whole.
    fn leave(&mut self, to: u8, n: u32) {
        self.peers[to as usize].sent[n as usize].out = true;
        self.history.add(Did::Leave, to, n, 0, NONE);
    }
    /// Pushes the next piece of the first cleared message.
    fn push_next(&mut self, s: &Shared) -> bool {
        let Some(&Note { rank: to, n, .. }) = self.cleared.front() else { return false };
        let peer = &mut self.peers[to as usize];
        let place = &s.pair(self.me, to).places[peer.pushed as usize % PLACES];
        if place.flag.load(SeqCst) != 0 {
            return false;
        }
        let all = peer.sent[n as usize].env.len;
        let bytes = part(self.pushed, all - self.pushed, PIECE);
        let mut memory = self.spare.take().unwrap_or_else(|| Box::new([0; PIECE]));
        memory[..bytes.len()].copy_from_slice(bytes);
        let next = Piece { n, len: bytes.len() as u32, bytes: Some(memory) };
        // SAFETY: a free place is its sender's.
        self.spare = unsafe { replace(&mut *place.piece.get(), next) }.bytes;
        place.flag.store(1, SeqCst);
        peer.pushed += 1;
        self.sent_to |= 1 << to;
        self.pushed += bytes.len() as u32;
        if self.pushed == all {
            self.pushed = 0;
            self.cleared.pop_front();
            self.leave(to, n);
        }
        true
    }

    // ------------------------------------------------------------ what comes

    /// Room for a body: memory that was used, if the last one's is enough, or such as is asked for by blocks.
    fn body(&mut self, len: u32) -> Vec<u8> {
        if let Some(used) = self.used_bodies.pop_if(|it| it.capacity() >= len as usize) {
            return used;
        }
        self.asked += len as usize + 256;
        if self.asked >= AHEAD {
            self.asked = 0;
            drop(std::hint::black_box(Vec::<u8>::with_capacity(AHEAD)));
        }
        Vec::with_capacity(len as usize)
    }
    /// A receive has taken a message that was asked for: it may come.
    fn grant(&mut self, from: u8, n: u32) {
        let len = self.peers[from as usize].came[n as usize].env.len;
        self.peers[from as usize].came[n as usize].body = self.body(len);
        self.peers[from as usize].due += len;
        self.due |= ((len > 0) as u64) << from;
        self.outbox.push_back(Note { _more: More::new(), clear: true, rank: from, n });
        if len == 0 {
            self.history.add(Did::Complete, from, n, 0, NONE);
        }
    }
    /// A message comes, or its request: the oldest receive of its envelope takes it, if there is one.
    fn arrive(&mut self, from: u8, env: Envelope, bytes: &[u8]) {
        let n = self.peers[from as usize].came.len() as u32;
        self.history.add(Did::Arrive, from, n, 0, env);
        let mut body = if env.ask { Vec::new() } else { self.body(env.len) };
        body.extend_from_slice(bytes);
        self.peers[from as usize].came.push(Receipt { _more: More::new(), body, env, link: 0 });
        let bucket = bucket(&mut self.matcher, from, env);
        if bucket.waits == Waits::Receives {
            let post = &mut self.posts[bucket.first as usize];
            bucket.leave(post.link);
            (post.link, post.paired, post.from) = (n, true, from);
            if env.ask {
                self.grant(from, n);
            }
        } else if let Some(last) = bucket.join(Waits::Messages, n) {
            self.peers[from as usize].came[last as usize].link = n;
        }
        if !env.ask && bytes.len() as u32 == env.len {
            self.history.add(Did::Complete, from, n, 0, NONE);
        }
    }
    fn take_packet<const ROOM: usize>(&mut self, packet: &Packet<ROOM>) {
        let Packet { head: Head { stamp, env, bytes, kind, from, .. }, bytes: room } = packet;
        let (from, bytes) = (*from, &room[..*bytes as usize]);
        self.history.clock = self.history.clock.max(*stamp);
        self.took_from |= 1 << from;
        let peer = &mut self.peers[from as usize];
        peer.taken += 1;
        match kind {
            Kind::First => self.arrive(from, *env, bytes),
            Kind::More => {
                // packets of a pair keep their order, so this one is of the last message that came by packets
                let n = peer.came.len() - 1;
                peer.came[n].body.extend_from_slice(bytes);
                if peer.came[n].is_whole() {
                    self.history.add(Did::Complete, from, n as u32, 0, NONE);
                }
            }
            Kind::Clear if peer.sent[env.len as usize].env.len == 0 => self.leave(from, env.len),
            Kind::Clear => self.cleared.push_back(Note { _more: More::new(), clear: true, rank: from, n: env.len }),
        }
    }
    /// Takes the packet in a sender's next box, if it is the next one of all.
    fn take_box(&mut self, s: &Shared, from: u8) -> bool {
        let peer = &mut self.peers[from as usize];
        let slot = &s.pair(from, self.me).boxes[peer.unboxed as usize % BOXES];
        let flag = slot.flag.load(SeqCst);
        if flag != peer.taken as u64 + 1 {
            if flag == 0 && !self.keeps_rung(s) {
                self.hot &= !(1 << from);
            }
            return false;
        }
        peer.unboxed += 1;
        // SAFETY: a filled box is its receiver's.
        self.take_packet(unsafe { &*slot.packet.get() });
        slot.flag.store(0, SeqCst);
        true
    }
    /// Takes the packet in the first cell that was received, and tells how many it took.
    fn take_cell(&mut self, s: &Shared) -> usize {
        let queue = &s.doors[self.me as usize].received;
        let Some(c) = s.dequeue(queue, &mut self.received) else { return 0 };
        // SAFETY: a cell that was taken out of the queue is its receiver's.
        let packet = unsafe { &*s.cell[c as usize].packet.get() };
        let (seq, from) = (packet.head.seq, packet.head.from);
        let mut took = 1;
        // those before it that did not come are in boxes
        while self.peers[from as usize].taken != seq {
            took += self.take_box(s, from) as usize;
        }
        self.take_packet(packet);
        s.enqueue(&s.doors[(c as usize - 1) / s.cells].free, c);
        took
    }
    fn take_all(&mut self, s: &Shared) -> bool {
        let mut took = 0;
        loop {
            let before = took;
            for from in bits(self.hot) {
                while took < TURN && self.take_box(s, from) {
                    took += 1;
                }
            }
            while took < TURN {
                match self.take_cell(s) {
                    0 => break,
                    more => took += more,
                }
            }
            if took == before || took >= TURN {
                return took > 0;
            }
        }
    }
    /// Pulls the next piece of a sender.
    fn pull_next(&mut self, s: &Shared, from: u8) -> bool {
        let peer = &mut self.peers[from as usize];
        let place = &s.pair(from, self.me).places[peer.pulled as usize % PLACES];
        if peer.due == 0 || place.flag.load(SeqCst) == 0 {
            return false;
        }
        // SAFETY: a filled place is its receiver's.
        let piece = unsafe { &mut *place.piece.get() };
        let (n, len) = (piece.n, piece.len);
        let memory = replace(&mut piece.bytes, self.spare.take()).expect("a piece has bytes");
        place.flag.store(0, SeqCst);
        let receipt = &mut peer.came[n as usize];
        receipt.body.extend_from_slice(&memory[..len as usize]);
        self.spare = Some(memory);
        peer.pulled += 1;
        peer.due -= len;
        if peer.due == 0 {
            self.due &= !(1 << from);
        }
        self.took_from |= 1 << from;
        if receipt.is_whole() {
            self.history.add(Did::Complete, from, n, 0, NONE);
        }
        true
    }

    // ------------------------------------------------------------ commands

    fn run_next(&mut self) -> bool {
        let ran = match self.own.get(self.at) {
            Some(&Command::Send { q, to, env }) => self.start_send(q, to, env),
            Some(&Command::Receive { q, from, env }) => self.start_receive(q, from, env),
            Some(&Command::Wait { q, from, env }) => self.wait(q, from, env),
            None => false,
        };
        self.at += ran as usize;
        ran
    }
    /// Runs the next command; what it makes ready leaves at once, where nothing is before it.
    fn run_and_send(&mut self, s: &Shared) -> bool {
        let first = self.outbox.is_empty();
        let ran = self.run_next();
        if cfg!(at_once) && ran && first {
            self.send_next(s);
        }
        ran
    }
    fn start_send(&mut self, q: u16, to: u8, env: Envelope) -> bool {
        let env = Envelope { ask: env.ask || env.len > EAGER, ..env };
        let peer = &mut self.peers[to as usize];
        let n = peer.sent.len() as u32;
        peer.sent.push(Departure { _more: More::new(), env, out: false });
        self.history.add(Did::Send, to, n, self.at, env);
        self.outbox.push_back(Note { _more: More::new(), clear: false, rank: to, n });
        self.requests.push(More::new());
        self.names[q as usize] = SEND | (to as u32) << 16 | n;
        self.history.add(Did::Start, 0, 0, self.at, NONE);
        true
    }
    /// Starts a receive, which takes the oldest message of its envelope, if there is one.
    fn start_receive(&mut self, q: u16, from: u8, env: Envelope) -> bool {
        let number = self.posts.len() as u32;
        self.history.add(Did::Post, from, number, self.at, env);
        let bucket = bucket(&mut self.matcher, from, env);
        if bucket.waits == Waits::Messages {
            let n = bucket.first;
            let receipt = &self.peers[from as usize].came[n as usize];
            bucket.leave(receipt.link);
            self.posts.push(Post { _more: More::new(), link: n, paired: true, from });
            if receipt.env.ask {
                self.grant(from, n);
            }
        } else {
            if let Some(last) = bucket.join(Waits::Receives, number) {
                self.posts[last as usize].link = number;
            }
            self.posts.push(Post { _more: More::new(), link: 0, paired: false, from });
        }
        self.requests.push(More::new());
        self.names[q as usize] = RECEIVE | number;
        self.history.add(Did::Start, 0, 0, self.at, NONE);
        true
    }
    /// Whether a request is complete; if so, its name is free again.
    fn wait(&mut self, q: u16, source: u8, like: Envelope) -> bool {
        let name = self.names[q as usize];
        if name & SEND != 0 {
            if !self.peers[(name >> 16 & 63) as usize].sent[(name & 0xFFFF) as usize].out {
                return false;
            }
            self.totals[0] += 1;
            self.history.add(Did::Sent, 0, 0, self.at, NONE);
        } else {
            let Post { link: n, paired, from, .. } = self.posts[(name & !RECEIVE) as usize];
            if !paired || !self.peers[from as usize].came[n as usize].is_whole() {
                return false;
            }
            let Receipt { body, env, .. } = &mut self.peers[from as usize].came[n as usize];
            let fit = Envelope { len: env.len, ask: env.ask, ..like } == *env && source == from;
            let right = fit && body.chunks(8 * 251).all(|it| *it == PATTERN[..it.len()]);
            let more = [0, 1, env.len as u64, right as u64];
            self.totals.iter_mut().zip(more).for_each(|(all, one)| *all += one);
            self.history.add(Did::Got, from, n, self.at, *env);
            if cfg!(used_bodies) && !body.is_empty() {
                body.clear();
                self.used_bodies.push(take(body));
            }
        }
        self.names[q as usize] = 0;
        true
    }

    // ------------------------------------------------------------ turns

    /// Tells those that it sent to or took from, but for its own crew's, which are the answer.
    fn tell(&mut self, s: &Shared) -> u64 {
        let (sent, took) = (take(&mut self.sent_to), take(&mut self.took_from));
        let (me, mut here) = (1 << self.me, 0);
        for to in bits(sent) {
            let senders = &s.doors[to as usize].senders.0;
            if senders.load(SeqCst) & me == 0 {
                senders.fetch_or(me, SeqCst);
            }
        }
        for (crew, ranks) in s.crews.iter().enumerate() {
            let due = (sent | took) >> ranks.start & u64::MAX >> (64 - ranks.len());
            if crew == self.crew {
                here = due;
            } else if due != 0 {
                s.ring(crew, due);
            }
        }
        here
    }
    /// Whether its crew leaves its bell rung while it is at work.
    fn keeps_rung(&self, s: &Shared) -> bool {
        cfg!(rung_bells) && s.crews[self.crew].len() == 1
    }
    /// Which ranks of its crew have something to do after its turn.
    fn turn(&mut self, s: &Shared) -> u64 {
        let sent = some(TURN, || self.send_next(s));
        let pushed = some(TURN, || self.push_next(s));
        let told = self.tell(s);
        let senders = &s.doors[self.me as usize].senders.0;
        if senders.load(SeqCst) != 0 {
            self.hot |= senders.swap(0, SeqCst);
        }
        let took = self.take_all(s);
        let pulled = bits(self.due).fold(false, |any, from| any | some(PULLS, || self.pull_next(s, from)));
        let pushed = pushed | (cfg!(at_once) && some(TURN, || self.push_next(s)));
        let told = told | self.tell(s);
        let ran = some(TURN, || self.run_and_send(s));
        let again = sent | pushed | took | pulled | ran;
        told | (again as u64) << (self.me as usize - s.crews[self.crew].start)
    }
}

/// The turns of a crew's ranks, until no crew has anything to do.
fn rounds<'a>(crew: usize, s: &Shared, own: &'a [Vec<Command>], names: usize) -> Vec<Rank<'a>> {
    let _ = s.bells[crew].sleeper.set(thread::current());
    let rank = |me: usize| {
        let peers = (0..s.ranks).map(|_| Peer::default()).collect();
        Rank { me: me as u8, crew, own: &own[me][..], names: vec![0; names], peers, ..Rank::default() }
    };
    let mut ranks: Vec<Rank> = s.crews[crew].clone().map(rank).collect();
    let (mut next, mut idle) = (Some(u64::MAX), 0);
    while let Some(due) = next {
        let turns = ranks.iter_mut().enumerate().filter(|(k, _)| due >> k & 1 != 0);
        let more = turns.fold(0, |more, (_, rank)| more | rank.turn(s));
        idle = if more == 0 { idle + 1 } else { 0 };
        let rung = if idle < SPINS && ranks.iter().all(|it| it.keeps_rung(s)) { s.still_rung(crew) } else { None };
        next = rung.map(|rung| more | rung).or_else(|| s.next(crew, more));
    }
    ranks
}

// ---------------------------------------------------------------- the whole

/// What the command line asks for, where it is fit, and the cells of each rank.
fn asked(words: &[&str]) -> Option<(Script, usize)> {
    let number = |word: &str, most| word.parse().ok().filter(|number| *number <= most);
    match *words {
        ["flood", key, ranks, messages, ref rest @ ..] => {
            let cells = match *rest {
                [] => CELLS,
                ["--cells", cells] => number(cells, 64).filter(|it| *it > 0)?,
                _ => return None,
            };
            let ranks = number(ranks, 64).filter(|it| *it > 0)?;
            Some((flood(number(key, 65535)?, ranks, number(messages, 16000)?), cells))
        }
        ["pingpong", length, times] => Some((pingpong(number(length, 1 << 20)? as u32, number(times, 8000)?), CELLS)),
        ["window", length, times] => Some((window(number(length, 1 << 20)? as u32, number(times, 250)?), CELLS)),
        _ => None,
    }
}

/// All ranks at their ends, and the nanoseconds that this took.
fn run<'a>(s: &'a Shared, own: &'a [Vec<Command>], names: usize) -> (Vec<Rank<'a>>, u128) {
    let begun = Instant::now();
    let all = thread::scope(|scope| {
        let others: Vec<_> = (1..s.crews.len()).map(|c| scope.spawn(move || rounds(c, s, own, names))).collect();
        let mut all = rounds(0, s, own, names);
        all.extend(others.into_iter().flat_map(|it| it.join().expect("a crew ended early")));
        all
    });
    (all, begun.elapsed().as_nanos())
}

fn main() {
    let words: Vec<String> = std::env::args().skip(1).collect();
    let words: Vec<&str> = words.iter().map(String::as_str).collect();
    let Some((Script { own, messages, bytes: length }, cells)) = asked(&words) else {
        eprintln!("protocol flood KEY RANKS MESSAGES [--cells N]\nprotocol pingpong|window LENGTH TIMES");
        exit(2)
    };
    let (ranks, names) = (own.len(), RECEIVES as usize + messages.max(WINDOW as usize));
    let crews = thread::available_parallelism().map_or(2, |n| n.get().max(2)).min(ranks);
    let s = &Shared::new(ranks, cells, crews);
    let (mut all, took) = run(s, &own, names);
    let totals = [0, 1, 2, 3].map(|k| all.iter().map(|rank| rank.totals[k]).sum::<u64>());
    let [sent, got, bytes, _] = totals;
    let [count, length] = [messages, length].map(|it| it as u64);
    let back = |rank: &mut Rank| from_fn(|| s.dequeue(&s.doors[rank.me as usize].free, &mut rank.free)).count();
    let home: usize = all.iter_mut().map(|rank| cells - rank.used + back(rank)).sum();
    let ended = all.iter().all(|rank| rank.at == rank.own.len());
    let done = ended && totals == [count, count, length, count] && home == ranks * cells;
    match words[0] {
        "flood" => {
            println!("{}\nsent {sent}\ngot {got} bytes {bytes}", words[..4].join(" "));
            println!("cells {} home {home}\n{}", ranks * cells, if done { "done" } else { "bad" });
        }
        shape => {
            // the answers of windows are not counted
            let counted = if shape == "window" { messages / (WINDOW as usize + 1) * WINDOW as usize } else { messages };
            println!("{}", if done { format!("{:.1}", took as f64 / counted as f64) } else { "bad".into() });
        }
    }
    // no memory is given back
    exit(!done as i32)
}
