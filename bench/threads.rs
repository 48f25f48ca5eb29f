//! `flood KEY RANKS MESSAGES` as a Rust programmer would write it with std alone:
//! a thread for each rank, one mpsc channel into each rank, and a matching queue
//! per rank. A message moves as a Vec<u8>; only a synchronous send waits for its
//! receive. No cells, no eager limit, no rendezvous.
//!
//!   threads KEY RANKS MESSAGES [list|hash] [CELLS]
//!
//! list: posted and unexpected messages in plain lists (wildcards would be easy)
//! hash: maps from (source, tag, context) to a list (wildcards would be work)
//! Standard output: the summary; standard error: elapsed_us of the communication
//! phase (between two barriers).
use std::collections::{HashMap, VecDeque};
use std::sync::mpsc::{channel, Receiver, Sender};
use std::sync::{Arc, Barrier};
use std::time::Instant;

type Envelope = (usize, u16, u8);

enum Packet {
    Message { env: Envelope, body: Vec<u8>, ack: Option<usize> },
    Ack(usize),
}

struct Arrived {
    env: Envelope,
    body: Vec<u8>,
    ack: Option<usize>,
}

enum Matching {
    List { posted: Vec<(Envelope, usize)>, unexpected: VecDeque<Arrived> },
    Hash { posted: HashMap<Envelope, VecDeque<usize>>, unexpected: HashMap<Envelope, VecDeque<Arrived>> },
}

impl Matching {
    fn post(&mut self, env: Envelope, k: usize) -> Option<Arrived> {
        match self {
            Matching::List { posted, unexpected } => {
                if let Some(at) = unexpected.iter().position(|a| a.env == env) {
                    return unexpected.remove(at);
                }
                posted.push((env, k));
                None
            }
            Matching::Hash { posted, unexpected } => {
                if let Some(l) = unexpected.get_mut(&env) {
                    if let Some(a) = l.pop_front() {
                        return Some(a);
                    }
                }
                posted.entry(env).or_default().push_back(k);
                None
            }
        }
    }
    fn arrive(&mut self, a: Arrived) -> Result<(usize, Arrived), ()> {
        match self {
            Matching::List { posted, unexpected } => {
                if let Some(at) = posted.iter().position(|p| p.0 == a.env) {
                    let (_, k) = posted.remove(at);
                    return Ok((k, a));
                }
                unexpected.push_back(a);
                Err(())
            }
            Matching::Hash { posted, unexpected } => {
                if let Some(k) = posted.get_mut(&a.env).and_then(|l| l.pop_front()) {
                    return Ok((k, a));
                }
                unexpected.entry(a.env).or_default().push_back(a);
                Err(())
            }
        }
    }
}

struct Rank {
    me: usize,
    inbox: Receiver<Packet>,
    peers: Vec<Sender<Packet>>,
    matching: Matching,
    got: Vec<Option<(Envelope, Vec<u8>)>>,
    acked: Vec<bool>,
}

impl Rank {
    fn pair(&mut self, k: usize, a: Arrived) {
        if let Some(n) = a.ack {
            self.peers[a.env.0].send(Packet::Ack(n)).unwrap();
        }
        self.got[k] = Some((a.env, a.body));
    }
    fn take(&mut self, p: Packet) {
        match p {
            Packet::Ack(n) => self.acked[n] = true,
            Packet::Message { env, body, ack } => {
                if let Ok((k, a)) = self.matching.arrive(Arrived { env, body, ack }) {
                    self.pair(k, a);
                }
            }
        }
    }
}

fn main() {
    let a: Vec<String> = std::env::args().collect();
    let key: usize = a[1].parse().unwrap();
    let ranks: usize = a[2].parse().unwrap();
    let m: usize = a[3].parse().unwrap();
    let hash = a.get(4).map(|s| s == "hash").unwrap_or(false);
    let cells: usize = a.get(5).and_then(|s| s.parse().ok()).unwrap_or(8);
    let s = move |k: usize| k % ranks;
    let d = move |k: usize| (s(k) + k / ranks + key) % ranks;
    let len = move |k: usize| (331 * k + 17 * key) % 2048;
    let pattern: Arc<Vec<u8>> = Arc::new((0..2048usize).map(|k| ((31 * k + 7) % 251) as u8).collect());

    let (peers, inboxes): (Vec<_>, Vec<_>) = (0..ranks).map(|_| channel()).unzip();
    let gate = Arc::new(Barrier::new(ranks));
    let threads: Vec<_> = inboxes
        .into_iter()
        .enumerate()
        .map(|(me, inbox)| {
            let (peers, gate, pattern) = (peers.clone(), gate.clone(), pattern.clone());
            std::thread::spawn(move || {
                let matching = if hash {
                    Matching::Hash { posted: HashMap::new(), unexpected: HashMap::new() }
                } else {
                    Matching::List { posted: Vec::new(), unexpected: VecDeque::new() }
                };
                let mut r = Rank { me, inbox, peers, matching, got: (0..m).map(|_| None).collect(), acked: vec![false; m] };
                let (mut sent, mut got, mut bytes, mut bad) = (0u64, 0u64, 0u64, 0u64);
                gate.wait();
                let t0 = Instant::now();
                for k in (0..m).filter(|&k| s(k) == me) {
                    let sync = k % 8 == 7;
                    let p = Packet::Message {
                        env: (r.me, (k % 1000) as u16, (k % 3) as u8),
                        body: pattern[..len(k)].to_vec(),
                        ack: if sync { Some(k) } else { None },
                    };
                    r.peers[d(k)].send(p).unwrap();
                }
                for k in (0..m).rev().filter(|&k| d(k) == me) {
                    if let Some(a) = r.matching.post((s(k), (k % 1000) as u16, (k % 3) as u8), k) {
                        r.pair(k, a);
                    }
                }
                for k in (0..m).filter(|&k| s(k) == me) {
                    while k % 8 == 7 && !r.acked[k] {
                        let p = r.inbox.recv().unwrap();
                        r.take(p);
                    }
                    sent += 1;
                }
                for k in (0..m).filter(|&k| d(k) == me) {
                    while r.got[k].is_none() {
                        let p = r.inbox.recv().unwrap();
                        r.take(p);
                    }
                    got += 1;
                }
                gate.wait();
                let t = t0.elapsed();
                for k in (0..m).filter(|&k| d(k) == me) {
                    let (env, body) = r.got[k].take().unwrap();
                    if env != (s(k), (k % 1000) as u16, (k % 3) as u8) || body[..] != pattern[..body.len()] {
                        bad += 1;
                    }
                    bytes += body.len() as u64;
                }
                (sent, got, bytes, bad, t)
            })
        })
        .collect();
    drop(peers);
    let (mut sent, mut got, mut bytes, mut bad, mut t) = (0, 0, 0, 0, std::time::Duration::ZERO);
    for h in threads {
        let x = h.join().unwrap();
        sent += x.0;
        got += x.1;
        bytes += x.2;
        bad += x.3;
        t = t.max(x.4);
    }
    println!("flood {key} {ranks} {m}\nsent {sent}\ngot {got} bytes {bytes}\ncells {c} home {c}\n{w}", c = ranks * cells, w = if bad == 0 { "done" } else { "bad" });
    eprintln!("elapsed_us {}", t.as_micros());
}
