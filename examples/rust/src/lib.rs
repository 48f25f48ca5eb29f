//! MPI's point-to-point messages between the threads of a Rust program, over nemesis.h. Nothing here is proved.
//!
//! A [`Rank`] can be sent to the thread that drives it, and is used by one call at a time: what nemesis.h asks of its
//! caller in words, the borrow checker asks here. A call that waits makes turns of its rank meanwhile.

use std::{fmt, thread};

mod calls;

/// What a receive takes: messages of one rank and one tag, or of any (MPI 3.1, 3.2.4).
#[derive(Clone, Copy, Debug, PartialEq)]
pub enum Pick {
    Any,
    One(u32),
}

impl Pick {
    fn number(self) -> u32 {
        match self {
            Pick::Any => u32::MAX,
            Pick::One(number) => number,
        }
    }
}

/// A message that came.
#[derive(Debug, PartialEq)]
pub struct Message {
    pub from: u32,
    pub tag: u32,
    pub body: Vec<u8>,
}

/// A code of nemesis.h that is an error, or no answer of this call.
#[derive(Debug, PartialEq)]
pub struct Refused(pub u32);

impl fmt::Display for Refused {
    fn fmt(&self, f: &mut fmt::Formatter<'_>) -> fmt::Result {
        write!(f, "nemesis answers {}", self.0)
    }
}

impl std::error::Error for Refused {}

/// One rank of a world.
pub struct Rank(calls::Handle);

// A handle is used by one thread at a time, and may be another one's from then on.
unsafe impl Send for Rank {}

/// Makes a world of so many ranks, 1 to 64: one for each thread that is to have one.
pub fn world(ranks: usize) -> Result<Vec<Rank>, Refused> {
    let mut handles = vec![calls::Handle::empty(); ranks];
    match unsafe { calls::nm_world_new(handles.as_mut_ptr(), ranks, calls::CELLS, calls::EAGER) } {
        calls::OK => Ok(handles.into_iter().map(Rank).collect()),
        code => Err(Refused(code)),
    }
}

/// The names of the two requests that a rank has at a time: a send and a receive that wait.
const SEND: u32 = 0;
const RECEIVE: u32 = 1;

impl Rank {
    pub fn number(&mut self) -> u32 {
        unsafe { calls::nm_number(&mut self.0) }
    }

    pub fn count(&mut self) -> u32 {
        unsafe { calls::nm_count(&mut self.0) }
    }

    /// One turn; whether something was sent or taken.
    pub fn progress(&mut self) -> bool {
        unsafe { calls::nm_progress(&mut self.0) == calls::MOVED }
    }

    /// Sends a message, and waits until its request is complete (3.4).
    pub fn send(&mut self, to: u32, tag: u32, body: &[u8]) -> Result<(), Refused> {
        let code = unsafe { calls::nm_isend(&mut self.0, SEND, to, tag, 0, body.as_ptr(), body.len()) };
        if code != calls::OK {
            return Err(Refused(code));
        }
        match self.wait(SEND, &mut []) {
            (calls::SENT, _) => Ok(()),
            (code, _) => Err(Refused(code)),
        }
    }

    /// Waits for a message of at most so many bytes (3.2.4).
    pub fn receive(&mut self, from: Pick, tag: Pick, capacity: u32) -> Result<Message, Refused> {
        let code = unsafe { calls::nm_irecv(&mut self.0, RECEIVE, from.number(), tag.number(), 0, capacity) };
        if code != calls::OK {
            return Err(Refused(code));
        }
        let mut body = vec![0; capacity as usize];
        match self.wait(RECEIVE, &mut body) {
            (calls::RECEIVED, it) => {
                body.truncate(it.length as usize);
                Ok(Message {
                    from: it.from,
                    tag: it.tag,
                    body,
                })
            }
            (code, _) => Err(Refused(code)),
        }
    }

    fn wait(&mut self, name: u32, body: &mut [u8]) -> (u32, calls::Status) {
        let mut status = calls::Status::default();
        loop {
            let code = unsafe { calls::nm_test(&mut self.0, name, &mut status, body.as_mut_ptr(), body.len()) };
            if code != calls::PENDING {
                return (code, status);
            }
            if !self.progress() {
                thread::yield_now();
            }
        }
    }
}

impl Drop for Rank {
    fn drop(&mut self) {
        unsafe { calls::nm_rank_free(self.0) }
    }
}
