//! The host below the accountant: a memory host or a queue host, with fail layers over it. Every request that
//! reaches the topmost host is recorded with its answer.

use std::cell::RefCell;
use std::collections::{BTreeSet, VecDeque};
use std::fmt;

const BLOBS_TAKEN: usize = 1024;
const QUEUE_ROOM: usize = 64;
const CODE_QUEUE_FULL: u16 = 2;
const CODE_FAIL_LAYER: u16 = 9;
const HIGHEST_LAYER: usize = 255;

#[derive(Clone, Copy, Debug, Eq, PartialEq)]
pub enum Request {
    Cut(u64),
    Fill(u64),
    Remove(i64),
}

impl fmt::Display for Request {
    fn fmt(&self, f: &mut fmt::Formatter<'_>) -> fmt::Result {
        match self {
            Request::Cut(offset) => write!(f, "cut {}", offset),
            Request::Fill(offset) => write!(f, "fill {}", offset),
            Request::Remove(blob) => write!(f, "remove {}", blob),
        }
    }
}

/// A refusal: what was asked, the code, and the number of layers above the refuser.
#[derive(Clone, Copy, Debug, Eq, PartialEq)]
pub struct Fault {
    pub request: Request,
    pub code: u16,
    pub layer: usize,
}

impl fmt::Display for Fault {
    fn fmt(&self, f: &mut fmt::Formatter<'_>) -> fmt::Result {
        write!(f, "{} code {} layer {}", self.request, self.code, self.layer)
    }
}

impl std::error::Error for Fault {}

pub type Answer = Result<(), Fault>;

/// A layer that lets `passes` requests through, refuses the one after them, and then lets all through.
struct FailLayer {
    passes: u64,
    done: bool,
}

impl FailLayer {
    /// Whether the request that just reached this layer goes on below.
    fn lets_through(&mut self) -> bool {
        if self.done {
            return true;
        }
        if self.passes > 0 {
            self.passes -= 1;
            return true;
        }
        self.done = true;
        false
    }
}

struct State {
    size: u64,
    length: u64,
    blobs: BTreeSet<i64>,
    /// The requests not yet taken, if the bottom host is a queue host.
    queue: Option<VecDeque<Request>>,
    /// Topmost last.
    layers: Vec<FailLayer>,
    asked: Vec<(Request, Answer)>,
}

/// The whole stack of hosts of one run.
pub struct Host(RefCell<State>);

impl Host {
    pub fn new(queued: bool, size: u64, length: u64, blobs: &[i64]) -> Host {
        let blobs = blobs.iter().take(BLOBS_TAKEN).copied().collect();
        let queue = if queued { Some(VecDeque::new()) } else { None };
        Host(RefCell::new(State { size, length, blobs, queue, layers: vec![], asked: vec![] }))
    }

    pub fn add_fail_layer(&self, passes: u64) {
        self.0.borrow_mut().layers.push(FailLayer { passes, done: false });
    }

    pub fn size(&self) -> u64 {
        self.0.borrow().size
    }

    pub fn length(&self) -> u64 {
        self.0.borrow().length
    }

    pub fn blobs(&self) -> Vec<i64> {
        self.0.borrow().blobs.iter().copied().collect()
    }

    pub fn ask(&self, request: Request) -> Answer {
        let mut state = self.0.borrow_mut();
        let answer = state.answer(request);
        state.asked.push((request, answer));
        answer
    }

    /// The requests recorded since the last time, in order.
    pub fn take_asked(&self) -> Vec<(Request, Answer)> {
        std::mem::take(&mut self.0.borrow_mut().asked)
    }

    /// Another program takes the oldest request of a queue host.
    pub fn take_request(&self) -> Option<Request> {
        self.0.borrow_mut().queue.as_mut().and_then(VecDeque::pop_front)
    }
}

impl State {
    fn answer(&mut self, request: Request) -> Answer {
        for (above, layer) in self.layers.iter_mut().rev().enumerate() {
            if !layer.lets_through() {
                return Err(Fault { request, code: CODE_FAIL_LAYER, layer: above.min(HIGHEST_LAYER) });
            }
        }
        self.enqueue(request)?;
        self.carry_out(request);
        Ok(())
    }

    fn enqueue(&mut self, request: Request) -> Answer {
        let layer = self.layers.len().min(HIGHEST_LAYER);
        match &mut self.queue {
            Some(queue) if queue.len() >= QUEUE_ROOM => Err(Fault { request, code: CODE_QUEUE_FULL, layer }),
            Some(queue) => {
                queue.push_back(request);
                Ok(())
            }
            None => Ok(()),
        }
    }

    fn carry_out(&mut self, request: Request) {
        match request {
            Request::Cut(offset) => self.length = self.length.min(offset),
            Request::Fill(offset) => self.length = self.length.max(offset.saturating_add(self.size)),
            Request::Remove(blob) => {
                self.blobs.remove(&blob);
            }
        }
    }
}
