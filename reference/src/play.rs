//! Plays a call list: every call goes to the crate's accountant, every answer into the transcript.

use std::fmt::Write as _;
use std::panic::{catch_unwind, AssertUnwindSafe};
use std::rc::Rc;

use crate::books;
use crate::host::Host;
use crate::lean_on::host_fault;
use crate::lists::{self, Info, Row, Statement};
use crate::pagecache::{Accountant, CacheInfo, DiskPtr, PageState, Snapshot};
use crate::Error;

/// A call that would make the crate's table longer than this is not made; it is written as a panic. The crate
/// would fill its memory first, and then panic on the Free segment that it finds there.
const TABLE_GUARD: u64 = 1 << 20;

/// How a call ended.
enum Outcome {
    /// What stands behind the call's name and colon.
    Said(String),
    Panicked,
}

struct Run {
    host: Rc<Host>,
    accountant: Option<Accountant>,
    called: bool,
    over: bool,
    directory: Vec<(u64, u64)>,
    rows: Vec<Row>,
    old: Vec<CacheInfo>,
}

/// The transcript of a list.
pub fn play(text: &str) -> String {
    let mut out = String::new();
    let mut run: Option<Run> = None;
    let mut runs = 0;
    for (index, line) in text.split('\n').enumerate() {
        if let Err(reason) = play_line(line, &mut run, &mut runs, &mut out) {
            let _ = writeln!(out, "line {}: {}", index + 1, reason);
            break;
        }
    }
    out
}

fn play_line(line: &str, run: &mut Option<Run>, runs: &mut u64, out: &mut String) -> Result<(), String> {
    let statement = match lists::read(line)? {
        Some(statement) => statement,
        None => return Ok(()),
    };
    if let Statement::Host { queued, size, length, blobs } = &statement {
        *runs += 1;
        let _ = writeln!(out, "run {}", runs);
        *run = Some(Run::new(Host::new(*queued, *size, *length, blobs)));
        return Ok(());
    }
    match run {
        Some(run) => run.play(statement, out),
        None => Err("the first statement is memory or queue".to_string()),
    }
}

impl Run {
    fn new(host: Host) -> Run {
        Run {
            host: Rc::new(host),
            accountant: None,
            called: false,
            over: false,
            directory: vec![],
            rows: vec![],
            old: vec![],
        }
    }

    fn play(&mut self, statement: Statement, out: &mut String) -> Result<(), String> {
        match statement {
            Statement::Host { .. } => {}
            Statement::Fail { .. } if self.called => return Err("fail after a call".to_string()),
            Statement::Fail { passes } => self.host.add_fail_layer(passes),
            Statement::Page { first, count } => self.directory.push((first, count)),
            Statement::Row(row) => self.rows.push(row),
            Statement::Old(info) => self.old.push(cache_info(info)),
            Statement::Books if self.over => {}
            Statement::Books => self.books(out),
            call => {
                self.called = true;
                if !self.over {
                    self.call(call, out);
                }
            }
        }
        Ok(())
    }

    fn call(&mut self, call: Statement, out: &mut String) {
        let (name, outcome) = match call {
            Statement::Start { size, header, stable, active } => {
                ("start", self.start(size, header, stable, active))
            }
            Statement::Link { page, info } => ("link", self.link(page, info)),
            Statement::Replace { page, lsn, new } => ("replace", self.replace(page, lsn, new)),
            Statement::Next { lsn } => ("next", self.next(lsn)),
            Statement::Stabilize { lsn } => ("stabilize", self.stabilize(lsn)),
            Statement::Pop => ("pop", self.pop()),
            _ => ("take", self.take()),
        };
        for (request, answer) in self.host.take_asked() {
            let _ = match answer {
                Ok(()) => writeln!(out, "asked {}: granted", request),
                Err(fault) => {
                    writeln!(out, "asked {}: refused code {} layer {}", request, fault.code, fault.layer)
                }
            };
        }
        match outcome {
            Outcome::Said(answer) => {
                let _ = writeln!(out, "{}: {}", name, answer);
            }
            Outcome::Panicked => {
                self.over = true;
                let _ = writeln!(out, "{}: panic", name);
            }
        }
    }

    /// Makes a call of the crate, if there is an accountant to make it of.
    fn ask<F>(&mut self, call: F) -> Outcome
    where
        F: FnOnce(&mut Accountant) -> crate::Result<String>,
    {
        match &mut self.accountant {
            None => said("refused 28"),
            Some(accountant) => caught(|| call(accountant)),
        }
    }

    fn start(&mut self, size: u64, header: u64, stable: Option<i64>, active: Option<u64>) -> Outcome {
        let directory = std::mem::take(&mut self.directory);
        let rows = std::mem::take(&mut self.rows);
        if self.accountant.is_some() {
            return said("refused 28");
        }
        let size_fits = size.is_power_of_two() && size >= 256 && size <= 16_777_216;
        if !size_fits || header < 1 || header > 4096 || self.host.size() != size {
            return said("refused 1");
        }
        let pt = match page_states(&directory, &rows) {
            Ok(pt) => pt,
            Err(number) => return said(&format!("refused {}", number)),
        };
        if self.host.length() / size >= TABLE_GUARD {
            return Outcome::Panicked;
        }
        let snapshot = Snapshot { stable_lsn: stable, active_segment: active, pt };
        let host = Rc::clone(&self.host);
        let place = &mut self.accountant;
        caught(|| {
            *place = Some(Accountant::start(&host, size as usize, header, &snapshot)?);
            Ok("ok".to_string())
        })
    }

    fn link(&mut self, page: u64, info: Info) -> Outcome {
        if self.beyond(info.offset) {
            return Outcome::Panicked;
        }
        self.ask(|accountant| {
            accountant.link(page, cache_info(info));
            Ok("ok".to_string())
        })
    }

    fn replace(&mut self, page: u64, lsn: i64, new: Info) -> Outcome {
        let old = std::mem::take(&mut self.old);
        if self.beyond(new.offset) || old.iter().any(|info| self.beyond(info.pointer.lid())) {
            return Outcome::Panicked;
        }
        self.ask(|accountant| {
            accountant.replace(page, lsn, &old, cache_info(new))?;
            Ok("ok".to_string())
        })
    }

    fn next(&mut self, lsn: i64) -> Outcome {
        self.ask(|accountant| Ok(accountant.next(lsn)?.to_string()))
    }

    fn stabilize(&mut self, lsn: i64) -> Outcome {
        self.ask(|accountant| {
            accountant.stabilize(lsn)?;
            Ok("ok".to_string())
        })
    }

    fn pop(&mut self) -> Outcome {
        self.ask(|accountant| {
            Ok(match accountant.pop() {
                Some((page, offset)) => format!("page {} offset {}", page, offset),
                None => "none".to_string(),
            })
        })
    }

    fn take(&mut self) -> Outcome {
        match self.host.take_request() {
            Some(request) => said(&request.to_string()),
            None => said("none"),
        }
    }

    /// Whether an accountant's table would outgrow the guard if it were asked about this offset.
    fn beyond(&self, offset: u64) -> bool {
        self.accountant.is_some() && offset / self.host.size() >= TABLE_GUARD
    }

    fn books(&self, out: &mut String) {
        out.push_str("books\n");
        match &self.accountant {
            None => out.push_str("started no\n"),
            Some(accountant) => {
                out.push_str("started yes\n");
                out.push_str(&books::books(&accountant.debug()));
            }
        }
        let _ = writeln!(out, "length {}", self.host.length());
        out.push_str("blobs");
        for blob in self.host.blobs() {
            let _ = write!(out, " {}", blob);
        }
        out.push_str("\nend\n");
    }
}

fn said(answer: &str) -> Outcome {
    Outcome::Said(answer.to_string())
}

/// Runs a call of the crate and catches its panic.
fn caught<F>(call: F) -> Outcome
where
    F: FnOnce() -> crate::Result<String>,
{
    match catch_unwind(AssertUnwindSafe(call)) {
        Err(_) => Outcome::Panicked,
        Ok(Ok(answer)) => Outcome::Said(answer),
        Ok(Err(error)) => Outcome::Said(refusal(&error)),
    }
}

/// An error that the crate answered: the host's refusal, or the active offset past the segments.
fn refusal(error: &Error) -> String {
    match (host_fault(error), error) {
        (Some(fault), _) => format!("refused 25 {}", fault),
        (None, Error::Corruption { .. }) => "refused 5".to_string(),
        (None, other) => unreachable!("the accountant does not answer {:?}", other),
    }
}

fn pointer(offset: u64, blob: Option<i64>) -> DiskPtr {
    match blob {
        None => DiskPtr::Inline(offset),
        Some(blob) => DiskPtr::Blob(offset, blob),
    }
}

fn cache_info(info: Info) -> CacheInfo {
    CacheInfo { ts: info.ts, lsn: info.lsn, pointer: pointer(info.offset, info.blob), log_size: info.size }
}

/// The crate's page states, or the number of the refusal: the crate's own types cannot hold a snapshot whose
/// directory leaves gaps (3) or whose page has rows of no state (4).
fn page_states(directory: &[(u64, u64)], rows: &[Row]) -> Result<Vec<PageState>, u64> {
    let mut end: u64 = 0;
    for (first, count) in directory {
        if *first != end {
            return Err(3);
        }
        end = end.checked_add(*count).ok_or(3u64)?;
    }
    if end != rows.len() as u64 {
        return Err(3);
    }
    directory
        .iter()
        .map(|(first, count)| page_state(&rows[*first as usize..(*first + *count) as usize]))
        .collect()
}

fn page_state(rows: &[Row]) -> Result<PageState, u64> {
    let place = |row: &Row| (row.lsn, pointer(row.offset, row.blob), row.size);
    match rows.split_first() {
        Some((base, rest)) if base.kind == 0 && rest.iter().all(|row| row.kind == 1) => {
            Ok(PageState::Present { base: place(base), frags: rest.iter().map(place).collect() })
        }
        Some((row, [])) if row.kind == 2 => Ok(PageState::Free(row.lsn, pointer(row.offset, row.blob))),
        Some((row, [])) if row.kind == 3 => Ok(PageState::Uninitialized),
        _ => Err(4),
    }
}
