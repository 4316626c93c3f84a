//! What the crate's files find in its module `pagecache`, and the calls of the accountant, which are visible here only.

include!(concat!(env!("CRATE_FILES"), "/pagecache_files.rs"));

use std::cell::Cell;
use std::convert::{TryFrom, TryInto};
use std::marker::PhantomData;
use std::rc::Rc;

use crate::host::{Host, Request};
use crate::*;

pub use self::constants::SEG_HEADER_LEN;
pub use self::disk_pointer::DiskPtr;
pub use self::snapshot::{PageState, Snapshot};

use self::constants::SEGMENT_CLEANUP_THRESHOLD;
use self::segment::{SegmentAccountant, SegmentCleaner};

pub type SegmentId = usize;
pub type LogOffset = u64;
pub type BlobPointer = Lsn;
pub type Lsn = i64;
pub type PageId = u64;

#[derive(Clone, Copy, Debug, Eq, PartialEq)]
pub struct CacheInfo {
    pub ts: u64,
    pub lsn: Lsn,
    pub pointer: DiskPtr,
    pub log_size: u64,
}

/// The byte that a freed segment is filled with.
pub enum MessageKind {
    Corrupted,
}

impl MessageKind {
    pub const fn into(self) -> u8 {
        self as u8
    }
}

/// The header length is a constant of the crate, 32. Here it is the number handed to start: the crate's file reads
/// it by `u64::try_from(MAX_MSG_HEADER_LEN)`, and the conversion answers the number set for this run.
#[derive(Clone, Copy)]
pub enum HeaderLength {
    Handed = 32,
}

pub const MAX_MSG_HEADER_LEN: HeaderLength = HeaderLength::Handed;

thread_local! {
    static HEADER: Cell<u64> = Cell::new(32);
}

impl From<HeaderLength> for u64 {
    fn from(_: HeaderLength) -> u64 {
        HEADER.with(Cell::get)
    }
}

fn assert_usize(from: u64) -> usize {
    usize::try_from(from).expect("lost data cast while converting to usize")
}

fn pwrite_all(file: &File, _bytes: &[u8], offset: LogOffset) -> io::Result<()> {
    file.fill(offset)
}

fn remove_blob(blob: BlobPointer, config: &Config) -> Result<()> {
    Ok(ask(&config.host, Request::Remove(blob))?)
}

/// Only named in the crate's error type.
pub struct PageView<'a>(PhantomData<&'a ()>);

// Reading the log and writing snapshots stand in the same file as the snapshot's types; the harness does neither.

#[derive(Clone, Copy, Debug, Eq, PartialEq)]
pub enum LogKind {
    Replace,
    Link,
    Free,
    Skip,
    Corrupted,
}

#[derive(Debug)]
pub struct BasedBuf {
    pub buf: Vec<u8>,
    pub offset: LogOffset,
}

pub struct LogIter {
    pub cur_lsn: Option<Lsn>,
    pub max_lsn: Option<Lsn>,
    pub segment_base: Option<BasedBuf>,
    pub segments: BTreeMap<Lsn, LogOffset>,
}

impl Iterator for LogIter {
    type Item = (LogKind, PageId, Lsn, DiskPtr, u64);

    fn next(&mut self) -> Option<Self::Item> {
        unreachable!("no log is read")
    }
}

fn raw_segment_iter_from(_lsn: Lsn, _config: &RunningConfig) -> Result<LogIter> {
    unreachable!("no log is read")
}

fn gc_blobs(_config: &RunningConfig, _stable_lsn: Lsn) -> Result<()> {
    unreachable!("no log is read")
}

fn u64_to_arr(number: u64) -> [u8; 8] {
    number.to_le_bytes()
}

fn u32_to_arr(number: u32) -> [u8; 4] {
    number.to_le_bytes()
}

fn arr_to_u32(bytes: &[u8]) -> u32 {
    u32::from_le_bytes(bytes.try_into().unwrap())
}

/// The crate's accountant with the cleaner that it shares with the page cache.
pub struct Accountant {
    accountant: SegmentAccountant,
    cleaner: SegmentCleaner,
}

impl Accountant {
    pub fn start(host: &Rc<Host>, size: usize, header: u64, snapshot: &Snapshot) -> Result<Accountant> {
        HEADER.with(|cell| cell.set(header));
        let config = RunningConfig::new(Rc::clone(host), size);
        let cleaner = SegmentCleaner::default();
        let accountant = SegmentAccountant::start(config, snapshot, cleaner.clone())?;
        Ok(Accountant { accountant, cleaner })
    }

    pub fn link(&mut self, page: PageId, info: CacheInfo) {
        self.accountant.mark_link(page, info)
    }

    pub fn replace(&mut self, page: PageId, lsn: Lsn, old: &[CacheInfo], new: CacheInfo) -> Result<()> {
        self.accountant.mark_replace(page, lsn, old, new)
    }

    pub fn next(&mut self, lsn: Lsn) -> Result<LogOffset> {
        self.accountant.next(lsn)
    }

    pub fn stabilize(&mut self, lsn: Lsn) -> Result<()> {
        self.accountant.stabilize(lsn)
    }

    pub fn pop(&self) -> Option<(PageId, LogOffset)> {
        self.cleaner.pop()
    }

    /// The crate's own account of itself.
    pub fn debug(&self) -> String {
        format!("{:?}", self.accountant)
    }
}
