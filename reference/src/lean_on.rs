//! What the crate's files find at its root: configuration, a file in memory that can refuse, promises that are
//! kept at once, ordered sets and maps in the place of hashed ones, empty metrics.

pub use std::collections::BTreeMap;
pub use std::convert::TryFrom;
pub use std::fmt;
pub use std::io::{self, Read, Write};
pub use std::sync::Arc;

use std::collections::BTreeSet;
use std::path::PathBuf;
use std::rc::Rc;

use crate::host::{Fault, Host, Request};
use crate::pagecache::{Lsn, Snapshot};
use crate::{Error, Result};

/// Hashed in the crate; ordered here, so that every visit ascends.
pub type FastMap8<K, V> = BTreeMap<K, V>;
pub type FastSet8<V> = BTreeSet<V>;

/// Byte strings of the crate; only named in its error type.
pub type IVec = Vec<u8>;

/// The part of the crate's configuration that blob removal is handed.
#[derive(Clone)]
pub struct Config {
    pub host: Rc<Host>,
    pub segment_size: usize,
    pub temporary: bool,
}

/// The configuration with its open file.
#[derive(Clone)]
pub struct RunningConfig {
    inner: Config,
    pub file: Rc<File>,
}

impl RunningConfig {
    pub fn new(host: Rc<Host>, segment_size: usize) -> Self {
        let file = Rc::new(File { host: Rc::clone(&host) });
        RunningConfig { inner: Config { host, segment_size, temporary: true }, file }
    }

    /// The base of an LSN: LSN / S, times S.
    pub fn normalize(&self, lsn: Lsn) -> Lsn {
        let size = self.segment_size as Lsn;
        lsn / size * size
    }

    pub fn get_path(&self) -> PathBuf {
        unreachable!("no snapshot file is read or written")
    }

    pub fn get_snapshot_files(&self) -> Result<Vec<PathBuf>> {
        unreachable!("no snapshot file is read or written")
    }
}

impl std::ops::Deref for RunningConfig {
    type Target = Config;

    fn deref(&self) -> &Config {
        &self.inner
    }
}

impl fmt::Debug for RunningConfig {
    fn fmt(&self, f: &mut fmt::Formatter<'_>) -> fmt::Result {
        f.write_str("RunningConfig")
    }
}

/// The data file: its length, and requests that may be refused.
pub struct File {
    host: Rc<Host>,
}

/// What `metadata` gives of a file.
pub struct Metadata {
    length: u64,
}

impl Metadata {
    pub fn len(&self) -> u64 {
        self.length
    }
}

impl File {
    pub fn metadata(&self) -> io::Result<Metadata> {
        Ok(Metadata { length: self.host.length() })
    }

    pub fn set_len(&self, offset: u64) -> io::Result<()> {
        ask(&self.host, Request::Cut(offset))
    }

    pub fn sync_all(&self) -> io::Result<()> {
        Ok(())
    }

    pub fn fill(&self, offset: u64) -> io::Result<()> {
        ask(&self.host, Request::Fill(offset))
    }
}

/// Makes a request of the host; a refusal travels inside an io::Error.
pub fn ask(host: &Host, request: Request) -> io::Result<()> {
    host.ask(request).map_err(|fault| io::Error::new(io::ErrorKind::Other, fault))
}

/// The host's refusal inside an error of the crate, if it is one.
pub fn host_fault(error: &Error) -> Option<&Fault> {
    match error {
        Error::Io(inner) => inner.get_ref().and_then(|e| e.downcast_ref::<Fault>()),
        _ => None,
    }
}

/// A lock that does not poison; shows what it holds.
#[derive(Default)]
pub struct Mutex<T>(std::sync::Mutex<T>);

impl<T> Mutex<T> {
    pub fn lock(&self) -> std::sync::MutexGuard<'_, T> {
        self.0.lock().unwrap_or_else(std::sync::PoisonError::into_inner)
    }
}

impl<T: fmt::Debug> fmt::Debug for Mutex<T> {
    fn fmt(&self, f: &mut fmt::Formatter<'_>) -> fmt::Result {
        self.lock().fmt(f)
    }
}

/// A promise of one value, and what fills it.
pub struct OneShot<T>(Rc<std::cell::RefCell<Option<T>>>);
pub struct OneShotFiller<T>(Rc<std::cell::RefCell<Option<T>>>);

impl<T> OneShot<T> {
    pub fn pair() -> (OneShotFiller<T>, OneShot<T>) {
        let place = Rc::new(std::cell::RefCell::new(None));
        (OneShotFiller(Rc::clone(&place)), OneShot(place))
    }

    pub fn wait(self) -> Option<T> {
        self.0.borrow_mut().take()
    }
}

impl<T> OneShotFiller<T> {
    pub fn fill(self, value: T) {
        *self.0.borrow_mut() = Some(value);
    }
}

impl<T: fmt::Debug> fmt::Debug for OneShot<T> {
    fn fmt(&self, f: &mut fmt::Formatter<'_>) -> fmt::Result {
        self.0.borrow().fmt(f)
    }
}

/// The thread pool, run at once.
pub mod threadpool {
    pub fn spawn<F: FnOnce()>(work: F) -> crate::Result<()> {
        work();
        Ok(())
    }
}

/// Metrics that count nothing.
pub struct Histogram;

impl Histogram {
    pub fn measure(&self, _value: u64) {}
}

pub struct Metrics {
    pub accountant_mark_link: Histogram,
    pub accountant_mark_replace: Histogram,
    pub accountant_next: Histogram,
    pub advance_snapshot: Histogram,
    pub segment_utilization_shutdown: Histogram,
    pub snapshot_apply: Histogram,
    pub start_segment_accountant: Histogram,
}

pub static M: Metrics = Metrics {
    accountant_mark_link: Histogram,
    accountant_mark_replace: Histogram,
    accountant_next: Histogram,
    advance_snapshot: Histogram,
    segment_utilization_shutdown: Histogram,
    snapshot_apply: Histogram,
    start_segment_accountant: Histogram,
};

pub struct Measure;

impl Measure {
    pub fn new(_histogram: &Histogram) -> Measure {
        Measure
    }
}

/// Checksums and encoding serve snapshot files, which the harness neither reads nor writes.
pub fn crc32(_bytes: &[u8]) -> u32 {
    unreachable!("no snapshot file is read or written")
}

impl Snapshot {
    pub fn serialize(&self) -> Vec<u8> {
        unreachable!("no snapshot file is read or written")
    }

    pub fn deserialize(_bytes: &mut &[u8]) -> Result<Snapshot> {
        unreachable!("no snapshot file is read or written")
    }
}
