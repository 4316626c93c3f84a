//! Plays call lists on the segment accountant of sled 0.34.7, whose own files are compiled in unchanged.
//! Reads a list on standard input and writes the transcript on standard output.

// The macros must stand before the files that use them.
#[macro_use]
mod logging;

include!(concat!(env!("CRATE_FILES"), "/root_files.rs"));

mod books;
mod host;
mod lean_on;
mod lists;
mod pagecache;
mod play;

// The crate's files say `use crate::*`.
use lean_on::*;
use pagecache::{PageId, MAX_MSG_HEADER_LEN, SEG_HEADER_LEN};
use result::{Error, Result};

fn main() {
    // A panic of the crate is an answer, written into the transcript.
    std::panic::set_hook(Box::new(|_| {}));

    let mut text = String::new();
    std::io::stdin().read_to_string(&mut text).expect("the list is readable text");
    let transcript = play::play(&text);
    std::io::stdout().write_all(transcript.as_bytes()).expect("standard output takes the transcript");
}
