//! Turns ahead of every thread in the named states.

use crate::{states, Folder};
use independent::picture::{hex, raw_bytes};
use independent::record::Snapshot;
use independent::session::{ahead, Ahead};
use std::fmt::Write;
use std::io;

fn line(shown: &Snapshot, thread: u8) -> String {
    match ahead(shown, thread) {
        Ahead::Waits(turns) => format!("{thread} waits {turns}\n"),
        Ahead::NotWaiting => format!("{thread} not-waiting\n"),
        Ahead::Refused(number) => format!("{thread} refused {number}\n"),
    }
}

pub fn write_all(folder: &Folder) -> io::Result<()> {
    for one in states::all().into_iter().chain(states::each()).chain(states::old()) {
        let shown = &one.snapshot;
        let mut text = String::new();
        writeln!(text, "picture {}", hex(&raw_bytes(shown))).unwrap();
        for thread in (0..=shown.threads + 1).chain([255]) {
            text.push_str(&line(shown, thread));
        }
        folder.write(&format!("{}.txt", one.name), text.as_bytes())?;
    }
    Ok(())
}
