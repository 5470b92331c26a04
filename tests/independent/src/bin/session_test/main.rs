//! Writes the script of the program `session_test` and the answers it must give, as the files
//! `stdin` and `stdout` of the folder given as argument.

mod chains;
mod commands;
mod goings;
mod journals;
mod owner_exits;
mod script;
mod scripted;
mod writer;

use std::path::Path;
use std::{env, fs, io};

/// The most bytes of a script that the program reads.
const ROOM: usize = 393_216;

fn main() -> io::Result<()> {
    let Some(folder) = env::args_os().nth(1) else {
        eprintln!("usage: session_test FOLDER");
        std::process::exit(2);
    };
    let folder = Path::new(&folder);
    let script = script::whole();
    assert!(script.len() <= ROOM, "{} bytes", script.len());
    fs::create_dir_all(folder)?;
    fs::write(folder.join("stdout"), commands::answers(&script))?;
    fs::write(folder.join("stdin"), script)
}
