//! The line program: reads lines from standard input and writes their answers to standard output.

use independent::lines;
use independent::program::Program;
use std::io;

fn main() -> io::Result<()> {
    lines::serve::<Program>()
}
