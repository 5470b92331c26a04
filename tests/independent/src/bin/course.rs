//! The line program for people: reads lines from standard input and writes their answers to
//! standard output.

use independent::course::Course;
use independent::lines;
use std::io;

fn main() -> io::Result<()> {
    lines::serve::<Course>()
}
