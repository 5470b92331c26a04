//! Writes the test vectors into the folder given as argument.

mod chains;
mod classes;
mod course;
mod course_marks;
mod goings;
mod marks;
mod neighbours;
mod owner_exits;
mod pictures;
mod sessions;
mod states;
mod turns;
mod words;

use independent::picture::hex;
use std::path::{Path, PathBuf};
use std::{env, fs, io};

/// A folder under the vectors' root.
pub struct Folder {
    path: PathBuf,
}

impl Folder {
    fn new(root: &Path, name: &str) -> io::Result<Folder> {
        let path = root.join(name);
        fs::create_dir_all(&path)?;
        Ok(Folder { path })
    }

    pub fn write(&self, name: &str, content: &[u8]) -> io::Result<()> {
        fs::write(self.path.join(name), content)
    }
}

/// Bytes in hexadecimal, `-` for none.
pub fn field(bytes: &[u8]) -> String {
    match bytes {
        [] => "-".to_string(),
        _ => hex(bytes),
    }
}

fn main() -> io::Result<()> {
    let Some(root) = env::args_os().nth(1) else {
        eprintln!("usage: vectors FOLDER");
        std::process::exit(2);
    };
    let root = Path::new(&root);
    pictures::write_all(&Folder::new(root, "pictures")?)?;
    chains::write_all(&Folder::new(root, "pictures")?)?;
    sessions::write_all(&Folder::new(root, "sessions")?)?;
    course::write_all(&Folder::new(root, "course")?)?;
    turns::write_all(&Folder::new(root, "turns")?)?;
    classes::write_all(&Folder::new(root, "classes")?)?;
    marks::write_all(&Folder::new(root, "marks")?)?;
    words::write_all(&Folder::new(root, "words")?)?;
    neighbours::write_all(&Folder::new(root, "neighbours")?)
}
