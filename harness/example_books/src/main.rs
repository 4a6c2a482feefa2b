//! `example_books FOLDER` writes the files of examples/ into FOLDER.

use std::path::Path;
use std::{env, fs, io};

fn main() -> io::Result<()> {
    let folder = env::args().nth(1).expect("example_books FOLDER");
    let folder = Path::new(&folder);
    fs::create_dir_all(folder.join("refused"))?;
    for (name, bytes) in example_books::files() {
        fs::write(folder.join(name), bytes)?;
    }
    Ok(())
}
