//! Files by name, and how they are written out.

use std::fs;
use std::io;
use std::path::Path;

/// A file to be written: its path below some root, and what it holds.
pub type File = (String, Vec<u8>);

pub fn write(root: &Path, files: &[File]) -> io::Result<()> {
    for (name, bytes) in files {
        let path = root.join(name);
        if let Some(parent) = path.parent() {
            fs::create_dir_all(parent)?;
        }
        fs::write(path, bytes)?;
    }
    Ok(())
}
