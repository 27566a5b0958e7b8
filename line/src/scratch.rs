//! A folder of its own for a command that needs files on the way.

use std::fs;
use std::path::{Path, PathBuf};
use std::sync::atomic::{AtomicU32, Ordering};

/// So many were made by this process.
static MADE: AtomicU32 = AtomicU32::new(0);

/// A folder that goes with what is in it.
pub struct Folder(PathBuf);

impl Folder {
    pub fn make(what: &str) -> Result<Folder, String> {
        let number = MADE.fetch_add(1, Ordering::Relaxed);
        let name = format!("balkwizu-{what}-{}-{number}", std::process::id());
        let path = std::env::temp_dir().join(name);
        let made = fs::create_dir(&path);
        made.map_err(|why| format!("cannot make {}: {why}", path.display()))?;
        Ok(Folder(path))
    }

    pub fn path(&self) -> &Path {
        &self.0
    }
}

impl Drop for Folder {
    fn drop(&mut self) {
        let _ = fs::remove_dir_all(&self.0);
    }
}

#[cfg(test)]
mod tests {
    use super::*;

    #[test]
    fn a_folder_goes_with_what_is_in_it() {
        let folder = Folder::make("test").unwrap();
        let path = folder.path().to_path_buf();
        fs::write(path.join("file"), "text").unwrap();
        assert_ne!(Folder::make("test").unwrap().path(), path);
        drop(folder);
        assert!(!path.exists());
    }
}
