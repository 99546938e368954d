//! Files for the program to read.

use std::ffi::OsString;
use std::io;
use std::path::PathBuf;
use std::sync::atomic::{AtomicU64, Ordering};

/// A path in the folder for temporary files, removed at the end.
pub struct Temporary {
    pub path: PathBuf,
}

impl Temporary {
    /// A path where nothing is yet.
    pub fn path() -> Temporary {
        static NEXT: AtomicU64 = AtomicU64::new(0);
        let next = NEXT.fetch_add(1, Ordering::Relaxed);
        let name = format!("yeruvoi-{}-{next}.role", std::process::id());
        Temporary {
            path: std::env::temp_dir().join(name),
        }
    }

    /// A file with these bytes.
    pub fn file(bytes: &[u8]) -> io::Result<Temporary> {
        let temporary = Temporary::path();
        std::fs::write(&temporary.path, bytes)?;
        Ok(temporary)
    }

    pub fn name(&self) -> OsString {
        self.path.clone().into_os_string()
    }
}

impl Drop for Temporary {
    fn drop(&mut self) {
        let _ = std::fs::remove_file(&self.path);
    }
}
