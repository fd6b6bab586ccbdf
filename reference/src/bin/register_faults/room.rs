//! A folder of the test's own, and the library of faults built into it.

use std::path::{Path, PathBuf};
use std::process::Command;

/// Removed at the end.
pub struct Room {
    path: PathBuf,
}

impl Room {
    /// An empty folder that every user may look into, with the library of faults and a folder for what that keeps.
    pub fn new() -> Result<Room, String> {
        let name = format!("register_faults-{}", std::process::id());
        let path = std::env::temp_dir().join(name);
        let room = Room { path };
        let made = std::fs::create_dir_all(room.kept());
        made.map_err(|error| format!("no room at {}: {error}", room.path.display()))?;
        room.build_library()?;
        Ok(room)
    }

    fn build_library(&self) -> Result<(), String> {
        let source = Path::new(env!("CARGO_MANIFEST_DIR")).join("../tests/crash.c");
        let mut gcc = Command::new("gcc");
        gcc.args(["-Wall", "-Wextra", "-O1", "-shared", "-fPIC", "-o"]);
        let built = gcc.arg(self.library()).arg(&source).status();
        match built {
            Ok(status) if status.success() => Ok(()),
            _ => Err(format!("gcc does not build {}", source.display())),
        }
    }

    /// A path in it.
    pub fn file(&self, name: &str) -> PathBuf {
        self.path.join(name)
    }

    /// The library of faults.
    pub fn library(&self) -> PathBuf {
        self.file("crash.so")
    }

    /// Where the library keeps files that a power loss may bring back.
    pub fn kept(&self) -> PathBuf {
        self.file("kept")
    }

    /// An empty folder for the next case.
    pub fn case(&self) -> PathBuf {
        let path = self.file("case");
        for folder in [&path, &self.kept()] {
            let _ = std::fs::remove_dir_all(folder);
            let _ = std::fs::create_dir_all(folder);
        }
        path
    }
}

impl Drop for Room {
    fn drop(&mut self) {
        let _ = std::fs::remove_dir_all(&self.path);
    }
}
