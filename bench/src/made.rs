//! Nights made for timing, in a folder that goes with its files.

use compare::call::Connection;
use compare::make;
use std::fs::{self, File};
use std::io::{BufWriter, Write};
use std::path::PathBuf;

pub struct Folder {
    path: PathBuf,
}

/// A made night.
pub struct Night {
    pub calls: usize,
    pub path: PathBuf,
}

impl Folder {
    pub fn new() -> Result<Folder, String> {
        let path = std::env::temp_dir().join(format!("nights_{}", std::process::id()));
        match fs::create_dir(&path) {
            Ok(()) => Ok(Folder { path }),
            Err(error) => Err(format!("{} cannot be made: {error}", path.display())),
        }
    }

    pub fn file(&self, name: &str) -> PathBuf {
        self.path.join(name)
    }

    pub fn night(
        &self,
        name: &str,
        night: impl Iterator<Item = Connection>,
    ) -> Result<Night, String> {
        let path = self.file(name);
        let mut calls = 0;
        let counted = night.inspect(|_| calls += 1);
        let written = File::create(&path).and_then(|file| {
            let mut out = BufWriter::new(file);
            make::write(counted, &mut out)?;
            out.flush()
        });
        match written {
            Ok(()) => Ok(Night { calls, path }),
            Err(error) => Err(format!("{} cannot be made: {error}", path.display())),
        }
    }
}

impl Drop for Folder {
    fn drop(&mut self) {
        if let Err(error) = fs::remove_dir_all(&self.path) {
            eprintln!("{} cannot be removed: {error}", self.path.display());
        }
    }
}
