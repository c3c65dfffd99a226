// Files that are written: opened before the search under another name, and renamed when all is written, so that
// nothing that was there is lost and nothing half written stays.
use crate::error::Error;
use std::fs::{self, File, OpenOptions};
use std::io::Write;
use std::path::{Path, PathBuf};

pub struct Output {
    path: PathBuf,
    /// The name until it is written; none for what is no plain file.
    temporary: Option<PathBuf>,
    file: File,
}

impl Output {
    /// Opens a file for writing.
    pub fn open(path: &Path) -> Result<Output, Error> {
        let wrong = |error| Error::file(path, error);
        if fs::metadata(path).is_ok_and(|data| !data.is_file()) {
            let file = OpenOptions::new().write(true).open(path).map_err(wrong)?;
            return Ok(Output { path: path.to_path_buf(), temporary: None, file });
        }
        let path = fs::canonicalize(path).unwrap_or_else(|_| path.to_path_buf());
        if path.is_file() {
            OpenOptions::new().write(true).open(&path).map_err(wrong)?;
        }
        let temporary = path.with_file_name(format!(".{}.part", std::process::id()));
        let temporary = (0..).map(|number| temporary.with_extension(format!("{number}.part")));
        for temporary in temporary {
            match OpenOptions::new().write(true).create_new(true).open(&temporary) {
                Ok(file) => return Ok(Output { path, temporary: Some(temporary), file }),
                Err(error) if error.kind() == std::io::ErrorKind::AlreadyExists => {}
                Err(error) => return Err(wrong(error)),
            }
        }
        unreachable!("some name is free")
    }

    pub fn path(&self) -> &Path {
        &self.path
    }

    /// Writes the file and gives it its name.
    pub fn write(mut self, bytes: &[u8]) -> Result<(), Error> {
        let written = self.file.write_all(bytes).and_then(|()| match &self.temporary {
            Some(temporary) => self.file.sync_all().and_then(|()| fs::rename(temporary, &self.path)),
            None => Ok(()),
        });
        let path = self.path.clone();
        if written.is_ok() {
            self.temporary = None;
        }
        written.map_err(|error| Error::file(&path, error))
    }
}

impl Drop for Output {
    fn drop(&mut self) {
        if let Some(temporary) = &self.temporary {
            _ = fs::remove_file(temporary);
        }
    }
}

/// Whether two names are of one file, as far as that can be told.
pub fn is_same(first: &Path, second: &Path) -> bool {
    let whole = |path: &Path| {
        fs::canonicalize(path).unwrap_or_else(|_| {
            let folder =
                path.parent().filter(|folder| !folder.as_os_str().is_empty()).unwrap_or(Path::new("."));
            let folder = fs::canonicalize(folder).unwrap_or_else(|_| folder.to_path_buf());
            path.file_name().map_or(folder.clone(), |name| folder.join(name))
        })
    };
    let plain = |path: &Path| fs::metadata(path).map_or(true, |data| data.is_file());
    whole(first) == whole(second) && plain(first)
}
