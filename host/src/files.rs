//! Files whose text is replaced.

use std::path::Path;
use std::{fs, io};

/// Writes beside the file and then renames, so that there is always a whole one.
pub fn replace(path: &Path, text: &str) -> io::Result<()> {
    let path = fs::canonicalize(path)?;
    let mut name = path.file_name().unwrap_or_default().to_os_string();
    name.push(".tidy");
    let beside = path.with_file_name(name);
    fs::write(&beside, text)?;
    let renamed = fs::set_permissions(&beside, fs::metadata(&path)?.permissions())
        .and_then(|()| fs::rename(&beside, &path));
    if renamed.is_err() {
        // Whatever is left of it says nothing.
        let _ = fs::remove_file(&beside);
    }
    renamed
}
