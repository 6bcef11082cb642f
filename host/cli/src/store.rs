//! Cards put where they belong, whole or not at all.

use std::{
    error::Error,
    fs::{self, File},
    io::{self, Write},
    path::Path,
    process,
};

use crate::about;

/// Writes a card to a path, or to an output where there is none.
pub fn put_or_write(path: Option<&Path>, card: &[u8], mut output: impl Write) -> Result<(), Box<dyn Error>> {
    match path {
        Some(path) => put(path, card).map_err(about(path))?,
        None => {
            output.write_all(card)?;
            output.flush()?;
        }
    }
    Ok(())
}

/// Writes a card to where a caller wants it. A file that is there stays as it was unless the whole card is written.
fn put(path: &Path, card: &[u8]) -> io::Result<()> {
    match fs::canonicalize(path) {
        // A device or a pipe, as /dev/stdout, is written to and not replaced.
        Ok(there) if !there.is_file() => fs::write(there, card),
        // Through a link, the file that it names is replaced.
        Ok(there) => replace(&there, card),
        Err(_) => replace(path, card),
    }
}

/// Writes a card beside its place and moves it there: what had the place, a link too, is replaced.
pub fn replace(path: &Path, card: &[u8]) -> io::Result<()> {
    let beside = path.with_file_name(format!(".pulindraxi-{}.tmp", process::id()));
    let mut file = File::create_new(&beside)?;
    let done = file.write_all(card).and_then(|()| fs::rename(&beside, path));
    if done.is_err() {
        // The card did not come to be; what went wrong is said already.
        let _ = fs::remove_file(&beside);
    }
    done
}

#[cfg(test)]
mod tests {
    use super::*;
    use std::{env, os::unix::fs::symlink, path::PathBuf};

    /// An empty folder of its own.
    fn folder(name: &str) -> PathBuf {
        let folder = env::temp_dir().join(format!("pulindraxi-{}-{name}", process::id()));
        fs::create_dir_all(&folder).unwrap();
        folder
    }

    fn names(folder: &Path) -> Vec<String> {
        let mut names: Vec<_> =
            fs::read_dir(folder).unwrap().map(|entry| entry.unwrap().file_name().into_string().unwrap()).collect();
        names.sort();
        names
    }

    #[test]
    fn a_card_takes_the_place_of_another() {
        let folder = folder("place");
        let card = folder.join("A.card");
        for bytes in [&b"one"[..], b"two"] {
            put(&card, bytes).unwrap();
            assert_eq!(fs::read(&card).unwrap(), bytes);
        }
        assert_eq!(names(&folder), ["A.card"]);
        fs::remove_dir_all(folder).unwrap();
    }

    #[test]
    fn a_card_that_cannot_be_put_leaves_nothing() {
        let folder = folder("nothing");
        fs::create_dir(folder.join("A.card")).unwrap();
        assert!(put(&folder.join("A.card"), b"card").is_err());
        assert!(replace(&folder.join("A.card"), b"card").is_err());
        assert!(put(&folder.join("no folder").join("A.card"), b"card").is_err());
        assert_eq!(names(&folder), ["A.card"]);
        fs::remove_dir_all(folder).unwrap();
    }

    #[test]
    fn a_link_is_followed_by_put_and_replaced_by_replace() {
        let folder = folder("link");
        let (file, link) = (folder.join("file"), folder.join("link"));
        fs::write(&file, b"old").unwrap();
        symlink(&file, &link).unwrap();
        put(&link, b"new").unwrap();
        assert_eq!(fs::read(&file).unwrap(), b"new");
        assert!(link.is_symlink());
        replace(&link, b"own").unwrap();
        assert_eq!((fs::read(&file).unwrap(), fs::read(&link).unwrap()), (b"new".to_vec(), b"own".to_vec()));
        assert!(!link.is_symlink());
        fs::remove_dir_all(folder).unwrap();
    }

    #[test]
    fn a_device_is_written_to() {
        put(Path::new("/dev/null"), b"card").unwrap();
        assert!(!fs::metadata("/dev/null").unwrap().is_file());
    }
}
