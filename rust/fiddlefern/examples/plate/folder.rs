//! The output folder, the only place that is written to. It may be new, or empty, or one that this program wrote
//! into before and that has only its files; then those are replaced. Nothing of anybody else is overwritten.
use crate::{LOST, PLATE, REBUILT, disks};
use std::fs::{self, DirEntry, File};
use std::io::{self, ErrorKind, Write};
use std::path::{Path, PathBuf};

/// The file that tells that the folder is this program's, and what it says.
const MARK: &str = "written-by-plate.txt";
const MARK_SAYS: &str = "The example plate writes into this folder and replaces the files in it.\n";

pub struct Folder {
    path: PathBuf,
    is_there: bool,
    /// What an earlier run left in it, without the mark.
    old: Vec<PathBuf>,
}

impl Folder {
    /// Judges whether the folder may be used. Nothing is written.
    pub fn judge(path: &Path) -> Result<Folder, String> {
        let found = match fs::read_dir(path) {
            Ok(entries) => entries.collect::<Result<Vec<DirEntry>, _>>(),
            Err(error) if error.kind() == ErrorKind::NotFound => return Folder::new(path),
            Err(error) => Err(error),
        };
        let found = found.map_err(cannot("read", path))?;
        let marked = fs::read(path.join(MARK)).is_ok_and(|says| says == MARK_SAYS.as_bytes());
        if let Some(other) = found.iter().find(|entry| !marked || !is_ours(entry)) {
            return Err(format!(
                "the folder {} has {} in it, which is not known to be plate's: name another folder with --out",
                path.display(),
                other.file_name().display()
            ));
        }
        let old = found.iter().filter(|entry| entry.file_name() != MARK);
        Ok(Folder {
            path: path.into(),
            is_there: true,
            old: old.map(DirEntry::path).collect(),
        })
    }

    /// A folder that is not there yet; the one that it will stand in must be.
    fn new(path: &Path) -> Result<Folder, String> {
        let above = match path.parent() {
            Some(above) if above.as_os_str().is_empty() => Path::new("."),
            Some(above) => above,
            None => return Err("--out names no folder".into()),
        };
        if !above.is_dir() {
            return Err(format!(
                "the folder {} cannot be made: {} is no folder",
                path.display(),
                above.display()
            ));
        }
        Ok(Folder {
            path: path.into(),
            is_there: false,
            old: Vec::new(),
        })
    }

    /// Makes the folder with its mark, or removes what an earlier run left.
    pub fn open(&self) -> Result<(), String> {
        if !self.is_there {
            fs::create_dir(&self.path).map_err(cannot("made", &self.path))?;
        }
        for old in &self.old {
            fs::remove_file(old).map_err(cannot("removed", old))?;
        }
        if self.path.join(MARK).exists() {
            Ok(())
        } else {
            self.write(MARK, MARK_SAYS.as_bytes())
        }
    }

    pub fn path(&self, name: &str) -> PathBuf {
        self.path.join(name)
    }

    /// A new file with these bytes. One that is there already, or a link to elsewhere, is not written to.
    pub fn write(&self, name: &str, bytes: &[u8]) -> Result<(), String> {
        let path = self.path(name);
        let mut file = File::create_new(&path).map_err(cannot("made", &path))?;
        file.write_all(bytes).map_err(cannot("written", &path))
    }
}

/// Whether the entry is a file, no link, with a name that this program gives.
fn is_ours(entry: &DirEntry) -> bool {
    let name = entry.file_name();
    let named = [MARK, PLATE, LOST, REBUILT]
        .into_iter()
        .any(|ours| name == ours);
    let disk = (0..=disks::LAST).any(|disk| name.to_str() == Some(&disks::name(disk)));
    (named || disk) && entry.file_type().is_ok_and(|kind| kind.is_file())
}

/// The sentence for what cannot be done with a path.
pub fn cannot(done: &str, path: &Path) -> impl Fn(io::Error) -> String {
    move |error| format!("{} cannot be {done}: {error}", path.display())
}
