//! One byte of a stripe on disks is changed, and only three elements are read and written: the data element, H of its
//! row and U of its diagonal. The disks are files, and what is read and written is counted. Ends with an error
//! where a file is not as if the changed data had been encoded anew.
use fiddlefern::Shape;
use std::error::Error;
use std::fs::{self, File};
use std::io::{self, ErrorKind, Read, Seek, SeekFrom, Write};
use std::path::{Path, PathBuf};

/// A folder of this program's own, which is removed when the program ends.
struct Folder(PathBuf);

impl Folder {
    /// A new folder among the temporary ones.
    fn new() -> io::Result<Folder> {
        for number in 0.. {
            let name = format!("short-write-{}-{number}", std::process::id());
            let path = std::env::temp_dir().join(name);
            match fs::create_dir(&path) {
                Err(error) if error.kind() == ErrorKind::AlreadyExists => continue,
                made => return made.map(|()| Folder(path)),
            }
        }
        Err(ErrorKind::AlreadyExists.into())
    }
}

impl Drop for Folder {
    fn drop(&mut self) {
        // Nothing is left to do where it cannot be removed.
        let _ = fs::remove_dir_all(&self.0);
    }
}

/// The disks, file j with strip j; and how many bytes were read from them and written to them.
struct Disks {
    shape: Shape,
    files: Vec<File>,
    read: usize,
    written: usize,
}

impl Disks {
    /// Lays a stripe on new files.
    fn lay(shape: Shape, folder: &Path, stripe: &[u8]) -> io::Result<Disks> {
        let mut files = Vec::new();
        for disk in 0..shape.strips() {
            let path = folder.join(format!("disk-{disk}"));
            let mut options = File::options();
            let mut file = options.read(true).write(true).create_new(true).open(path)?;
            file.write_all(&stripe[shape.strip_range(disk)])?;
            files.push(file);
        }
        Ok(Disks {
            shape,
            files,
            read: 0,
            written: 0,
        })
    }

    /// The file that has this byte of the stripe, set to where it has it.
    fn at(&mut self, byte: usize) -> io::Result<&mut File> {
        let shape = self.shape;
        let holds = |disk: &usize| shape.strip_range(*disk).contains(&byte);
        let disk = (0..shape.strips()).find(holds);
        let disk = disk.ok_or(ErrorKind::InvalidInput)?;
        let from = byte - shape.strip_range(disk).start;
        let file = &mut self.files[disk];
        file.seek(SeekFrom::Start(from as u64))?;
        Ok(file)
    }

    /// Reads bytes of the stripe from this one on, all of one strip.
    fn load(&mut self, byte: usize, bytes: &mut [u8]) -> io::Result<()> {
        self.at(byte)?.read_exact(bytes)?;
        self.read += bytes.len();
        Ok(())
    }

    /// Writes bytes of the stripe from this one on, all of one strip.
    fn store(&mut self, byte: usize, bytes: &[u8]) -> io::Result<()> {
        self.at(byte)?.write_all(bytes)?;
        self.written += bytes.len();
        Ok(())
    }

    /// The whole stripe.
    fn stripe(&mut self) -> io::Result<Vec<u8>> {
        let mut stripe = vec![0; self.shape.size()];
        for disk in 0..self.shape.strips() {
            let strip = self.shape.strip_range(disk);
            self.load(strip.start, &mut stripe[strip])?;
        }
        Ok(stripe)
    }

    /// Replaces a byte of the data: three elements are loaded into an otherwise zero buffer, and stored from it.
    fn change(&mut self, byte: usize, value: u8) -> Result<(), Box<dyn Error>> {
        let (row, strip, offset) = self.shape.locate(byte);
        let mut room = vec![0; self.shape.size()];
        for range in self.shape.touched(row, strip) {
            self.load(range.start, &mut room[range])?;
        }
        self.shape.write(&mut room, row, strip, offset, &[value])?;
        for range in self.shape.touched(row, strip) {
            self.store(range.start, &room[range])?;
        }
        Ok(())
    }
}

fn main() -> Result<(), Box<dyn Error>> {
    let shape = Shape::new(7, 5, 1, 4096)?;
    let (size, e) = (shape.size(), shape.element_bytes());
    let mut stripe: Vec<u8> = (0..size).map(|k| (k / 7 + k / e) as u8).collect();
    shape.encode(&mut stripe)?;
    let folder = Folder::new()?;
    let mut disks = Disks::lay(shape, &folder.0, &stripe)?;
    let strips = shape.strips();
    println!("A stripe of shape {shape} has {size} bytes on {strips} files.");

    let byte = 100_000;
    let (row, strip, offset) = shape.locate(byte);
    let at = shape.element_range(row, strip).start + offset;
    let value = !stripe[at];
    disks.change(byte, value)?;
    let (read, written) = (disks.read, disks.written);
    println!("Byte {byte} of the data, in row {row} of strip {strip}, is changed:");
    println!("{read} bytes are read and {written} are written, three elements of {e} bytes each.");
    assert_eq!((read, written), (3 * e, 3 * e));

    stripe[at] = value;
    shape.encode(&mut stripe)?;
    if disks.stripe()? != stripe {
        return Err("the files are not what encoding the changed data leaves".into());
    }
    println!("Every file is as if the changed data had been encoded anew.");
    Ok(())
}
