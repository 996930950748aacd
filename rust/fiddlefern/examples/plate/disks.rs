//! The disks: n+1 files, and file j has strip j of every stripe. A stripe's data is a part of the picture,
//! strip after strip.
use crate::folder::{Folder, cannot};
use crate::progress::Progress;
use fiddlefern::Shape;
use std::fs;
use std::io::ErrorKind;
use std::ops::Range;

/// The last disk where n is greatest.
pub const LAST: usize = 32;

/// How a byte of the picture is shown whose disk is gone.
const GONE: u8 = 128;

/// What a disk holds; nothing where it is gone.
type Held = Option<Vec<u8>>;

pub struct Disks<'a> {
    shape: Shape,
    folder: &'a Folder,
    stripes: usize,
}

/// The name of a disk's file.
pub fn name(disk: usize) -> String {
    format!("disk-{disk}.bin")
}

impl Disks<'_> {
    /// Lays the picture on new disks. The last stripe is filled up with zeros.
    pub fn lay<'a>(shape: Shape, folder: &'a Folder, picture: &[u8]) -> Result<Disks<'a>, String> {
        let parts = picture.chunks(shape.n() * shape.r() * shape.e());
        let disks = Disks {
            shape,
            folder,
            stripes: parts.len(),
        };
        let mut stripes = Vec::new();
        for part in parts {
            let mut stripe = vec![0; shape.size()];
            for (strip, data) in part.chunks(shape.r() * shape.e()).enumerate() {
                stripe[disks.data(strip)][..data.len()].copy_from_slice(data);
            }
            let encoded = shape.encode(&mut stripe);
            encoded.map_err(|refusal| refusal.to_string())?;
            stripes.extend(stripe);
        }
        disks.write(0..=shape.n(), &stripes)?;
        Ok(disks)
    }

    /// How many stripes there are.
    pub fn stripes(&self) -> usize {
        self.stripes
    }

    /// The disk that has this byte of the picture.
    pub fn disk_of(&self, byte: usize) -> usize {
        byte / (self.shape.r() * self.shape.e()) % self.shape.n()
    }

    /// Takes two disks away: their files are removed.
    pub fn take_away(&self, lose: [usize; 2]) -> Result<(), String> {
        for disk in lose {
            let path = self.folder.path(&name(disk));
            fs::remove_file(&path).map_err(cannot("removed", &path))?;
        }
        Ok(())
    }

    /// What these disks hold.
    pub fn held(&self, disks: impl IntoIterator<Item = usize>) -> Result<Vec<Held>, String> {
        let held = |disk| {
            let path = self.folder.path(&name(disk));
            match fs::read(&path) {
                Ok(bytes) => Ok(Some(bytes)),
                Err(error) if error.kind() == ErrorKind::NotFound => Ok(None),
                Err(error) => Err(cannot("read", &path)(error)),
            }
        };
        disks.into_iter().map(held).collect()
    }

    /// The picture, of this length, as the disks that are there have it.
    pub fn picture(&self, len: usize) -> Result<Vec<u8>, String> {
        let held = self.held(0..=self.shape.n())?;
        let mut picture = Vec::new();
        for k in 0..self.stripes {
            let stripe = self.stripe(&held, k)?;
            for strip in 0..self.shape.n() {
                picture.extend(&stripe[self.data(strip)]);
            }
        }
        picture.truncate(len);
        Ok(picture)
    }

    /// Rebuilds the disks that are gone from the others, stripe after stripe.
    pub fn rebuild(&self) -> Result<(), String> {
        let held = self.held(0..=self.shape.n())?;
        let gone: Vec<usize> = (0..held.len()).filter(|j| held[*j].is_none()).collect();
        let lost = self.shape.lost(&gone).map_err(|why| why.to_string())?;
        let mut progress = Progress::new(self.stripes);
        let mut stripes = Vec::new();
        for k in 0..self.stripes {
            let mut stripe = self.stripe(&held, k)?;
            let rebuilt = self.shape.rebuild(&mut stripe, lost);
            rebuilt.map_err(|refusal| format!("stripe {k} is not rebuilt: {refusal}"))?;
            stripes.extend(stripe);
            progress.show(k + 1);
        }
        self.write(gone, &stripes)
    }

    /// The bytes of a strip's data elements in the stripe: all but its U.
    fn data(&self, strip: usize) -> Range<usize> {
        let start = self.shape.strip_bytes(strip).start;
        start..start + self.shape.r() * self.shape.e()
    }

    /// Stripe k, as the disks that are there have it.
    fn stripe(&self, held: &[Held], k: usize) -> Result<Vec<u8>, String> {
        let mut stripe = vec![GONE; self.shape.size()];
        for (disk, held) in held.iter().enumerate() {
            let Some(held) = held else { continue };
            let strip = &mut stripe[self.shape.strip_bytes(disk)];
            let from = held.chunks_exact(strip.len()).nth(k);
            strip.copy_from_slice(from.ok_or_else(|| format!("{} is cut short", name(disk)))?);
        }
        Ok(stripe)
    }

    /// Writes new files of these disks, each with its strip of every stripe.
    fn write(&self, disks: impl IntoIterator<Item = usize>, stripes: &[u8]) -> Result<(), String> {
        for disk in disks {
            let mut bytes = Vec::new();
            for stripe in stripes.chunks(self.shape.size()) {
                bytes.extend(&stripe[self.shape.strip_bytes(disk)]);
            }
            self.folder.write(&name(disk), &bytes)?;
        }
        Ok(())
    }
}
