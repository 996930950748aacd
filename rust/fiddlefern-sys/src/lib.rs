//! Raw declarations of the exported calls of Fiddlefern, as the archive `libfiddlefern.a` has them. The crate
//! `fiddlefern` makes them safe.
//!
//! The archive is looked for in the folder that the environment variable `FIDDLEFERN_LIB_DIR` names by its absolute
//! path, and where it is not set or empty in the folder `target/staticlib` of the repository, where `make lib` leaves it.
//!
//! Every call takes any numbers and checks them itself, keeps no state and allocates nothing. Its answer is one 64-bit number:
//!
//! | bits | what |
//! |---|---|
//! | byte 0 | the number that comes back: 0 done, 1 to 10 the refusal |
//! | with 5, bytes 1 and 2 | the lower and the upper strip of the first failing pair |
//! | with 0 from judge, the upper 32 bits | the size of the stripe in bytes |
//! | with 0 from read, the upper 32 bits | the byte offset of the element, whose length is e |
//! | with 0 from scrub, bytes 1 and 2 | a and b |
//! | with 0 from scrub, byte 3 | the finding: 0 sound, 1 that H, 2 that U, 3 the data element, 4 several |
//! | with 0 from scrub, byte 4 | the row, with findings 1 and 3 |
//! | with 0 from scrub, byte 5 | the diagonal with finding 2, the strip with finding 3 |
//!
//! Every other bit is zero. A slice is lent as a pointer and a length. Only the version is no such answer, and has no number.
#![no_std]
#![deny(missing_docs)]

// With length 0 a pointer may be null.
unsafe extern "C" {
    /// Judges a shape.
    pub safe fn fiddlefern_judge(n: usize, r: usize, s: usize, e: usize) -> u64;

    /// Keeps all data and sets every H and U.
    ///
    /// # Safety
    ///
    /// `stripe` is valid for reads and writes of `len` bytes, and nobody else uses them during the call.
    pub fn fiddlefern_encode(
        n: usize,
        r: usize,
        s: usize,
        e: usize,
        stripe: *mut u8,
        len: usize,
    ) -> u64;

    /// Replaces the bytes of a data element from `offset` on by the run; H of its row and U of its diagonal follow.
    ///
    /// # Safety
    ///
    /// `stripe` is valid for reads and writes of `len` bytes, and nobody else uses them during the call. `run` is
    /// valid for reads of `run_len` bytes, none of them among those of `stripe`, and nobody writes to them during
    /// the call.
    pub fn fiddlefern_write(
        n: usize,
        r: usize,
        s: usize,
        e: usize,
        stripe: *mut u8,
        len: usize,
        row: usize,
        strip: usize,
        offset: usize,
        run: *const u8,
        run_len: usize,
    ) -> u64;

    /// Tells where the element of this row and strip stands.
    ///
    /// # Safety
    ///
    /// `stripe` is valid for reads of `len` bytes, and nobody writes to them during the call.
    pub fn fiddlefern_read(
        n: usize,
        r: usize,
        s: usize,
        e: usize,
        stripe: *const u8,
        len: usize,
        row: usize,
        strip: usize,
    ) -> u64;

    /// Counts the rows whose H is wrong and the diagonals whose U is wrong, and says what they find.
    ///
    /// # Safety
    ///
    /// `stripe` is valid for reads of `len` bytes, and nobody writes to them during the call.
    pub fn fiddlefern_scrub(
        n: usize,
        r: usize,
        s: usize,
        e: usize,
        stripe: *const u8,
        len: usize,
    ) -> u64;

    /// Gives the strips of the mask back from the others.
    ///
    /// # Safety
    ///
    /// `stripe` is valid for reads and writes of `len` bytes, and nobody else uses them during the call.
    pub fn fiddlefern_rebuild(
        n: usize,
        r: usize,
        s: usize,
        e: usize,
        stripe: *mut u8,
        len: usize,
        mask: u64,
    ) -> u64;

    /// The version of the archive: byte 2 is the major number, byte 1 the minor one, byte 0 the patch.
    pub safe fn fiddlefern_version() -> u64;
}
