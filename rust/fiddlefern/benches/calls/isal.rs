//! Encoding with ISA-L's `xor_gen`, where libisal is installed: it is looked for when the bench runs.
use std::ffi::{CStr, c_char, c_int, c_void};

unsafe extern "C" {
    fn dlopen(name: *const c_char, flags: c_int) -> *mut c_void;
    fn dlsym(library: *mut c_void, name: *const c_char) -> *mut c_void;
}
const RTLD_NOW: c_int = 2;
const LIBRARY: &CStr = c"libisal.so.2";

/// The last of the elements becomes the XOR of the others: how many there are, their bytes, and where they stand.
type XorGen = unsafe extern "C" fn(c_int, c_int, *mut *mut c_void) -> c_int;

pub struct Isal {
    xor_gen: XorGen,
    lines: Vec<Vec<usize>>,
    e: usize,
}

impl Isal {
    /// ISA-L for lines of elements of e bytes, a multiple of 32.
    pub fn open(lines: &[Vec<usize>], e: usize) -> Option<Isal> {
        // SAFETY: both names end with a zero; loading libisal runs no code but its own start.
        let found = unsafe {
            let library = dlopen(LIBRARY.as_ptr(), RTLD_NOW);
            if library.is_null() {
                return None;
            }
            dlsym(library, c"xor_gen".as_ptr())
        };
        if found.is_null() {
            return None;
        }
        // SAFETY: this is the type that libisal's raid.h gives to xor_gen.
        let xor_gen = unsafe { std::mem::transmute::<*mut c_void, XorGen>(found) };
        Some(Isal {
            xor_gen,
            lines: lines.to_vec(),
            e,
        })
    }

    pub fn encode(&self, stripe: &mut [u8]) {
        let start = stripe.as_mut_ptr();
        for line in &self.lines {
            assert!(line.iter().all(|at| at + self.e <= stripe.len()));
            let mut places = [std::ptr::null_mut(); 33];
            for (place, at) in places.iter_mut().zip(line) {
                *place = start.wrapping_add(*at).cast();
            }
            // SAFETY: the first places of the array are whole elements of the stripe, which is borrowed mutably,
            // each at a multiple of 32.
            let failed = unsafe {
                (self.xor_gen)(line.len() as c_int, self.e as c_int, places.as_mut_ptr())
            };
            assert_eq!(failed, 0);
        }
    }
}
