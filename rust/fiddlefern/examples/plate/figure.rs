//! The sand figure of a square plate. The plate moves as cos(aπx)cos(bπy) - cos(bπx)cos(aπy) says; sand
//! settles along the still lines, where that is zero, and is drawn about two pixels wide.
use std::f64::consts::PI;

/// The gray of the bare plate, and of the brightest grain of sand.
const PLATE: f64 = 22.0;
const SAND: f64 = 250.0;

/// How many grays darker the darkest grain is.
const SHADE: f64 = 50.0;

/// Within this many pixels of a still line the sand is thick; one pixel further there is none.
const THICK: f64 = 0.4;

/// The figure of the mode a, b: `size` by `size` grays, line after line.
pub fn draw([a, b]: [usize; 2], size: usize) -> Vec<u8> {
    let pixel = |k: usize| {
        let (x, y) = (k % size, k / size);
        let middle = |k: usize| (k as f64 + 0.5) / size as f64;
        let away = distance(a as f64, b as f64, middle(x), middle(y)) * size as f64;
        gray(away, grain(x as u32, y as u32))
    };
    (0..size * size).map(pixel).collect()
}

/// How far (x, y) is from a still line: the motion by its slope, which is right near the line.
fn distance(a: f64, b: f64, x: f64, y: f64) -> f64 {
    let (sax, cax) = (a * PI * x).sin_cos();
    let (sbx, cbx) = (b * PI * x).sin_cos();
    let (say, cay) = (a * PI * y).sin_cos();
    let (sby, cby) = (b * PI * y).sin_cos();
    let motion = cax * cby - cbx * cay;
    let by_x = PI * (b * sbx * cay - a * sax * cby);
    let by_y = PI * (a * cbx * say - b * cax * sby);
    // Where still lines cross, both are zero, and the point is on a line.
    motion.abs() / by_x.hypot(by_y).max(1e-9)
}

/// The gray of a pixel this far from a still line, in pixels; grain is 0 to 1.
fn gray(away: f64, grain: f64) -> u8 {
    let sand = (THICK + 1.0 - away).clamp(0.0, 1.0);
    (PLATE + sand * (SAND - SHADE * grain - PLATE)) as u8
}

/// How dark the grain at this pixel is, 0 to 1: the same in every run, and without a pattern.
fn grain(x: u32, y: u32) -> f64 {
    let mut mixed = x.wrapping_mul(0x9E37_79B1) ^ y.wrapping_mul(0x85EB_CA77);
    mixed = (mixed ^ mixed >> 15).wrapping_mul(0x2C1B_3C6D);
    f64::from((mixed ^ mixed >> 12) & 0xFF) / 255.0
}
