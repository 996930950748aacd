//! Seven disks hold a picture and an eighth the parity of its rows; two of them are lost, and the picture is
//! read from what is rebuilt. Ends with an error where a byte differs.
use fiddlefern::{Refusal, Shape};

/// The bytes of a picture: a pattern in which no two elements are alike.
fn picture(len: usize) -> Vec<u8> {
    (0..len).map(|k| (k * k / 97 + k / 512) as u8).collect()
}

/// Writes the picture into the data elements, strip after strip.
fn store(shape: Shape, stripe: &mut [u8], picture: &[u8]) -> Result<(), Refusal> {
    for (k, tile) in picture.chunks(shape.e()).enumerate() {
        shape.write(stripe, k % shape.r(), k / shape.r(), 0, tile)?;
    }
    Ok(())
}

/// Reads the picture from the data elements, strip after strip.
fn show(shape: Shape, stripe: &[u8]) -> Result<Vec<u8>, Refusal> {
    let mut picture = Vec::new();
    for strip in 0..shape.n() {
        for row in 0..shape.r() {
            picture.extend(shape.read(stripe, row, strip)?);
        }
    }
    Ok(picture)
}

fn main() -> Result<(), Refusal> {
    let shape = Shape::new(7, Shape::greatest_rows(7, 1)?, 1, 512)?;
    println!(
        "The shape {shape} takes {} bytes on {} disks.",
        shape.size(),
        shape.n() + 1
    );

    // A stripe of zeros is sound, and each write keeps it so.
    let mut stripe = vec![0; shape.size()];
    let picture = picture(shape.n() * shape.r() * shape.e());
    store(shape, &mut stripe, &picture)?;
    println!("A picture of {} bytes is stored.", picture.len());

    let disks = [2, 5];
    for disk in disks {
        stripe[shape.strip_bytes(disk)].fill(0);
    }
    assert_ne!(show(shape, &stripe)?, picture);
    println!(
        "Disks {} and {} are lost, and the picture with them.",
        disks[0], disks[1]
    );

    shape.rebuild(&mut stripe, shape.lost(&disks)?)?;
    assert_eq!(show(shape, &stripe)?, picture);
    println!(
        "They are rebuilt from the other {}: every byte of the picture is back.",
        shape.n() - 1
    );
    Ok(())
}
