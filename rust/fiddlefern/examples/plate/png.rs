//! A picture as a PNG file: 8-bit gray, the bytes stored as they are, nothing compressed.

const SIGNATURE: [u8; 8] = *b"\x89PNG\r\n\x1a\n";

/// The most bytes that a stored block can have.
const BLOCK: usize = 0xFFFF;

/// The file of a square picture of `size` by `size` bytes.
pub fn file(size: usize, picture: &[u8]) -> Vec<u8> {
    let mut file = SIGNATURE.to_vec();
    chunk(&mut file, *b"IHDR", &header(size as u32));
    chunk(&mut file, *b"IDAT", &zlib(&lines(size, picture)));
    chunk(&mut file, *b"IEND", &[]);
    file
}

/// Width, height; bit depth 8, gray, the one compression, the one set of filters, not interlaced.
fn header(size: u32) -> Vec<u8> {
    [size.to_be_bytes(), size.to_be_bytes()]
        .concat()
        .into_iter()
        .chain([8, 0, 0, 0, 0])
        .collect()
}

/// The picture's lines, a byte 0 before each: it is not filtered.
fn lines(size: usize, picture: &[u8]) -> Vec<u8> {
    let line = |line: &[u8]| [&[0], line].concat();
    picture.chunks(size).flat_map(line).collect()
}

/// Appends a chunk: its length, its type, its bytes, and the CRC-32 of the last two.
fn chunk(file: &mut Vec<u8>, kind: [u8; 4], bytes: &[u8]) {
    file.extend((bytes.len() as u32).to_be_bytes());
    let start = file.len();
    file.extend(kind);
    file.extend(bytes);
    let sum = crc(&file[start..]);
    file.extend(sum.to_be_bytes());
}

/// A zlib stream of stored blocks, with the Adler-32 at its end.
fn zlib(bytes: &[u8]) -> Vec<u8> {
    let mut stream = vec![0x78, 0x01];
    let mut blocks = bytes.chunks(BLOCK).peekable();
    while let Some(block) = blocks.next() {
        let length = block.len() as u16;
        stream.push(u8::from(blocks.peek().is_none()));
        stream.extend(length.to_le_bytes());
        stream.extend((!length).to_le_bytes());
        stream.extend(block);
    }
    stream.extend(adler(bytes).to_be_bytes());
    stream
}

/// What a CRC-32 becomes by one byte after another, for each low byte of it.
const CRC: [u32; 256] = {
    let mut table = [0; 256];
    let mut k = 0;
    while k < table.len() {
        let (mut sum, mut bit) = (k as u32, 0);
        while bit < 8 {
            sum = (sum >> 1) ^ if sum & 1 == 1 { 0xEDB8_8320 } else { 0 };
            bit += 1;
        }
        table[k] = sum;
        k += 1;
    }
    table
};

fn crc(bytes: &[u8]) -> u32 {
    let step = |sum: u32, byte: &u8| (sum >> 8) ^ CRC[usize::from(sum as u8 ^ byte)];
    !bytes.iter().fold(!0, step)
}

fn adler(bytes: &[u8]) -> u32 {
    const PRIME: u32 = 65521;
    let step = |(a, b): (u32, u32), byte: &u8| {
        let a = (a + u32::from(*byte)) % PRIME;
        (a, (b + a) % PRIME)
    };
    let (a, b) = bytes.iter().fold((1, 0), step);
    b << 16 | a
}
