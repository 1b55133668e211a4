//! A picture file, for programs that read one: PNG without compression.

use cloths::swatch::Swatch;

/// The most bytes of a stored block.
const BLOCK: usize = 65_535;

pub fn png(swatch: &Swatch) -> Vec<u8> {
    let side = |side: usize| (side as u32).to_be_bytes();
    // Eight bits, red green blue, nothing special.
    let kind = [8, 2, 0, 0, 0];
    let header = [&side(swatch.width)[..], &side(swatch.height), &kind].concat();
    [
        b"\x89PNG\r\n\x1a\n".to_vec(),
        chunk(b"IHDR", &header),
        chunk(b"IDAT", &stored(&rows(swatch))),
        chunk(b"IEND", &[]),
    ]
    .concat()
}

/// Each row behind a byte that says it is as it is.
fn rows(swatch: &Swatch) -> Vec<u8> {
    let rows = swatch.pixels.chunks(swatch.width);
    rows.flat_map(|row| [vec![0], row.concat()].concat())
        .collect()
}

fn chunk(name: &[u8; 4], data: &[u8]) -> Vec<u8> {
    let named = [name, data].concat();
    let length = (data.len() as u32).to_be_bytes();
    [&length[..], &named, &crc(&named).to_be_bytes()].concat()
}

/// A zlib stream of stored blocks.
fn stored(data: &[u8]) -> Vec<u8> {
    let mut stream = vec![0x78, 0x01];
    let blocks = data.chunks(BLOCK);
    let count = blocks.len();
    for (index, block) in blocks.enumerate() {
        let length = block.len() as u16;
        stream.push(u8::from(index + 1 == count));
        stream.extend(length.to_le_bytes());
        stream.extend((!length).to_le_bytes());
        stream.extend(block);
    }
    stream.extend(adler(data).to_be_bytes());
    stream
}

fn crc(data: &[u8]) -> u32 {
    let mut crc = u32::MAX;
    for &byte in data {
        crc ^= u32::from(byte);
        for _ in 0..8 {
            let low = crc & 1;
            crc = (crc >> 1) ^ (0xedb8_8320 * low);
        }
    }
    !crc
}

fn adler(data: &[u8]) -> u32 {
    let (mut a, mut b) = (1, 0);
    for &byte in data {
        a = (a + u32::from(byte)) % 65_521;
        b = (b + a) % 65_521;
    }
    (b << 16) | a
}

#[cfg(test)]
mod tests {
    use super::*;

    #[test]
    fn checks_of_known_texts() {
        assert_eq!(crc(b"IEND"), 0xae42_6082);
        assert_eq!(adler(b"Wikipedia"), 0x11e6_0398);
    }
}
