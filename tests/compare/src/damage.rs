//! Ways to damage the text of a swatch. Some leave it well formed.

// All ways have one type, though some need no more than a slice.
#![allow(clippy::ptr_arg)]

use cloths::random::Random;

const LINE: usize = 13;

type Damage = fn(&mut Random, &mut Vec<u8>);

const ALL: [Damage; 17] = [
    flip_bit,
    put_byte,
    put_digit,
    insert_byte,
    delete_byte,
    double_byte,
    swap_bytes,
    truncate,
    double_line,
    delete_line,
    swap_lines,
    join_lines,
    change_header,
    change_pixel,
    lead_with_zero,
    append,
    all_lines,
];

/// Damages a text in one way.
pub fn damage(random: &mut Random, text: &mut Vec<u8>) {
    ALL[random.below(ALL.len())](random, text);
}

/// Bytes that mean something in a text, or look as if they did.
fn telling(random: &mut Random) -> u8 {
    const TELLING: &[u8] = b"      \n\n\r\t0123456789+-.,:/ax\0\x0b\x1f\x80\xa0\xff";
    TELLING[random.below(TELLING.len())]
}

fn place(random: &mut Random, text: &[u8]) -> Option<usize> {
    (!text.is_empty()).then(|| random.below(text.len()))
}

fn flip_bit(random: &mut Random, text: &mut Vec<u8>) {
    if let Some(at) = place(random, text) {
        text[at] ^= 1 << random.below(8);
    }
}

fn put_byte(random: &mut Random, text: &mut Vec<u8>) {
    if let Some(at) = place(random, text) {
        text[at] = telling(random);
    }
}

fn put_digit(random: &mut Random, text: &mut Vec<u8>) {
    if let Some(at) = place(random, text) {
        text[at] = b'0' + random.below(10) as u8;
    }
}

fn insert_byte(random: &mut Random, text: &mut Vec<u8>) {
    let at = random.below(text.len() + 1);
    text.insert(at, telling(random));
}

fn delete_byte(random: &mut Random, text: &mut Vec<u8>) {
    if let Some(at) = place(random, text) {
        text.remove(at);
    }
}

fn double_byte(random: &mut Random, text: &mut Vec<u8>) {
    if let Some(at) = place(random, text) {
        text.insert(at, text[at]);
    }
}

fn swap_bytes(random: &mut Random, text: &mut Vec<u8>) {
    if text.len() > 1 {
        let at = random.below(text.len() - 1);
        text.swap(at, at + 1);
    }
}

fn truncate(random: &mut Random, text: &mut Vec<u8>) {
    if let Some(at) = place(random, text) {
        text.truncate(at);
    }
}

/// Where a whole line begins, were the text well formed.
fn line(random: &mut Random, text: &[u8]) -> Option<usize> {
    let lines = text.len() / LINE;
    (lines > 0).then(|| LINE * random.below(lines))
}

fn double_line(random: &mut Random, text: &mut Vec<u8>) {
    if let Some(at) = line(random, text) {
        let again = text[at..at + LINE].to_vec();
        text.splice(at..at, again);
    }
}

fn delete_line(random: &mut Random, text: &mut Vec<u8>) {
    if let Some(at) = line(random, text) {
        text.drain(at..at + LINE);
    }
}

fn swap_lines(random: &mut Random, text: &mut Vec<u8>) {
    if let (Some(a), Some(b)) = (line(random, text), line(random, text)) {
        for column in 0..LINE {
            text.swap(a + column, b + column);
        }
    }
}

/// Takes a line feed away, or puts something else in its place.
fn join_lines(random: &mut Random, text: &mut Vec<u8>) {
    if let Some(at) = line(random, text) {
        if random.coin() {
            text.remove(at + LINE - 1);
        } else {
            text[at + LINE - 1] = telling(random);
        }
    }
}

fn change_header(random: &mut Random, text: &mut Vec<u8>) {
    const SIDES: [u32; 16] = [
        0, 1, 2, 3, 4, 5, 7, 127, 128, 129, 16_383, 16_384, 16_385, 65_536, 131_072, 999_999,
    ];
    let side = |random: &mut Random| {
        if random.coin() {
            random.within(0, 40)
        } else {
            SIDES[random.below(SIDES.len())]
        }
    };
    let header = format!("{:6}{:6}", side(random), side(random));
    let columns = if random.coin() { 6..12 } else { 0..12 };
    if text.len() >= columns.end {
        text[columns.clone()].copy_from_slice(&header.as_bytes()[columns]);
    }
}

/// Another number in a field of a pixel line, one that does not belong there as often as not.
fn change_pixel(random: &mut Random, text: &mut Vec<u8>) {
    const LEVELS: [&str; 16] = [
        "   0", " 255", " 256", " 257", " 260", " 300", " 999", "1000", "9999", "    ", "  -1",
        "  +1", " 1 2", "12  ", " 1.0", "0xff",
    ];
    if let Some(at) = line(random, text).filter(|&at| at > 0) {
        let at = at + 4 * random.below(3);
        text[at..at + 4].copy_from_slice(LEVELS[random.below(LEVELS.len())].as_bytes());
    }
}

/// The space before a number becomes 0.
fn lead_with_zero(random: &mut Random, text: &mut Vec<u8>) {
    let spaces: Vec<usize> = (1..text.len())
        .filter(|&at| text[at - 1] == b' ' && text[at].is_ascii_digit())
        .collect();
    if !spaces.is_empty() {
        text[spaces[random.below(spaces.len())] - 1] = b'0';
    }
}

fn append(random: &mut Random, text: &mut Vec<u8>) {
    let rest: &[u8] = match random.below(5) {
        0 => b"\n",
        1 => b"   0   0   0\n",
        2 => b"   0   0   0",
        3 => b"\0",
        _ => &[telling(random)],
    };
    text.extend(rest);
}

/// Every line alike: other line ends, or numbers to the left.
fn all_lines(random: &mut Random, text: &mut Vec<u8>) {
    let lines = text.split_inclusive(|&byte| byte == b'\n');
    *text = match random.below(3) {
        0 => lines
            .flat_map(|line| match line.strip_suffix(b"\n") {
                Some(line) => [line, b"\r\n"].concat(),
                None => line.to_vec(),
            })
            .collect(),
        1 => lines
            .flat_map(|line| {
                let mut line = line.to_vec();
                if line.len() == LINE {
                    line[..LINE - 1].rotate_left(1);
                }
                line
            })
            .collect(),
        _ => text
            .iter()
            .map(|&byte| if byte == b' ' { b'\t' } else { byte })
            .collect(),
    };
}
