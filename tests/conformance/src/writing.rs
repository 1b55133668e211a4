//! The text of the kit: lines of a name and its values.

/// Lists are broken off here, and go on in a line of the same name.
const WIDTH: usize = 110;
/// The most groups of numbers that are looked at for coming again and again.
const MOST_GROUPS: usize = 8;
/// A repeat is written as one only if it saves this many numbers.
const LEAST_SAVED: usize = 3;
/// A line of a text that is one byte over and over is written as a repeat from this length on.
const LEAST_RUN: usize = 30;

/// Lines for a list of numbers. Numbers that belong together, as the three of a pixel, are a group.
pub fn numbers(name: &str, values: &[i64], group: usize) -> String {
    let mut lines = String::new();
    let mut line = name.to_string();
    let mut empty = true;
    for word in words(values, group) {
        if !empty && line.len() + 1 + word.len() > WIDTH {
            lines += &format!("{line}\n");
            line = name.to_string();
        }
        line += &format!(" {word}");
        empty = false;
    }
    lines + &line + "\n"
}

/// One line for each row of this many numbers.
pub fn rows(name: &str, values: &[i64], columns: usize) -> String {
    if values.is_empty() {
        return format!("{name}\n");
    }
    values
        .chunks(columns)
        .map(|row| format!("{name} {}\n", joined(row, " ")))
        .collect()
}

/// Lines for a text, quoted: one for each line of it, or for equal lines that follow each other.
pub fn text(name: &str, bytes: &[u8]) -> String {
    if bytes.is_empty() {
        return format!("{name} \"\"\n");
    }
    let lines: Vec<&[u8]> = bytes.split_inclusive(|&byte| byte == b'\n').collect();
    lines
        .chunk_by(|a, b| a == b)
        .map(|equal| format!("{name} {}\n", quoted_times(equal[0], equal.len())))
        .collect()
}

fn quoted_times(line: &[u8], times: usize) -> String {
    let one_byte = line.iter().all(|&byte| byte == line[0]);
    if times == 1 && one_byte && line.len() >= LEAST_RUN {
        return quoted_times(&line[..1], line.len());
    }
    match times {
        1 => quoted(line),
        _ => format!("{}*{times}", quoted(line)),
    }
}

pub fn quoted(bytes: &[u8]) -> String {
    let escaped: String = bytes.iter().map(|&byte| escaped(byte)).collect();
    format!("\"{escaped}\"")
}

fn escaped(byte: u8) -> String {
    match byte {
        b'\n' => "\\n".to_string(),
        b'"' | b'\\' => format!("\\{}", char::from(byte)),
        b' '..=b'~' => char::from(byte).to_string(),
        _ => format!("\\x{byte:02x}"),
    }
}

fn words(values: &[i64], group: usize) -> Vec<String> {
    let mut words = Vec::new();
    let mut rest = values;
    while !rest.is_empty() {
        let (len, times) = repeat(rest, group);
        let word = joined(&rest[..len], ",");
        words.push(match times {
            1 => word,
            _ => format!("{word}*{times}"),
        });
        rest = &rest[len * times..];
    }
    words
}

/// How many of the first numbers are a word, and how often it comes: what saves most, the shortest of equals.
fn repeat(rest: &[i64], group: usize) -> (usize, usize) {
    let mut best = (group.min(rest.len()), 1);
    let mut saved = LEAST_SAVED - 1;
    for len in (1..=MOST_GROUPS).map(|groups| groups * group) {
        let times = times(rest, len);
        if times > 1 && len * (times - 1) > saved {
            best = (len, times);
            saved = len * (times - 1);
        }
    }
    best
}

/// How often the first numbers come, one time after the other.
fn times(rest: &[i64], len: usize) -> usize {
    let chunks = rest.chunks_exact(len);
    chunks.take_while(|chunk| **chunk == rest[..len]).count()
}

fn joined(values: &[i64], between: &str) -> String {
    let values: Vec<String> = values.iter().map(i64::to_string).collect();
    values.join(between)
}

#[cfg(test)]
mod tests {
    use super::*;

    #[test]
    fn repeats_are_written_where_they_save() {
        assert_eq!(words(&[0, 20, 0, 20, 0], 1).join(" "), "0 20 0 20 0");
        assert_eq!(words(&[0, 0, 0, 0, 5], 1).join(" "), "0*4 5");
        assert_eq!(words(&[1, 2, 1, 2, 1, 2, 7], 1).join(" "), "1,2*3 7");
        assert_eq!(words(&[1, 2, 3, 4, 5, 6, 7], 3).join(" "), "1,2,3 4,5,6 7");
        assert_eq!(words(&[0, 0, 0, 0, 0, 0, 9], 3).join(" "), "0,0,0*2 9");
        assert_eq!(numbers("list", &[], 1), "list\n");
    }

    #[test]
    fn long_lists_go_on_in_a_line_of_the_same_name() {
        let values: Vec<i64> = (1000..1050).collect();
        let text = numbers("list", &values, 1);
        assert_eq!(text.lines().count(), 3);
        assert!(text
            .lines()
            .all(|line| line.starts_with("list 1") && line.len() <= WIDTH));
    }

    #[test]
    fn texts_are_quoted_line_by_line() {
        assert_eq!(text("text", b""), "text \"\"\n");
        assert_eq!(text("text", b"a\nb"), "text \"a\\n\"\ntext \"b\"\n");
        assert_eq!(text("text", b"a\na\n"), "text \"a\\n\"*2\n");
        assert_eq!(text("text", &[b' '; 40]), "text \" \"*40\n");
        assert_eq!(text("text", b"\"\\\xff\r"), "text \"\\\"\\\\\\xff\\x0d\"\n");
    }
}
