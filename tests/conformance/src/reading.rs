//! A reader of the kit as an outsider would write it, from what `vectors/README.md` says. It refuses everything that that
//! page does not allow.

/// A record: the names of its lines, each with all of its values, and the line of the file where it begins.
#[derive(Debug, PartialEq, Eq)]
pub struct Record {
    pub line: usize,
    pub fields: Vec<(String, Vec<i64>)>,
}

pub fn records(text: &str) -> Result<Vec<Record>, String> {
    let body = text.strip_suffix('\n').ok_or("no line feed at the end")?;
    let mut records = Vec::new();
    let mut open = false;
    for (number, line) in (1..).zip(body.split('\n')) {
        if line.is_empty() {
            open = false;
        } else if !line.starts_with('#') {
            if !open {
                records.push(Record {
                    line: number,
                    fields: Vec::new(),
                });
                open = true;
            }
            let record = records.last_mut().expect("one was begun");
            add(record, line).map_err(|wrong| format!("line {number}: {wrong}"))?;
        }
    }
    Ok(records)
}

/// Values go on where the name was met before.
fn add(record: &mut Record, line: &str) -> Result<(), String> {
    let (name, values) = match line.split_once(' ') {
        None => (line, Vec::new()),
        Some((name, rest)) => (name, values(rest)?),
    };
    if name.is_empty() || !name.bytes().all(|b| b.is_ascii_lowercase() || b == b'_') {
        return Err(format!("'{name}' is no name"));
    }
    match record.fields.iter_mut().find(|(known, _)| known == name) {
        Some((_, known)) => known.extend(values),
        None => record.fields.push((name.to_string(), values)),
    }
    Ok(())
}

fn values(rest: &str) -> Result<Vec<i64>, String> {
    if let Some(rest) = rest.strip_prefix('"') {
        return string(rest);
    }
    let mut all = Vec::new();
    for word in rest.split(' ') {
        let (group, times) = match word.split_once('*') {
            None => (word, 1),
            Some((group, times)) => (group, number(times)?),
        };
        let group: Result<Vec<i64>, String> = group.split(',').map(number).collect();
        let group = group?;
        for _ in 0..times {
            all.extend(&group);
        }
    }
    Ok(all)
}

/// A decimal number, without a plus or leading zeros.
fn number(word: &str) -> Result<i64, String> {
    match word.parse::<i64>() {
        Ok(number) if number.to_string() == word => Ok(number),
        _ => Err(format!("'{word}' is no number")),
    }
}

/// What follows the opening quote: the bytes up to the closing one, and how often they come.
fn string(rest: &str) -> Result<Vec<i64>, String> {
    let (inside, behind) = rest.rsplit_once('"').ok_or("no closing quote")?;
    let times = match behind.strip_prefix('*') {
        Some(times) => number(times)?,
        None if behind.is_empty() => 1,
        None => return Err(format!("'{behind}' behind the closing quote")),
    };
    let bytes = unescaped(inside)?;
    let all: Vec<Vec<i64>> = (0..times).map(|_| bytes.clone()).collect();
    Ok(all.concat())
}

fn unescaped(inside: &str) -> Result<Vec<i64>, String> {
    let mut bytes = Vec::new();
    let mut left = inside.bytes();
    while let Some(byte) = left.next() {
        bytes.push(match byte {
            b'\\' => escape(&mut left)?,
            b'"' => return Err("a quote inside".to_string()),
            b' '..=b'~' => i64::from(byte),
            _ => return Err(format!("byte {byte} inside quotes")),
        });
    }
    Ok(bytes)
}

/// What follows a backslash.
fn escape(left: &mut impl Iterator<Item = u8>) -> Result<i64, String> {
    match left.next() {
        Some(b'n') => Ok(10),
        Some(byte @ (b'"' | b'\\')) => Ok(i64::from(byte)),
        Some(b'x') => {
            let digits: String = left.take(2).map(char::from).collect();
            let lower = digits
                .bytes()
                .all(|b| b.is_ascii_digit() || (b'a'..=b'f').contains(&b));
            match i64::from_str_radix(&digits, 16) {
                Ok(byte) if digits.len() == 2 && lower => Ok(byte),
                _ => Err(format!("'\\x{digits}' is no byte")),
            }
        }
        other => Err(format!("a backslash before {other:?}")),
    }
}

#[cfg(test)]
mod tests {
    use super::*;

    fn one(text: &str) -> Vec<(String, Vec<i64>)> {
        let mut found = records(text).expect(text);
        assert_eq!(found.len(), 1, "{text}");
        found.remove(0).fields
    }

    fn field(name: &str, values: &[i64]) -> (String, Vec<i64>) {
        (name.to_string(), values.to_vec())
    }

    #[test]
    fn records_names_and_values() {
        let found = records("# a comment\na 1\nb\n\n\n# b 2\n\na -3\n").expect("it is well formed");
        let lines: Vec<usize> = found.iter().map(|record| record.line).collect();
        assert_eq!(lines, [2, 8]);
        assert_eq!(found[0].fields, [field("a", &[1]), field("b", &[])]);
        assert_eq!(found[1].fields, [field("a", &[-3])]);
    }

    #[test]
    fn values_go_on_and_repeat() {
        assert_eq!(one("a 1 2\na 3\n"), [field("a", &[1, 2, 3])]);
        assert_eq!(
            one("a 7*3 1,2*2 5\n"),
            [field("a", &[7, 7, 7, 1, 2, 1, 2, 5])]
        );
    }

    #[test]
    fn strings_are_bytes() {
        assert_eq!(
            one("a \"A \\n\\\\\\\"\\xff\"\n"),
            [field("a", &[65, 32, 10, 92, 34, 255])]
        );
        assert_eq!(one("a \"\"\na \"B*\"*2\n"), [field("a", &[66, 42, 66, 42])]);
    }

    #[test]
    fn whatever_is_not_described_is_refused() {
        for text in [
            "",
            "a 1",
            "a  1\n",
            "a 1 \n",
            " a 1\n",
            "a 01\n",
            "a +1\n",
            "a 1*\n",
            "a 1,\n",
            "a x\n",
            "A 1\n",
            "a 1\r\n",
            "a \"\n",
            "a \"b\"c\n",
            "a \"b\" 1\n",
            "a \"b\"*x\n",
            "a \"\\q\"\n",
            "a \"\\xf\"\n",
            "a \"\\xFF\"\n",
            "a \"b\"c\"\n",
        ] {
            assert!(records(text).is_err(), "{text:?}");
        }
    }
}
