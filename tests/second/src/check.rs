//! Compares two files of answers line by line and shows the first difference.

use crate::lines::lines;

/// A file by its name and its bytes.
pub struct Named<'a> {
    pub name: &'a str,
    pub bytes: &'a [u8],
}

/// How many lines agree, or the first difference in words; the input is only shown.
pub fn compare(a: &Named, b: &Named, input: Option<&Named>) -> Result<usize, String> {
    let (one, other) = (lines(a.bytes), lines(b.bytes));
    let longer = one.len().max(other.len());
    match (0..longer).find(|k| one.get(*k) != other.get(*k)) {
        None => Ok(longer),
        Some(k) => {
            let head = format!("line {} differs{}", k + 1, field(one.get(k), other.get(k)));
            let files = input.into_iter().chain([a, b]);
            let shown: Vec<String> = files.map(|file| at(file, k)).collect();
            Err(format!("{head}\n{}", shown.join("\n")))
        }
    }
}

fn at(file: &Named, k: usize) -> String {
    format!("{}: {}", file.name, shown(lines(file.bytes).get(k)))
}

/// Which field differs first, since a long answer is not shown whole.
fn field(one: Option<&&[u8]>, other: Option<&&[u8]>) -> String {
    let (Some(one), Some(other)) = (one, other) else {
        return String::new();
    };
    let words = |line: &[u8]| line.split(|byte| *byte == b' ').count();
    let same = one
        .split(|byte| *byte == b' ')
        .zip(other.split(|byte| *byte == b' '))
        .take_while(|(a, b)| a == b)
        .count();
    format!(
        " in field {} of {} and {}",
        same + 1,
        words(one),
        words(other)
    )
}

/// A line, or its front where it is long.
pub fn shown(line: Option<&&[u8]>) -> String {
    const MOST: usize = 400;
    match line {
        None => "(no such line)".to_string(),
        Some(line) if line.len() > MOST => {
            let front = line[..MOST].escape_ascii();
            format!("{front} .. ({} bytes)", line.len())
        }
        Some(line) => line.escape_ascii().to_string(),
    }
}
