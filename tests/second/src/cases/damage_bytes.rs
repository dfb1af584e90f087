//! Damage to lines and bytes, whatever they tell.

use super::damage::Text;
use crate::disk::text::{FIRST, LAST};
use crate::random::Random;

pub fn line_left_out(random: &mut Random, text: &Text) -> Vec<u8> {
    let mut lines = text.lines();
    lines.remove(random.below(lines.len()));
    lines.concat()
}

pub fn line_doubled(random: &mut Random, text: &Text) -> Vec<u8> {
    let mut lines = text.lines();
    let place = random.below(lines.len());
    lines.insert(place, lines[place].clone());
    lines.concat()
}

pub fn lines_exchanged(random: &mut Random, text: &Text) -> Vec<u8> {
    let mut lines = text.lines();
    let place = random.below(lines.len() - 1);
    lines.swap(place, place + 1);
    lines.concat()
}

pub fn space_added(random: &mut Random, text: &Text) -> Vec<u8> {
    let spaces = text.places(|byte| byte == b' ' || byte == b'\n');
    let anywhere = random.below(text.bytes.len());
    let place = if random.one_in(3) {
        anywhere
    } else {
        random.pick(&spaces)
    };
    text.with(place, b" ")
}

pub fn space_taken(random: &mut Random, text: &Text) -> Vec<u8> {
    let mut bytes = text.bytes.clone();
    bytes.remove(random.pick(&text.places(|byte| byte == b' ')));
    bytes
}

pub fn bytes_behind(random: &mut Random, text: &Text) -> Vec<u8> {
    let strip = text.entries[0].line() + "\n";
    let behind: [&[u8]; 9] = [
        b"\n",
        b"end\n",
        b"end",
        b" ",
        b"x",
        b"\0",
        b"\r\n",
        strip.as_bytes(),
        &text.bytes,
    ];
    text.with(text.bytes.len(), random.pick(&behind))
}

/// In one line, or in all as an editor does it.
pub fn carriage_return(random: &mut Random, text: &Text) -> Vec<u8> {
    if random.one_in(4) {
        let crlf = text.lines().into_iter().map(|mut line| {
            line.insert(line.len() - 1, b'\r');
            line
        });
        return crlf.collect::<Vec<_>>().concat();
    }
    text.with(random.pick(&text.places(|byte| byte == b'\n')), b"\r")
}

pub fn another_first_line(random: &mut Random, text: &Text) -> Vec<u8> {
    let rest = &text.bytes[FIRST.len()..];
    let first: String = match random.below(8) {
        0 => FIRST.replace('1', "2"),
        1 => FIRST.to_uppercase(),
        2 => FIRST[1..].to_string(),
        3 => FIRST[..FIRST.len() - 1].to_string(),
        4 => format!("\u{feff}{FIRST}"),
        5 => String::new(),
        6 => format!("# a book\n{FIRST}"),
        _ => LAST.to_string(),
    };
    [first.as_bytes(), rest].concat()
}

/// A line of its own, or bytes that make a right line that long, at its front, in its middle or at its end.
pub fn million_bytes(random: &mut Random, text: &Text) -> Vec<u8> {
    let mut lines = text.lines();
    let place = random.below(lines.len() + 1);
    let byte = random.pick(b"0 9-x.e\0");
    let mut long = vec![byte; 1_000_000];
    if place == lines.len() || random.one_in(2) {
        long.push(b'\n');
        lines.insert(place, long);
    } else {
        let line = &mut lines[place];
        let at = random.pick(&[0, line.len() / 2, line.len() - 1]);
        line.splice(at..at, long);
    }
    lines.concat()
}

pub fn nul_bytes(random: &mut Random, text: &Text) -> Vec<u8> {
    let place = random.below(text.bytes.len());
    match random.below(4) {
        0 => vec![0; text.bytes.len()],
        // What a disk may leave of a file whose last part it never held.
        1 => {
            let mut bytes = text.bytes.clone();
            bytes[place..].fill(0);
            bytes
        }
        2 => text.with(place, b"\0"),
        _ => {
            let mut bytes = text.bytes.clone();
            bytes[place] = 0;
            bytes
        }
    }
}

pub fn byte_changed(random: &mut Random, text: &Text) -> Vec<u8> {
    let mut bytes = text.bytes.clone();
    let place = random.below(bytes.len());
    bytes[place] = random.pick(b"0123456789 \n\r\t-=.me\0\x80\xff");
    bytes
}
