//! Lines that are no calls, and odd ones that are.

use super::line::all;

/// Words to stand for a number, sound and not.
const NUMBERS: &str = "\
    +1 1.0 1. .5 1e1 0x1 1_0 1,000 --1 - + -+1 1- a \u{2212}1 \u{ff11} \u{661} 1\u{a0} 00 -0 \
    -00 007 -007 0000000000000000000000005 16383 16384 -16383 -16384 2147483647 2147483648 \
    -2147483648 -2147483649 4294967295 4294967296 4294967301 9223372036854775808 \
    18446744073709551616 18446744073709551621 340282366920938463463374607431768211461 \
    99999999999999999999999999999999999999999999999999 \
    -99999999999999999999999999999999999999999999";

pub fn lines() -> Vec<Vec<u8>> {
    let lists = [
        words(),
        spaces(),
        numbers(),
        rooms_and_counts(),
        orders(),
        books(),
        hexadecimal(),
        strange_bytes(),
    ];
    let mut lines = lists.concat();
    lines.extend(touches(&lines));
    lines
}

/// The lines of `batch` with the other word, which has the same arguments, and words that are nearly that one.
fn touches(lines: &[Vec<u8>]) -> Vec<Vec<u8>> {
    let mut others: Vec<Vec<u8>> = lines
        .iter()
        .filter_map(|line| line.strip_prefix(b"batch"))
        .map(|arguments| [b"touches", arguments].concat())
        .collect();
    others.extend(all(&[
        "touches",
        "touches ",
        "touch 0 0 0 1 1 0",
        "touche 0 0 0 1 1 0",
        "touchess 0 0 0 1 1 0",
        "Touches 0 0 0 1 1 0",
        "TOUCHES 0 0 0 1 1 0",
        "touching 0 0 0 1 1 0",
        "touches0 0 0 1 1 0",
        "batch touches 0 0 0 1 1 0",
        "touches batch 0 0 0 1 1 0",
        " touches 0 0 0 1 1 0",
        "touches  0 0 0 1 1 0",
        "touches\t0 0 0 1 1 0",
        "touches 0 0 0 1 1 0\r",
        "touches 5 0 0 2147483648 10 4 1 2 3 4",
        "touches 5 0 0 10 -2147483649 4 1 2 3 4",
        "touches 5 0 0 10 10 4 2147483648 2 3 4",
        "touches 5 0 0 2147483647 -2147483648 4 1 2 3 4",
        "touches 5 0 0 10 10 4 1 -2147483648 2147483647 4",
    ]));
    others
}

/// No word, unknown ones, and every command with an argument too few or too many.
fn words() -> Vec<Vec<u8>> {
    let mut lines = all(&[
        "",
        "?",
        "lb",
        "l",
        "lbx 0 0 10 10 1 2 3 4",
        "LB 0 0 10 10 1 2 3 4",
        "mm3 00000000",
        "help",
        "lb0 0 10 10 1 2 3 4",
        "0 0 10 10 1 2 3 4",
        "Draw 0 -",
        "-",
        "draws 0 -",
        "bat 0 0 0 1 1 0",
        "Enter 0 0 1 2 3 4",
        "enters 0 0 1 2 3 4",
        "releas 0 0 1",
        "RELEASE 0 0 1",
        "Strips 0 0 0",
        "strip 0 0 0",
        "stripss 0 0 0",
        "listing 0 0 0",
    ]);
    let right = [
        "mm2 00000000 00000000",
        "mm4 00000000 00000000 00000000 00000000",
        "back 5",
        "lb 0 0 10 10 1 2 3 4",
        "cs 0 0 10 10 1 2 3 4",
        "cb 6 0 0 10 0 0 10 1 2 3 4",
        "batch 5 0 0 10 10 4 1 2 3 4",
        "outline 0 12 0 0 10 10 6 1 1 5 1 1 5",
        "draw 2 -",
        "enter 5 1 0 0 10 10 0 1 2 3 4",
        "release 5 0 0 0 0 0 1 7",
        "strips 2 5 0 0 0 0 0 1",
    ];
    for line in right {
        let last = line.rfind(' ').unwrap_or(0);
        lines.extend(all(&[
            line,
            &line[..last],
            &format!("{line} 0"),
            &format!("{line} -"),
        ]));
    }
    lines
}

fn spaces() -> Vec<Vec<u8>> {
    all(&[
        " ",
        "  ",
        "lb  0 0 10 10 1 2 3 4",
        "lb 0 0 10 10  1 2 3 4",
        " lb 0 0 10 10 1 2 3 4",
        "lb 0 0 10 10 1 2 3 4 ",
        "lb\t0 0 10 10 1 2 3 4",
        "lb 0 0 10 10\t1 2 3 4",
        "lb 0 0 10 10 1 2 3 \t4",
        "lb 0 0 10 10 1 2 3 4\t",
        "lb 0 0 10 10 1 2 3 4\r",
        "\r",
        "\rlb 0 0 10 10 1 2 3 4",
        "lb 0 0 10 10 1\r2 3 4",
        "batch 0 0 0 10 10 0 ",
        "batch 0 0 0 10 10 0",
        "outline 0 0 0 0 10 10 0 ",
        "mm2 00000000 00000000 ",
        "mm2 00000000  00000000",
        "mm2 00000000 00000000\r",
        "draw 0 ",
        "draw 0 - ",
        "draw 0 -\r",
        "draw  0 -",
        "back 5 ",
        "back  5",
        "back",
        "back ",
    ])
}

fn numbers() -> Vec<Vec<u8>> {
    let mut lines = Vec::new();
    for (k, word) in NUMBERS.split(' ').enumerate() {
        lines.push(format!("back {word}"));
        lines.push(match k % 4 {
            0 => format!("lb {word} -20000 20000 10 1 2 3 4"),
            1 => format!("cs 0 0 10 10 1 2 3 {word}"),
            2 => format!("cb 6 0 0 10 0 0 {word} 1 2 3 4"),
            _ => format!("batch 5 0 0 10 10 4 1 2 {word} 4"),
        });
    }
    lines.into_iter().map(String::into_bytes).collect()
}

/// The desk's own limits, and counts that are not those of the list.
fn rooms_and_counts() -> Vec<Vec<u8>> {
    let mut lines = all(&[
        "batch 40960 0 0 10 10 4 1 2 3 4",
        "batch 40961 0 0 10 10 4 1 2 3 4",
        "outline 0 40961 0 0 10 10 6 1 1 5 1 1 5",
        "draw 40960 -",
        "draw 40961 -",
        "draw 100000 -",
        "draw 4294967296 -",
        "draw -1 -",
        "draw -0 -",
        "draw 003 -",
        "strips 40961 0 0",
        "strips -1 0 0",
        "strips -0 -0 -0",
        "strips 003 0 0",
        "strips 18446744073709551616 0 0",
        "strips 3 -1 0",
        "strips 3 +1 0 0",
        "strips 3 20001 0",
        "strips 3 18446744073709551617 0 0",
        "batch -1 0 0 10 10 4 1 2 3 4",
        "batch -0 0 0 10 10 4 1 2 30 40",
        "batch 05 0 0 10 10 4 1 2 3 4",
        "batch +5 0 0 10 10 4 1 2 3 4",
        "batch 18446744073709551621 0 0 10 10 4 1 2 3 4",
        "batch 5 0 0 10 10 3 1 2 3 4",
        "batch 5 0 0 10 10 5 1 2 3 4",
        "batch 5 0 0 10 10 -4 1 2 3 4",
        "batch 5 0 0 10 10 +4 1 2 3 4",
        "batch 5 0 0 10 10 004 1 2 3 4",
        "batch 5 0 0 10 10 -0",
        "batch 5 0 0 10 10",
        "batch 5 0 0 10 10 18446744073709551616",
        "batch 5 0 0 10 10 18446744073709551620 1 2 3 4",
        "cb 0 1 2 3 4",
        "cb -0 1 2 3 4",
        "cb -1 1 2 3 4",
        "cb 4 1 2 3 4",
        "cb 65 1 2 3 4",
        "cb 18446744073709551615 1 2 3 4",
        "outline 0 12 0 0 10 10 5 1 1 5 1 1 5",
        "outline 0 12 0 0 10 10 7 1 1 5 1 1 5",
        "outline 0 12 0 0 10 10 -6 1 1 5 1 1 5",
        "outline 0 12 0 0 10 10 06 1 1 5 1 1 5",
    ]);
    // One number past what the desk takes, and the last that it takes.
    let zeros = |count: usize| " 0".repeat(count);
    lines.push(format!("cb 64{} 1 2 3 4", zeros(64)).into_bytes());
    lines.push(format!("cb 65{} 1 2 3 4", zeros(65)).into_bytes());
    lines.push(format!("outline 0 3 0 0 10 10 256{}", zeros(256)).into_bytes());
    lines.push(format!("outline 0 3 0 0 10 10 257{}", zeros(257)).into_bytes());
    lines
}

fn orders() -> Vec<Vec<u8>> {
    let orders = [
        "-0",
        "023",
        "-1",
        "-24",
        "+1",
        "1.0",
        "4294967296",
        "99999999999999999999999",
    ];
    orders
        .iter()
        .map(|order| format!("outline {order} 13 0 0 10 10 6 1 1 5 1 1 5").into_bytes())
        .collect()
}

/// Words for a number in the book, as the renter, in the window, as the slot and as the room; then whole books with a count
/// that is one off, which is also how a line without its renter reads.
fn books() -> Vec<Vec<u8>> {
    let mut lines = Vec::new();
    let words = "2147483647 2147483648 -2147483648 -2147483649 4294967296 +1 1.0 x";
    for word in words.split(' ') {
        lines.push(format!("enter 5 0 {word} 0 0 0 0 1 2 3 4"));
        lines.push(format!("enter 1 0 {word} 1 2 3 4"));
        lines.push(format!("enter 1 0 0 1 2 {word} 4"));
        lines.push(format!("release 5 {word} 0 0 0 0 0 0"));
        lines.push(format!("release 1 0 {word} 0"));
        lines.push(format!("release 1 0 0 {word}"));
        lines.push(format!("strips 1 1 {word} 0"));
        lines.push(format!("strips 1 1 0 {word}"));
        lines.push(format!("strips {word} 1 0 0"));
    }
    for (count, numbers) in [(320, 319), (320, 321), (319, 320), (321, 320)] {
        let zeros = " 0".repeat(numbers);
        lines.push(format!("enter {count}{zeros} 0 1 2 3 4"));
        lines.push(format!("release {count}{zeros} 0 0"));
        lines.push(format!("strips 2 {count}{zeros} 0"));
    }
    lines.into_iter().map(String::into_bytes).collect()
}

fn hexadecimal() -> Vec<Vec<u8>> {
    all(&[
        "mm2 3F800000 BF800000",
        "mm2 3f8AaAaA 3F8aAaAa",
        "mm2 7FC00000 FF800000",
        "mm4 3F800000 4000aBcD C0000000 00000000",
        "mm2 3f80000 3f800000",
        "mm2 3f8000000 3f800000",
        "mm2 0x3f8000 3f800000",
        "mm2 3f80000g 3f800000",
        "mm2 -3f80000 3f800000",
        "mm2 +3f80000 3f800000",
        "mm2 1 1",
        "mm2 - -",
        "mm2 3f800000",
        "mm2 3f800000 3f800000 3f800000",
        "mm4 3f800000 3f800000 3f800000",
        "mm4 3f800000 3f800000 3f800000 3f800000 3f800000",
        "mm2 3f8000003f800000",
        "draw 8 000000240100000000000000003EA000003EA000004DBE2000003E2000004C3EF000003E2000005A",
        "draw 8 000000240100000000000000003ea000003Ea000004dbe2000003e2000004c3ef000003e2000005A",
        "draw 0 0",
        "draw 0 000",
        "draw 0 00",
        "draw 0 0g",
        "draw 0 0x",
        "draw 0 --",
        "draw 0 -00",
        "draw 0 +0",
        "draw 0 00 00",
        "draw -",
        "draw 0",
    ])
}

fn strange_bytes() -> Vec<Vec<u8>> {
    let lines: [&[u8]; 10] = [
        b"\0",
        b"lb 0 0 10 10 1 2 3 4\0",
        b"lb\x000 0 10 10 1 2 3 4",
        b"\xff",
        b"lb 0 0 10 10 1 2 3 \xff",
        b"\xef\xbb\xbflb 0 0 10 10 1 2 3 4",
        b"lb 0 0 10 10 1 2 3 4\x0b",
        b"lb 0 0 10 10 1 2 3 4\x0c",
        b"lb 0 0 10 10 1 2 3 4\x1a",
        b"draw 0 \xc3\xa9",
    ];
    lines.map(<[u8]>::to_vec).to_vec()
}
