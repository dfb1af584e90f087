//! Slips of the hand in lines that were right.

use crate::random::Random;

pub fn slip(random: &mut Random, mut line: Vec<u8>) -> Vec<u8> {
    let place = random.below(line.len());
    let strange = random.pick(b" \t\r-+.0159afAFgmMxX?\0\x80\xff");
    match random.below(8) {
        0 => line.insert(place, strange),
        1 => line[place] = strange,
        2 => _ = line.remove(place),
        3 => line.truncate(place),
        4 => line.make_ascii_uppercase(),
        5 => line.push(strange),
        6 => line = without_a_word(random, &line),
        _ => line.extend(b" 7"),
    }
    line
}

fn without_a_word(random: &mut Random, line: &[u8]) -> Vec<u8> {
    let mut words: Vec<&[u8]> = line.split(|byte| *byte == b' ').collect();
    words.remove(random.below(words.len()));
    words.join(&b' ')
}
