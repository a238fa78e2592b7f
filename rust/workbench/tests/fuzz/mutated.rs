//! Files with parts changed, dropped, repeated and mixed.

use generate::Random;

/// A file made from a good one by one to eight changes. Words are taken from a list of the file's language.
pub fn mutated(random: &mut Random, good: &[u8], words: &[&str]) -> Vec<u8> {
    let mut file = good.to_vec();
    for _ in 0..random.pick(&[1, 1, 1, 2, 2, 3, 5, 8]) {
        change(random, &mut file, words);
    }
    file
}

fn change(random: &mut Random, file: &mut Vec<u8>, words: &[&str]) {
    let at = random.between(0, file.len());
    let part = part(random, file);
    match random.between(0, 9) {
        0 => file.truncate(at),
        1 => file.insert(at, random.byte()),
        2 => drop(file.drain(part)),
        3 => {
            let copy = file[part].to_vec();
            file.splice(at..at, copy);
        }
        4 => {
            let often = random.pick(&[2, 10, 300]);
            let copy = file[part].repeat(often);
            file.splice(at..at, copy);
        }
        5 | 6 => {
            let word = random.pick(words);
            let blank = random.pick(&["", " ", "\n"]);
            file.splice(at..at, format!("{blank}{word}{blank}").into_bytes());
        }
        7 => {
            let word = random.pick(words);
            file.splice(part, word.bytes());
        }
        8 => lines_exchanged(random, file),
        _ => {
            if let Some(byte) = file.get_mut(at) {
                *byte = random.pick(&[*byte ^ 1, *byte ^ 32, b' ', b'\n', b'(', b',', 0, 0xFF]);
            }
        }
    }
}

/// A stretch of the file, mostly a short one.
fn part(random: &mut Random, file: &[u8]) -> std::ops::Range<usize> {
    let start = random.between(0, file.len());
    let length = random.pick(&[1, 2, 5, 20, 100]);
    start..(start + length).min(file.len())
}

fn lines_exchanged(random: &mut Random, file: &mut Vec<u8>) {
    let mut lines: Vec<&[u8]> = file.split(|&byte| byte == b'\n').collect();
    let [one, other] = [random.place(lines.len()), random.place(lines.len())];
    lines.swap(one, other);
    *file = lines.join(&b'\n');
}
