//! Answers described as sentences: the library's text and answer are the plain simulator's, and no
//! two answers have the same text.

use compare::{count, seed, Lent};
use generate::Generator;
use plain::{sentence, Answer};

/// The refusal of a text that is too short.
const TEXT_SHORT: u32 = 21;

/// Whole sentences fit in so many bytes.
const ENOUGH: usize = 256;

/// The sentence of the proved library, in a text that takes more.
fn text(answer: [u32; 3]) -> Vec<u8> {
    let mut text = [0; ENOUGH];
    let [number, _, length] = compare::describe(answer, &mut text);
    assert_eq!(number, 0, "{answer:?}");
    text[..length as usize].to_vec()
}

/// Asserts that the library and the plain simulator answer the same and leave the same bytes in a
/// text of so many bytes, guarded on both sides, and gives the answer.
fn agreed(answer: [u32; 3], bytes: usize) -> [u32; 3] {
    let (mut proved, mut plain) = (Lent::new(bytes), Lent::new(bytes));
    let told = compare::describe(answer, proved.lent());
    let expected = plain::describe(Answer::of_triple(answer), plain.lent()).triple();
    assert_eq!(told, expected, "{answer:?} in {bytes} bytes");
    let written = match told {
        [0, 0, length] => length as usize,
        _ => 0,
    };
    let stray = || format!("{answer:?} in {bytes} bytes: a stray byte");
    assert_eq!(
        proved
            .written(written)
            .unwrap_or_else(|| panic!("{}", stray())),
        plain
            .written(written)
            .expect("the plain one writes no stray byte"),
        "{answer:?} in {bytes} bytes"
    );
    told
}

/// A text of no bytes, one byte short, exact, and long.
fn agreed_at_every_length(answer: [u32; 3]) {
    let length = sentence(Answer::of_triple(answer)).len();
    let needed = length as u32;
    assert_eq!(agreed(answer, 0), [TEXT_SHORT, needed, 0]);
    assert_eq!(agreed(answer, length - 1), [TEXT_SHORT, needed, 0]);
    assert_eq!(agreed(answer, length), [0, 0, needed]);
    assert_eq!(agreed(answer, length + 1), [0, 0, needed]);
    assert_eq!(agreed(answer, ENOUGH), [0, 0, needed]);
}

/// Every number from 0 to 40, those that are listed and others.
fn answers() -> impl Iterator<Item = [u32; 3]> {
    const WORDS: [u32; 5] = [0, 1, 9, 10, u32::MAX];
    (0..=40).flat_map(|number| {
        WORDS
            .into_iter()
            .flat_map(move |place| WORDS.into_iter().map(move |count| [number, place, count]))
    })
}

#[test]
fn every_number() {
    let mut told = 0;
    for answer in answers() {
        agreed_at_every_length(answer);
        told += 1;
    }
    assert_eq!(told, 41 * 25);
}

#[test]
fn generated_answers() {
    let seed = seed();
    let mut generator = Generator::new(seed);
    for _ in 0..count(50_000) {
        agreed_at_every_length(generator.answer());
    }
}

/// A text of every length, from none to more than enough.
#[test]
fn every_length() {
    for answer in [[0, 0, 6], [1, 0, 0], [3, u32::MAX, u32::MAX], [77, 1, 2]] {
        let length = sentence(Answer::of_triple(answer)).len();
        for bytes in 0..=length + 70 {
            let [number, ..] = agreed(answer, bytes);
            assert_eq!(number == TEXT_SHORT, bytes < length, "{bytes} bytes");
        }
    }
}

#[test]
fn different_answers_have_different_texts() {
    let seed = seed();
    let mut generator = Generator::new(seed);
    let mut met = [0u64; 3];
    for place in 0..count(1_000_000) {
        let [one, other] = generator.two_answers();
        assert_ne!(text(one), text(other), "seed {seed}, pair {place}");
        let differ = one.iter().zip(&other).filter(|(a, b)| a != b).count();
        met[differ - 1] += 1;
    }
    println!("pairs that differ in one, two and three words: {met:?}");
    assert!(met.iter().all(|&n| n >= 10_000), "seed {seed}: {met:?}");
}

/// All texts of the numbers 0 to 40 at once.
#[test]
fn no_text_stands_for_two_answers() {
    let mut texts: Vec<Vec<u8>> = answers().map(text).collect();
    let all = texts.len();
    texts.sort();
    texts.dedup();
    // The four other places of each finished call are not looked at.
    assert_eq!(texts.len(), all - 4 * 5);
}

/// The numbers that stand in a text, in their order.
fn numbers(text: &str) -> Vec<u64> {
    let digits = text.split(|c: char| !c.is_ascii_digit());
    digits
        .filter(|part| !part.is_empty())
        .map(|part| part.parse().expect("digits are a number"))
        .collect()
}

/// One line; the place and then the count are the last numbers in it, in decimal, and a number that
/// is not listed stands before them.
#[test]
fn what_a_sentence_is_made_of() {
    for [number, place, count] in answers() {
        let text = String::from_utf8(text([number, place, count])).expect("it is text");
        assert!(
            text.bytes().all(|byte| (b' '..=b'~').contains(&byte)),
            "{text}"
        );
        let mut numbers = numbers(&text);
        assert_eq!(numbers.pop(), Some(count.into()), "{text}");
        assert!(text.ends_with(&count.to_string()), "{text}");
        if number == 0 {
            assert!(
                text.starts_with("finished, ") && numbers.is_empty(),
                "{text}"
            );
            continue;
        }
        assert!(text.starts_with("refused: "), "{text}");
        assert_eq!(numbers.pop(), Some(place.into()), "{text}");
        match plain::phrase(number) {
            Some(phrase) => assert!(text.contains(phrase), "{text}"),
            None => assert_eq!(numbers, [number.into()], "{text}"),
        }
    }
}

/// What the place of each listed refusal counts, as its row names it.
#[test]
fn sorts() {
    let sort = |number| match number {
        2..=9 | 11..=14 | 16 | 17 | 22 => ", at the sheet's byte 7;",
        10 | 15 | 18 => ", at node 7;",
        19 | 20 => ", at tick 7;",
        21 | 23 => ", length needed 7;",
        25 => ", pulses to report 7;",
        _ => ", place 7;",
    };
    for number in 1..=40 {
        let text = String::from_utf8(text([number, 7, 0])).expect("it is text");
        assert!(text.contains(sort(number)), "{text}");
        assert_eq!(text.contains("not listed"), number > 26, "{text}");
    }
}
