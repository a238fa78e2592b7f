//! Answers described as sentences, by the library and by the plain simulator, which builds them
//! with `format!`.

use std::hint::black_box;
use std::time::Instant;

use generate::Generator;
use plain::Answer;

/// So many answers are described in turn; the least time of so many rounds counts.
const ANSWERS: usize = 4_096;
const ROUNDS: u32 = 50;

/// A description in the shape of the library's.
type Describe = fn([u32; 3], &mut [u8]) -> [u32; 3];

fn plain(answer: [u32; 3], text: &mut [u8]) -> [u32; 3] {
    plain::describe(Answer::of_triple(answer), text).triple()
}

/// The nanoseconds of a sentence.
fn nanoseconds(describe: Describe, answers: &[[u32; 3]]) -> f64 {
    let mut text = [0; 256];
    let mut least = f64::INFINITY;
    for _ in 0..ROUNDS {
        let start = Instant::now();
        for &answer in answers {
            black_box(describe(black_box(answer), &mut text));
        }
        least = least.min(start.elapsed().as_secs_f64());
    }
    least * 1e9 / answers.len() as f64
}

/// A line with both times.
pub fn timed() -> String {
    let mut generator = Generator::new(6);
    let answers: Vec<[u32; 3]> = (0..ANSWERS).map(|_| generator.answer()).collect();
    let library = nanoseconds(compare::describe, &answers);
    let plain = nanoseconds(plain, &answers);
    format!(
        "A sentence takes the library {library:.0} ns, and safe Rust with `format!` {plain:.0} ns \
         ({:.1}).",
        plain / library
    )
}
