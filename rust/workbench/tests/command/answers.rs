//! What check, run, pulses, convert and load answer: what the plain simulator does, with names.

use generate::Generator;
use plain::{worked_run, Edition};

use crate::support::Folder;

/// The worked run's listing with its names.
const LISTING: &str = "finished, with a count of 6
0 section 0 5
0 scoop X 3
3 scoop 1 8
5 section 1 12
8 scoop 0 11
11 scoop 1 12
";

#[test]
fn check() {
    let folder = Folder::with_worked("check");
    folder
        .timing(&["check", "worked.net"])
        .finished("finished, with a count of 0\n");
    folder
        .timing(&["check", "worked.sheet", "--strict"])
        .finished("finished, with a count of 0\n");
    folder.write(
        "late.net",
        "timing-1\ninput b\ninput a\ndrive a: 1 at 3\ndrive b: 1 at 0\n",
    );
    folder
        .timing(&["check", "late.net"])
        .finished("finished, with a count of 0\n");
    folder.timing(&["check", "--strict", "late.net"]).refused(
        "refused: an input has no drive event at tick 0, at node 1; records written: 0\n\
         number: 15\nplace: nodes, record 1 (a), line 3 of late.net\n",
    );
}

#[test]
fn run() {
    let folder = Folder::with_worked("run");
    folder
        .timing(&["run", "worked.net", "--horizon", "12"])
        .finished(LISTING);
    let numbered = LISTING.replace("section", "n0").replace("scoop", "n1");
    folder
        .timing(&["run", "--horizon=12", "worked.sheet"])
        .finished(&numbered);
    folder
        .timing_reading(&["run", "--horizon", "12", "-"], worked_run::SHEET)
        .finished(&numbered);
    let named = [
        "run",
        "worked.sheet",
        "--names",
        "worked.net",
        "--horizon",
        "12",
    ];
    folder.timing(&named).finished(LISTING);
    let outside =
        "refused: the horizon is not from 1 to 1,000,000 ticks, place 0; records written: 0\nnumber: 1\n";
    folder
        .timing(&["run", "worked.net", "--horizon", "0"])
        .refused(outside);
    folder
        .timing(&["run", "worked.net", "--horizon", "1000001"])
        .refused(outside);
}

#[test]
fn pulses() {
    let folder = Folder::with_worked("pulses");
    let pulses =
        |width: &str| folder.timing(&["pulses", "worked.net", "--horizon", "12", "--width", width]);
    pulses("5").finished("finished, with a count of 1\n8 scoop 3\n");
    pulses("6").finished("finished, with a count of 2\n3 scoop 5\n8 scoop 3\n");
    pulses("0").refused(
        "refused: the pulse width is not from 1 to 10,000 ticks, place 0; records written: 0\nnumber: 24\n",
    );
}

#[test]
fn convert() {
    let folder = Folder::with_worked("convert");
    folder
        .timing(&["convert", "worked.net", "--to", "2", "-o", "second.sheet"])
        .finished("");
    assert_eq!(
        folder.read("second.sheet"),
        worked_run::sheet().encode(Edition::Second)
    );
    folder
        .timing(&[
            "convert",
            "second.sheet",
            "--edition",
            "2",
            "--to",
            "1",
            "-o",
            "first.sheet",
        ])
        .finished("");
    assert_eq!(folder.read("first.sheet"), worked_run::SHEET);
    folder.write(
        "new.net",
        "timing-2\ninput a\nb = buffer(a) delay 1 initial X\nc = and(a, b, c) delay 1 initial X\n",
    );
    folder.timing(&["convert", "new.net", "--to", "1", "-o", "none.sheet"]).refused(
        "refused: a module has a kind above 9, which the first edition of the sheet lacks, at the sheet's byte 15; \
         records written: 0\nnumber: 22\nplace: modules, record 1 (c), line 4 of new.net\n",
    );
    assert!(!folder.path("none.sheet").exists());
}

#[test]
fn load() {
    let folder = Folder::with_worked("load");
    folder
        .timing(&[
            "load",
            "worked.net",
            "--seed",
            "7",
            "--count",
            "20",
            "-o",
            "loaded.sheet",
        ])
        .finished("");
    let mut expected = vec![0; 10_000];
    let answer = plain::load(Edition::First, worked_run::SHEET, 7, 20, &mut expected);
    let [0, 0, count] = answer.triple() else {
        panic!("{answer:?}");
    };
    assert_eq!(folder.read("loaded.sheet"), expected[..count as usize]);
    folder.timing(&["load", "worked.net", "--seed", "7", "--count", "1024", "-o", "none.sheet"]).refused(
        "refused: the inputs and the events to draw are more than 1,024 together, or there is no input to draw events \
         for, place 0; records written: 0\nnumber: 26\n",
    );
    assert!(!folder.path("none.sheet").exists());
}

/// The command's listings of generated sheets are the plain simulator's, in both editions.
#[test]
fn generated_runs() {
    let folder = Folder::new("generated_runs");
    let mut finished = 0;
    for edition in Edition::ALL {
        let mut generator = Generator::of(edition, 21);
        for _ in 0..150 {
            let input = generator.run_input();
            folder.write("card.sheet", &input.sheet);
            let horizon = input.horizon.to_string();
            let number = if edition == Edition::First { "1" } else { "2" };
            let ended = folder.timing(&[
                "run",
                "card.sheet",
                "--horizon",
                &horizon,
                "--edition",
                number,
            ]);
            let expected = plain_listing(edition, &input.sheet, input.horizon);
            assert_eq!(ended.status, i32::from(expected.starts_with("refused")));
            let told = ended.out.split("number: ").next();
            assert_eq!(told, Some(expected.as_str()));
            finished += u32::from(ended.status == 0);
        }
    }
    assert!(finished >= 100, "{finished}");
}

/// The sentence, and the records if the run finished, with n0, n1 .. for names.
fn plain_listing(edition: Edition, sheet: &[u8], horizon: u32) -> String {
    let mut room = vec![0; 4_000_000];
    let answer = plain::run(edition, sheet, horizon, &mut room);
    let sentence = plain::sentence(answer) + "\n";
    let [number, _, count] = answer.triple();
    if number != 0 {
        return sentence;
    }
    let records = generate::sheets::records(&room[..10 * count as usize]);
    let line = |(tick, node, value, end): (u32, u8, u8, u32)| {
        let letter = ['0', '1', 'X', 'Z'][usize::from(value)];
        format!("{tick} n{node} {letter} {end}\n")
    };
    sentence + &records.into_iter().map(line).collect::<String>()
}
