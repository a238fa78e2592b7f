//! The loops that a network was made with are the loops that are found.

use generate::sheets::{AND, INVERTER, MEMORY};
use generate::{Generator, ZeroDelay};
use plain::{check, Answer, Edition, Module, Sheet};

fn found_as_made(edition: Edition, network: &ZeroDelay) {
    let expected = match network.on_loops.iter().min() {
        Some(&node) => [18, u32::from(node), 0],
        None => Answer::Ran { count: 0 }.triple(),
    };
    let answer = check(edition, &network.sheet.encode(edition)).triple();
    assert_eq!(answer, expected, "{:?}", network.sheet);
}

fn rings(edition: Edition, next: fn(&mut Generator) -> ZeroDelay) {
    let mut generator = Generator::of(edition, 10);
    let mut without = 0;
    for _ in 0..20_000 {
        let network = next(&mut generator);
        found_as_made(edition, &network);
        without += usize::from(network.on_loops.is_empty());
    }
    assert!(
        (5_000..=10_000).contains(&without),
        "{without} have no loop"
    );
}

#[test]
fn rings_among_other_modules() {
    for edition in Edition::ALL {
        rings(edition, Generator::zero_delay);
        rings(edition, Generator::zero_delay_of_several_drivers);
    }
}

/// The sheet with only the first or only the last of each node's drivers.
fn of_one_driver(sheet: &Sheet, is_last: bool) -> Sheet {
    let mut modules: Vec<Module> = Vec::new();
    for &module in &sheet.modules {
        let known = modules
            .iter_mut()
            .find(|known| known.output == module.output);
        match known {
            Some(known) if is_last => *known = module,
            Some(_) => {}
            None => modules.push(module),
        }
    }
    Sheet {
        modules,
        ..sheet.clone()
    }
}

/// Loops that whoever knows one driver of each node does not find, or finds elsewhere.
#[test]
fn loops_over_any_of_several_drivers() {
    for edition in Edition::ALL {
        let mut generator = Generator::of(edition, 14);
        let mut met = [0; 2];
        for _ in 0..20_000 {
            let ZeroDelay { sheet, on_loops } = generator.zero_delay_of_several_drivers();
            let is_shared = |node: &u8| sheet.drivers(*node).count() > 1;
            if !on_loops.iter().any(is_shared) {
                continue;
            }
            let answer = |sheet: &Sheet| check(edition, &sheet.encode(edition));
            for (met, is_last) in met.iter_mut().zip([false, true]) {
                let one = answer(&of_one_driver(&sheet, is_last));
                *met += u32::from(one != answer(&sheet));
            }
        }
        println!("{edition:?}: {met:?} loops are hidden from the first and the last driver");
        assert!(met.iter().all(|&met| met >= 500), "{met:?}");
    }
}

#[test]
fn unused_inputs_close_no_loop() {
    for edition in Edition::ALL {
        let mut generator = Generator::of(edition, 11);
        for _ in 0..5_000 {
            let network = generator.closed_by_unused_inputs();
            assert_eq!(network.on_loops, []);
            // Node 0 is driven without delay by a module that lacks an input of the record.
            let drivers: Vec<usize> = network.sheet.drivers(0).collect();
            let driver = &network.sheet.modules[drivers[0]];
            assert_eq!(driver.delay, 0);
            let lacks = match edition {
                Edition::First => INVERTER,
                Edition::Second => MEMORY,
            };
            assert!(driver.kind <= lacks, "{driver:?}");
            found_as_made(edition, &network);
        }
    }
}

#[test]
fn tangles_have_loops_and_have_none() {
    for edition in Edition::ALL {
        let mut generator = Generator::of(edition, 12);
        let mut looped = 0;
        for _ in 0..5_000 {
            let bytes = generator.tangle().encode(edition);
            let [number, ..] = check(edition, &bytes).triple();
            assert!(number == 0 || number == 18);
            looped += usize::from(number == 18);
        }
        assert!((1_000..=4_000).contains(&looped), "{looped} have a loop");
    }
}

/// The sheet without its third inputs: an AND stands for each kind that has three.
fn without_third_inputs(sheet: &Sheet) -> Sheet {
    let mut sheet = sheet.clone();
    for module in sheet.modules.iter_mut().filter(|m| m.kind > MEMORY) {
        *module = Module {
            kind: AND,
            third: 0,
            ..*module
        };
    }
    sheet
}

/// Counts the sheets of a family that a loop makes refused, and those of them that are accepted, or
/// refused elsewhere, for whoever does not follow third inputs.
fn by_third_inputs(name: &str, next: fn(&mut Generator) -> Sheet) {
    let mut generator = Generator::of(Edition::Second, 13);
    let [mut looped, mut hidden, mut elsewhere] = [0; 3];
    for _ in 0..10_000 {
        let sheet = next(&mut generator);
        let answer = |sheet: &Sheet| check(Edition::Second, &sheet.encode(Edition::Second));
        let [whole, without] = [&sheet, &without_third_inputs(&sheet)].map(answer);
        looped += u32::from(whole.triple()[0] == 18);
        hidden += u32::from(whole != without && without.triple()[0] == 0);
        elsewhere += u32::from(whole != without && without.triple()[0] == 18);
    }
    println!(
        "{name}: {looped} have a loop, {hidden} by third inputs alone, {elsewhere} the least node"
    );
    assert!(
        hidden >= 300 && elsewhere >= 200,
        "{name}: {hidden}, {elsewhere}"
    );
}

#[test]
fn third_inputs_alone_close_loops() {
    by_third_inputs("rings", |generator| generator.zero_delay().sheet);
    by_third_inputs("tangles", Generator::tangle);
}
