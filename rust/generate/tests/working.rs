//! Document 01's "Working" with document 02's W-209, taken literally: to work a module is to settle its
//! contribution over the cells as they then stand, and a node's cell stands at X until all its contributions
//! are settled. In any valid order that gives the cells of the equations.

use generate::drivers::has_several_drivers;
use generate::sheets::MEMORY;
use generate::{Generator, Size};
use plain::{in_set, join, rule, Edition, Module, Sheet, UNKNOWN};

const HORIZON: usize = 25;

/// The cells as they stand: `cells[tick][node]`. Those of later ticks are not there.
type Cells = Vec<Vec<u8>>;

/// A module's equation over the cells as they stand, or none where the initial value does.
fn equation(module: &Module, cells: &Cells, tick: usize) -> Option<u8> {
    let seen = tick.checked_sub(module.delay.into())?;
    let cell = |u: usize, node: u8| cells[u][usize::from(node)];
    if module.kind == MEMORY {
        let is_met = |u: &usize| in_set(module.parameter, cell(*u, module.second));
        return (0..=seen).rfind(is_met).map(|u| cell(u, module.first));
    }
    let values: Vec<u8> = module.used_inputs().map(|node| cell(seen, node)).collect();
    Some(rule(module.kind, module.parameter, &values))
}

/// Works the modules of one tick in this order. The inputs' cells are settled.
fn work(sheet: &Sheet, cells: &mut Cells, tick: usize, order: &[usize]) {
    let mut settled: Vec<Option<u8>> = vec![None; sheet.modules.len()];
    for &place in order {
        let module = &sheet.modules[place];
        let node = usize::from(module.output);
        let value = equation(module, cells, tick).unwrap_or(sheet.nodes[node]);
        settled[place] = Some(value);
        let given: Option<Vec<u8>> = sheet.drivers(module.output).map(|m| settled[m]).collect();
        if let Some(given) = given {
            cells[tick][node] = given.into_iter().reduce(join).expect("it is driven");
        }
    }
}

/// The cells that come of an order for each tick. Those of inputs are the equations'.
fn worked(sheet: &Sheet, expected: &Cells, mut order: impl FnMut() -> Vec<usize>) -> Cells {
    let mut cells = Cells::new();
    for (tick, expected) in expected.iter().enumerate() {
        let mut standing = vec![UNKNOWN; sheet.nodes.len()];
        for node in sheet.node_numbers().filter(|&node| !sheet.is_driven(node)) {
            standing[usize::from(node)] = expected[usize::from(node)];
        }
        cells.push(standing);
        work(sheet, &mut cells, tick, &order());
    }
    cells
}

/// Whether a module may be worked after these: one of delay zero comes after every module, delayed ones too,
/// that drives one of its used inputs.
fn is_ready(sheet: &Sheet, place: usize, done: &[usize]) -> bool {
    let module = &sheet.modules[place];
    let mut drivers = module.used_inputs().flat_map(|node| sheet.drivers(node));
    module.delay > 0 || drivers.all(|driver| done.contains(&driver))
}

/// Any valid order.
fn valid_order(generator: &mut Generator, sheet: &Sheet) -> Vec<usize> {
    let mut waiting = generator.order(sheet.modules.len());
    let mut done = Vec::new();
    while !waiting.is_empty() {
        let ready = waiting.iter().position(|&m| is_ready(sheet, m, &done));
        done.push(waiting.remove(ready.expect("an accepted sheet has no loop")));
    }
    done
}

/// Of sheets with several drivers a node: valid orders give the equations' cells, and the order as listed,
/// which need not be valid, gives others now and then.
fn any_valid_order(edition: Edition) {
    let mut generator = Generator::of(edition, 75);
    let [mut shared, mut otherwise] = [0; 2];
    for place in 0..2_000 {
        let sheet = generator.several_drivers(Size::Small);
        let by_node = plain::cells(&sheet, HORIZON as u32);
        let at = |tick: usize| by_node.iter().map(|cells| cells[tick]).collect();
        let expected: Cells = (0..HORIZON).map(at).collect();
        for _ in 0..3 {
            let cells = worked(&sheet, &expected, || valid_order(&mut generator, &sheet));
            assert_eq!(cells, expected, "sheet {place}: {sheet:?}");
        }
        let as_listed = worked(&sheet, &expected, || (0..sheet.modules.len()).collect());
        otherwise += u32::from(as_listed != expected);
        shared += u32::from(has_several_drivers(&sheet));
    }
    println!(
        "{edition:?}: {shared} with several drivers a node, {otherwise} other cells as listed"
    );
    assert!(shared >= 1_500 && otherwise >= 300, "{shared}, {otherwise}");
}

#[test]
fn any_valid_order_gives_the_equations_cells() {
    Edition::ALL.into_iter().for_each(any_valid_order);
}
