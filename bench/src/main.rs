//! Times decide and check of libhost.a against the second implementation, or against an older
//! libhost.a, on the same inputs, in one process, in turns. Prints two tables in Markdown; README.md
//! says how to read them, and `run` how it is built.

mod other;
mod plants;
mod timing;

use std::hint::black_box;

use other::{NAME, WHAT};
use plants::{creeping, ranged, spreading, whole, Timed};
use second::c_calls::host_ffi;
use second::held::compare::{written_table, MOST_ROOM};
use second::inputs::examples::{all_cut, plant_p, plant_p_cut, standing_pump, two_tank};
use second::reference::files::model_of_file;
use timing::{pair, Pair};

/// No plant here needs as many passes.
const LIMIT: u32 = 100_000;

/// What decide answers for a plant, and all times.
struct Row {
    passes: u32,
    other_passes: u32,
    /// Both gave the same number and the same table file.
    alike: bool,
    decide: Pair,
    check: Pair,
}

/// The numbers of both, and the other's table file. Ends the program if they differ though both have the same step.
fn answers(plant: &Timed, same_step: bool) -> (u64, u64, bool, Vec<u8>) {
    let (mut table, mut others) = (vec![0xC3; MOST_ROOM], vec![0xC3; MOST_ROOM]);
    let number = host_ffi::decide(&plant.model, &mut table, LIMIT);
    let other_number = other::decide(&plant.model, &mut others, LIMIT);
    let alike = number == other_number && table == others;
    assert!(alike || !same_step, "{}: the numbers or the tables differ", plant.name);
    assert_eq!((number >> 32, other_number >> 32), (100, 100), "{}: not safe", plant.name);
    let read = model_of_file(&plant.model).expect("a timed plant passes its questions");
    let length = written_table(&read.plant(), &others).len();
    others.truncate(length);
    (number, other_number, alike, others)
}

/// Both must accept the table: then check asks all its questions.
fn agreed_check(plant: &Timed, table: &[u8]) {
    let numbers = (host_ffi::check(&plant.model, table), other::check(&plant.model, table));
    assert_eq!(numbers, (100, 100), "{}: the table is not accepted", plant.name);
}

fn timed(plant: &Timed, same_step: bool) -> Row {
    let (number, other_number, alike, table) = answers(plant, same_step);
    agreed_check(plant, &table);
    let (mut file, mut others) = (vec![0; MOST_ROOM], vec![0; MOST_ROOM]);
    let model = &plant.model;
    let decide = pair(
        || {
            black_box(host_ffi::decide(black_box(model), &mut file, LIMIT));
        },
        || {
            black_box(other::decide(black_box(model), &mut others, LIMIT));
        },
    );
    let check = pair(
        || {
            black_box(host_ffi::check(black_box(model), black_box(&table)));
        },
        || {
            black_box(other::check(black_box(model), black_box(&table)));
        },
    );
    Row { passes: number as u32, other_passes: other_number as u32, alike, decide, check }
}

/// Times in microseconds, and their ratios: best of all rounds, then the median.
fn columns(pair: &Pair) -> String {
    format!(
        "{:.1} / {:.1} | {:.1} / {:.1} | {:.2} / {:.2}",
        pair.host.best,
        pair.host.median,
        pair.other.best,
        pair.other.median,
        pair.host.best / pair.other.best,
        pair.host.median / pair.other.median
    )
}

fn print_plants(plants: &[Timed], same_step: bool) {
    println!("Times in µs, best / median of the rounds; ratio: libhost.a to {WHAT}.\n");
    print!("| Plant | n | L | E | B | Answer | decide: libhost.a | {NAME} | ratio ");
    println!("| check: libhost.a | {NAME} | ratio |");
    println!("|---|---|---|---|---|---|---|---|---|---|---|---|");
    for plant in plants {
        let row = timed(plant, same_step);
        print!("| {} | {} | {} | {} ", plant.name, plant.variables, plant.locations, plant.switches);
        print!("| {} | safe {} ", plant.forbidden, passes_text(&row));
        println!("| {} | {} |", columns(&row.decide), columns(&row.check));
    }
}

/// The passes; marked if the other one has other passes or another table.
fn passes_text(row: &Row) -> String {
    if row.alike {
        format!("{}", row.passes)
    } else {
        format!("{} ({NAME}: {}) *", row.passes, row.other_passes)
    }
}

/// How time grows with the locations: per pass (one more than k is computed) and location.
fn print_growth(same_step: bool) {
    println!("\nCreeping plants, median times per pass and location in ns.\n");
    println!("| n | L | Passes | decide: libhost.a | {NAME} | check: libhost.a | {NAME} |");
    println!("|---|---|---|---|---|---|---|");
    for n in [2, 3, 6] {
        for locations in [1, 2, 4, 8, 16, 32, 64] {
            let row = timed(&Timed::new("growth", &creeping(n, locations, whole)), same_step);
            let each = locations as f64 / 1e3;
            let steps = |passes: u32| (passes + 1) as f64 * each;
            let (host, other) = (steps(row.passes), steps(row.other_passes));
            print!("| {n} | {locations} | {} ", passes_text(&row));
            print!("| {:.0} | {:.0} ", row.decide.host.median / host, row.decide.other.median / other);
            println!("| {:.0} | {:.0} |", row.check.host.median / each, row.check.other.median / each);
        }
    }
}

/// Does the other one know cuts? A library from before them refuses a cut's field by 8.
fn other_knows_cuts() -> bool {
    let cut = Timed::new("P cut", &plant_p_cut());
    other::decide(&cut.model, &mut vec![0; MOST_ROOM], 1) >> 32 != 8
}

/// Does the other one know edition 2? A library from before it refuses its first tag by 1.
fn other_knows_edition_2() -> bool {
    let of_edition_2 = Timed::new("P of edition 2", &ranged(plant_p()));
    other::decide(&of_edition_2.model, &mut vec![0; MOST_ROOM], 1) >> 32 != 1
}

/// Has the other one today's wall step? A library from before request T-06 needs other passes for this plant.
fn other_has_this_step() -> bool {
    let pump = Timed::new("standing pump", &standing_pump());
    let room = || vec![0; MOST_ROOM];
    other::decide(&pump.model, &mut room(), LIMIT) == host_ffi::decide(&pump.model, &mut room(), LIMIT)
}

fn main() {
    if !host_ffi::LINKED {
        println!("built without the feature `host`: nothing under test is linked in");
        std::process::exit(3);
    }
    let mut plants = vec![Timed::new("P", &plant_p()), Timed::new("two tanks", &two_tank(59))];
    for n in [2, 3, 6] {
        for locations in [1, 8, 64] {
            plants.push(Timed::new("spreading", &spreading(n, locations, whole)));
            plants.push(Timed::new("creeping", &creeping(n, locations, whole)));
        }
    }
    let knows_cuts = other_knows_cuts();
    if knows_cuts {
        for n in [2, 3, 6] {
            plants.push(Timed::new("spreading, cut", &spreading(n, 64, all_cut)));
            plants.push(Timed::new("creeping, cut", &creeping(n, 64, all_cut)));
        }
    }
    let knows_edition_2 = other_knows_edition_2();
    if knows_edition_2 {
        for n in [3, 6] {
            plants.push(Timed::new("creeping, ranges", &creeping(n, 64, ranged)));
        }
    }
    let same_step = other_has_this_step();
    print_plants(&plants, same_step);
    if !knows_cuts {
        println!("\nPlants with cuts are left out: {WHAT} refuses them.");
    }
    if !knows_edition_2 {
        println!("\nPlants of edition 2 are left out: {WHAT} refuses them.");
    }
    print_growth(same_step);
    println!("\nIn every line without a * both gave the same number and the same table file, and accepted it.");
    if !same_step {
        println!("Where a * stands they did not: decide's ratio is of other passes. Both accept the table of before.");
    }
}
