//! The sample models, and what random runs say of one of them.

use second::held::compare::written_table;
use second::held::simulate::{is_forbidden, is_run, random_run, travel, Configuration, Move, Run as OneRun, Travelled};
use second::inputs::draft::Draft;
use second::inputs::examples::{
    brine_tank, brine_tank_steadier, hand_filled, heated_vat, shut_off, store_and_vat, three_tanks, water_level,
    worn_pump, worthless_guard, worthless_wall, AT_THE_STIRRER, BY_HAND, OVER_THE_RIM, RUNS_DRY, RUNS_OVER,
};
use second::inputs::random::Random;
use second::inputs::samples;
use second::inputs::starts::{table_of_whole_boxes, touched_by_whole_boxes};
use second::reference::analysis::{run, Answer};
use second::reference::before;
use second::reference::files::{model_file, model_of_file, parse_table};
use second::reference::listing::{listing, LIMIT};
use second::reference::model::Plant;
use second::reference::narrower::narrower;
use second::reference::quote::{self, Quote};

type Run = fn(&Plant, u32, &mut [i32], &mut [i32]) -> (Answer, u32);

/// The first line of each listing.
#[test]
fn first_lines() {
    let expected = [
        ("plant-p", "safe 1 2"),
        ("plant-p-unknown", "unknown 0 0"),
        ("plant-p-no-start", "safe 0 0"),
        ("figure-1", "safe 1 2"),
        ("box-whole", "safe 2 5"),
        ("box-divided", "unknown 3 12"),
        ("two-tanks", "safe 15 75"),
        ("two-tanks-low-rim", "unknown 10 59"),
        ("water-level", "safe 7 12"),
        ("water-level-slow", "unknown 2 4"),
        ("dosing", "unfinished 1000 3"),
        ("largest", "safe 10 192"),
        ("plant-p-crossing", "safe 1 2"),
        ("plant-p-behind", "safe 0 0"),
        ("heated-vat", "safe 3 4"),
        ("plant-p-cut", "safe 1 3"),
        ("box-ends", "unknown 3 15"),
        ("box-ends-cut", "safe 12 21"),
        ("three-tanks", "unknown 2 5"),
        ("three-tanks-cut", "safe 3 8"),
        ("largest-cut", "safe 10 352"),
        ("standing-pump", "safe 6 5"),
        ("worn-pump", "safe 3 5"),
        ("worn-pump-over", "safe 3 5"),
        ("hand-filled", "safe 4 4"),
        ("hand-filled-stirrer", "unknown 2 3"),
        ("brine-tank", "safe 5 6"),
        ("brine-tank-steadier", "safe 3 5"),
        ("worthless-wall", "safe 1 2"),
        ("worthless-guard", "safe 3 5"),
        ("store-and-vat", "safe 15 19"),
        ("refused-empty", "refused 1"),
        ("refused-cut", "refused 7"),
        ("refused-trailing", "refused 8"),
        ("refused-level", "refused 11"),
        ("refused-start", "refused 13"),
        ("refused-at-wall", "refused 46"),
        ("refused-range", "refused 16"),
    ];
    let found: Vec<_> = samples::all().into_iter().map(|(name, file)| (name, listing(&file))).collect();
    assert_eq!(found.len(), expected.len());
    for ((name, text), (expected_name, line)) in found.iter().zip(expected) {
        assert_eq!((*name, text.lines().next()), (expected_name, Some(line)));
    }
}

/// What the C sample `quote` is expected to print of each sample model is what is quoted here.
#[test]
fn quotes() {
    let expected = std::fs::read_to_string(concat!(env!("CARGO_MANIFEST_DIR"), "/../c/quote.expected")).unwrap();
    for (name, file) in samples::all() {
        let begins = format!("models/{name}.model: ");
        let line = match model_of_file(&file) {
            Ok(model) => {
                let Quote { words, bytes, ceiling } = quote::of_plant(&model.plant());
                format!("{begins}at most {ceiling} passes, {words} words for the table, {bytes} bytes for its file")
            }
            Err(number) => format!("{begins}refused {number}: "),
        };
        let found: Vec<_> = expected.lines().filter(|found| found.starts_with(&begins)).collect();
        assert!(!found.is_empty() && found.iter().all(|found| found.starts_with(&line)), "{line}, {found:?}");
    }
}

/// What the C sample `draw` is to print with its float at a level.
fn said(float: i32) -> Vec<String> {
    let words = shut_off(float).words();
    let plant = match Plant::from_words(&words) {
        Ok(plant) => plant,
        Err(number) => return vec![format!("the plant: refused {number}: ")],
    };
    let file = model_file(&words);
    let mut buffer = vec![0; plant.table_file_room()];
    let number = second::reference::host::decide(&file, &mut buffer, LIMIT);
    let (answer, valve) = match number >> 32 {
        100 => ("safe", "can be left out"),
        101 => ("unknown", "stays"),
        code => panic!("{float}: answered {code}"),
    };
    vec![
        format!("model bytes {}", file.len()),
        format!("answer {answer}"),
        format!("passes {}", number as u32),
        format!("table bytes {}", written_table(&plant, &buffer).len()),
        format!("the second shut-off valve {valve}"),
    ]
}

/// What the C sample `draw` is expected to print, and the file that it is expected to save, are what is found here of
/// its plant: safe with the float up to 75, unknown from 76 up, refused below 10 and above 120.
#[test]
fn drawn() {
    let expected = std::fs::read_to_string(concat!(env!("CARGO_MANIFEST_DIR"), "/../c/draw.expected")).unwrap();
    let bytes = expected.lines().filter(|line| line.starts_with(' ')).flat_map(str::split_whitespace);
    let saved: Vec<u8> = bytes.map(|digits| u8::from_str_radix(digits, 16).unwrap()).collect();
    assert_eq!(saved, model_file(&shut_off(70).words()));
    let mut levels = Vec::new();
    for called in expected.split("$ draw ").skip(1) {
        let (words, printed) = called.split_once('\n').unwrap();
        let printed: Vec<_> = printed.lines().take_while(|line| !line.starts_with("status")).collect();
        if printed.is_empty() {
            continue;
        }
        let float = words.split(' ').next().unwrap().parse().unwrap();
        let said = said(float);
        assert!(printed.len() == said.len() && printed.iter().zip(&said).all(|(line, said)| line.starts_with(said)));
        levels.push(float);
    }
    assert_eq!(levels, [70, 70, 75, 76, 120, 121, 9, i32::MAX]);
    for float in 0..=130 {
        let answer = match float {
            10..=75 => "safe",
            76..=120 => "unknown",
            _ => "refused",
        };
        assert!(said(float).concat().contains(answer), "{float}");
    }
}

/// What check gives for each sample table.
#[test]
fn tables() {
    let models = samples::all();
    for (name, table, number) in samples::tables() {
        let model = name.split('.').next().unwrap();
        let (_, file) = models.iter().find(|(name, _)| *name == model).expect("a table's model is a sample");
        assert_eq!(second::reference::host::check(file, &table), number, "{name}");
    }
}

/// The sample models whose answer, k or table the cut of T-06 changed, with their answers of before; the
/// others have the same of all three.
#[test]
fn answers_of_before() {
    let changed = [
        ("box-whole", "safe 6"),
        ("box-divided", "unknown 3"),
        ("box-ends-cut", "safe 12"),
        ("standing-pump", "safe 4"),
        ("worn-pump", "unknown 1"),
        ("worn-pump-over", "safe 5"),
        ("store-and-vat", "safe 15"),
    ];
    let mut found = Vec::new();
    for (name, file) in samples::all() {
        let Ok(model) = model_of_file(&file) else {
            continue;
        };
        let plant = model.plant();
        let answer = |run: Run| {
            let (mut table, mut work) = (vec![0; plant.table_words()], vec![0; plant.table_words()]);
            let (answer, k) = run(&plant, LIMIT, &mut table, &mut work);
            (format!("{} {k}", answer.word()), table)
        };
        let (then, now) = (answer(before::run), answer(run));
        if then != now {
            found.push((name, then.0));
        }
    }
    assert_eq!(found, changed.map(|(name, answer)| (name, answer.to_string())));
}

/// The worn pump: with no delays but those that the vat can live with at least 40 is left in the store. The
/// answer's table was refused by 33 before, and the one of before is accepted as it was then.
#[test]
fn worn_pump_with_a_vat() {
    let text = listing(&model_file(&worn_pump(RUNS_DRY).words()));
    assert_eq!(
        text,
        "safe 3 5\n0 1 100 100 57 100 40 93\n0 3 75 100 100 100 40 93\n1 0 0 0 57 100 40 93\n\
         1 1 100 100 57 100 40 93\n1 3 0 100 100 100 40 93\n"
    );
    let tables = samples::tables();
    let asked_before = |draft: Draft, name: &str| {
        let words = draft.words();
        let plant = Plant::from_words(&words).unwrap();
        let (_, file, _) = tables.iter().find(|(found, ..)| *found == name).unwrap();
        before::ask_table(&plant, &parse_table(&plant, file).unwrap())
    };
    assert_eq!(asked_before(worn_pump(RUNS_DRY), "worn-pump"), Err(33));
    assert_eq!(asked_before(worn_pump(RUNS_DRY), "worn-pump.wider"), Err(34));
    assert_eq!(asked_before(worn_pump(RUNS_OVER), "worn-pump-over"), Err(33));
    assert_eq!(asked_before(worn_pump(RUNS_OVER), "worn-pump-over.wider"), Ok(()));
}

/// The three tanks' tables: one box for both recipes, and the two pieces of it.
#[test]
fn three_tanks_whole_and_cut() {
    let text = |cut| listing(&model_file(&three_tanks(cut).words()));
    assert_eq!(
        text(false),
        "unknown 2 5\n0 0 0 0 1 2 6 7\n0 1 10 10 1 2 6 7\n1 0 0 0 6 7 1 2\n1 1 10 10 6 7 1 2\n2 1 10 10 1 7 1 7\n"
    );
    assert_eq!(
        text(true),
        "safe 3 8\n0 0 0 0 0 1 2 6 7\n0 1 0 10 10 1 2 6 7\n1 0 0 0 0 6 7 1 2\n1 1 0 10 10 6 7 1 2\n\
         2 0 0 0 0 1 4 6 9\n2 0 1 0 0 6 9 1 4\n2 1 0 10 10 1 2 6 7\n2 1 1 10 10 6 7 1 2\n"
    );
}

/// The heated vat is safe from what of its start box lies below the rim, and would be unknown from the whole
/// box, as it is under a rim that holds the box.
#[test]
fn heated_vat_below_the_rim() {
    let words = heated_vat(100).words();
    assert_eq!(
        listing(&model_file(&words)),
        "safe 3 4\n0 0 0 0 60 225\n0 1 100 100 20 25\n1 0 0 0 20 20\n1 1 100 100 20 20\n"
    );
    let plant = Plant::from_words(&words).unwrap();
    let (whole, at_rest) = table_of_whole_boxes(&plant, 100);
    assert!(at_rest && touched_by_whole_boxes(&plant, &whole));
    // A heat of up to 285 in the empty vat, instead of 225.
    assert_eq!(whole[..5], [1, 0, 0, 60, 285]);
    assert_eq!(listing(&model_file(&heated_vat(130).words())), "unknown 0 0\n");
}

/// The cup filled by hand: below the rim with a dose of 2 to 5, and over it with one of 6. A run is at the stirrer only
/// with a dose of 7/2, which is strictly inside the range, and no whole number: the plant is unknown though it is safe
/// with the least dose alone and with the most alone.
#[test]
fn a_cup_filled_by_hand() {
    let text = |dose, forbidden| listing(&model_file(&hand_filled(dose, forbidden).words()));
    assert_eq!(text(BY_HAND, OVER_THE_RIM), "safe 4 4\n0 0 0 0 0 0\n0 2 0 10 0 0\n1 0 0 0 2 5\n1 2 4 10 0 0\n");
    assert_eq!(text([2, 6], OVER_THE_RIM), "unknown 2 3\n0 0 0 0 0 0\n0 2 0 8 0 0\n1 0 0 0 2 6\n");
    assert_eq!(text(BY_HAND, AT_THE_STIRRER), "unknown 2 3\n0 0 0 0 0 0\n0 2 0 8 0 0\n1 0 0 0 2 5\n");
    for dose in [[2, 2], [3, 3], [4, 4], [5, 5], [2, 3], [4, 5]] {
        assert!(text(dose, AT_THE_STIRRER).starts_with("safe"), "{dose:?}");
    }
    let words = hand_filled(BY_HAND, AT_THE_STIRRER).words();
    let plant = Plant::from_words(&words).unwrap();
    let at = |location: usize, vat: i64, cup: i64| Configuration { location, levels: vec![vat, cup] };
    let moves = vec![(Move::Delay(16), at(0, 0, 0)), (Move::Switch(0), at(1, 0, 7)), (Move::Delay(7), at(1, 14, 0))];
    let run = OneRun { denominator: 2, first: at(0, 16, 0), moves };
    assert!(is_run(&plant, &run));
    let met: Vec<bool> = run.moves.iter().map(|(_, at)| is_forbidden(&plant, 2, at)).collect();
    assert_eq!(met, [false, false, true]);
    // In whole numbers no run meets it.
    let mut random = Random::new(44);
    for _ in 0..500 {
        let run = random_run(&plant, &mut random, 1, 12).unwrap();
        assert!(run.moves.iter().all(|(_, at)| !is_forbidden(&plant, 1, at)));
    }
}

/// The tank of brine and the one with a steadier pump, word by word. The second is narrower than the first, and not the
/// other way round; the first is unknown without its cut.
#[test]
fn a_tank_of_brine_and_a_steadier_pump() {
    let (first, second) = (brine_tank().words(), brine_tank_steadier().words());
    let walls = [0, 100, 0, 100];
    let full = |guard: i32, reset: [i32; 2]| [0, 1, 0, 1, 1, 2, 100, 100, 0, guard, 100, 100, reset[0], reset[1]];
    let empty = [1, 0, 0, 0, 0, 0, 0, 0, 0, 100, 0, 0, 0, 100];
    let cuts = [-1, 0, 1, 60];
    let filled = [&walls[..], &[2, 6, -1, 0, 1, 0, 10, 20, 30]].concat();
    let emptied = [&walls[..], &[-5, -4, 0, 0, 1, 50, 60, 70, 80]].concat();
    let doses = [full(100, [20, 40]), full(100, [10, 15])].concat();
    let boxes = [1, 0, 100, 45, 65];
    assert_eq!(first, [&[2, 2, 3, 1, 2], &filled[..], &emptied, &doses, &empty, &boxes, &cuts].concat());
    let filled = [&walls[..], &[3, 4, -1, 0, 1, 0, 5, 25, 30]].concat();
    let emptied = [&walls[..], &[-5, -5, 0, 0, 0, 0, 0, 0, 0]].concat();
    let boxes = [1, 0, 100, 45, 55, 1, 20, 80, 50, 65];
    assert_eq!(second, [&[2, 2, 2, 2, 1], &filled[..], &emptied, &empty, &full(50, [30, 30]), &boxes, &cuts].concat());
    let [first, second] = [&first, &second].map(|words| Plant::from_words(words).unwrap());
    assert!(narrower(&first, &second) && !narrower(&second, &first));
    let whole = Draft { cuts: vec![], ..brine_tank() };
    assert!(listing(&model_file(&whole.words())).starts_with("unknown 3 "));
}

/// Runs of the water-level plant against its answer's table, or against no faces at all.
fn travelled(lag: i32, with_table: bool) -> Travelled {
    let words = water_level(lag).words();
    let plant = Plant::from_words(&words).unwrap();
    let mut table = vec![0; plant.table_words()];
    if with_table {
        let mut work = table.clone();
        run(&plant, 1_000, &mut table, &mut work);
    }
    travel(&plant, &table, &mut Random::new(9), 200)
}

#[test]
fn runs_find_what_is_there_to_find() {
    let safe = travelled(20, true);
    assert!(safe.runs == 200 && safe.switches > 400, "{safe:?}");
    assert_eq!((safe.forbidden, safe.unreached), (0, 0));
    assert!(travelled(20, false).unreached > 0);
    assert!(travelled(25, true).forbidden > 0);
}

/// The plants that are safe and worthless are unknown once they are drawn with room above the rim, and with a switch
/// that takes all that arrives.
#[test]
fn what_safe_does_not_say() {
    let text = |draft: &Draft| listing(&model_file(&draft.words()));
    let mut over = worthless_wall();
    assert_eq!(text(&over), "safe 1 2\n0 0 30 30\n0 1 100 100\n");
    over.locations[0].invariant[1] = 120;
    over.forbidden[0].1[0] = 100;
    assert!(text(&over).starts_with("unknown 0 "));
    let lines = "safe 3 5\n0 0 0 0 20 20\n0 1 80 80 36 60\n0 2 0 0 20 20\n1 0 0 0 46 50\n1 1 80 80 36 40\n";
    assert_eq!(text(&worthless_guard(40)), lines);
    assert!(text(&worthless_guard(54)).starts_with("safe ") && text(&worthless_guard(55)).starts_with("unknown 2 "));
    assert!(text(&worthless_guard(100)).starts_with("unknown 2 "));
}

/// What docs/MODELLING.md says of its plant: the words and the listing, which stand there indented; that it is unknown
/// with a run-out of 4, but not if the vat ends below its rim; and unknown with a clock that stands still in location 3.
#[test]
fn modelling() {
    let paper = std::fs::read_to_string(concat!(env!("CARGO_MANIFEST_DIR"), "/../../docs/MODELLING.md")).unwrap();
    let indented = paper.lines().filter_map(|line| line.strip_prefix("    "));
    let (words, lines): (Vec<_>, Vec<_>) = indented.partition(|line| line.contains(", "));
    let numbers = words.iter().flat_map(|line| line.split(',')).filter_map(|word| word.trim().parse::<i32>().ok());
    let draft = store_and_vat(2);
    assert_eq!(numbers.collect::<Vec<_>>(), draft.words());
    assert_eq!(lines.join("\n") + "\n", listing(&model_file(&draft.words())));
    let mut longer = store_and_vat(4);
    assert!(listing(&model_file(&longer.words())).starts_with("unknown "));
    longer.locations[2..].iter_mut().for_each(|location| location.invariant[1] = 99);
    assert!(listing(&model_file(&longer.words())).starts_with("safe "));
    let mut standing = draft;
    standing.locations[3].invariant[5] = 0;
    standing.locations[3].rates[4..].fill(0);
    for switch in &mut standing.switches[3..5] {
        switch.guard[5] = 0;
    }
    assert!(listing(&model_file(&standing.words())).starts_with("unknown "));
}
