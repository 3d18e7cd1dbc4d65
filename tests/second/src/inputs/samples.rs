//! The sample model files and table files of the folder `models`.

use crate::inputs::draft::Draft;
use crate::inputs::examples::{
    all_cut, box_ends, brine_tank, brine_tank_steadier, dosing, figure_1, guarded_box, hand_filled, heated_vat,
    large_grid, plant_p, plant_p_behind, plant_p_cut, plant_p_cut_table, plant_p_from, plant_p_table, plant_p_unknown,
    plant_p_wider, standing_pump, store_and_vat, three_tanks, two_tank, water_level, worn_pump, worthless_guard,
    worthless_wall, AT_THE_STIRRER, BY_HAND, OVER_THE_RIM, RUNS_DRY, RUNS_OVER,
};
use crate::reference::analysis::{run, Answer};
use crate::reference::before;
use crate::reference::files::{field, model_file, table_file, FACE, TABLE_HEAD};
use crate::reference::model::{Edition, Plant};

/// Every sample by name.
pub fn all() -> Vec<(&'static str, Vec<u8>)> {
    let mut samples: Vec<_> = answered().into_iter().map(|(name, draft)| (name, model_file(&draft.words()))).collect();
    samples.extend(refused());
    samples
}

/// Samples that are answered.
fn answered() -> Vec<(&'static str, Draft)> {
    let mut no_start = plant_p();
    no_start.locations[0].start = None;
    vec![
        ("plant-p", plant_p()),
        ("plant-p-unknown", plant_p_unknown()),
        ("plant-p-no-start", no_start),
        ("figure-1", figure_1()),
        ("box-whole", guarded_box(false)),
        ("box-divided", guarded_box(true)),
        ("two-tanks", two_tank(59)),
        ("two-tanks-low-rim", two_tank(45)),
        ("water-level", water_level(20)),
        ("water-level-slow", water_level(25)),
        ("dosing", dosing(5_000)),
        ("largest", large_grid(6, 3)),
        ("plant-p-crossing", plant_p_from([0, 0, 2, 15])),
        ("plant-p-behind", plant_p_behind(10)),
        ("heated-vat", heated_vat(100)),
        ("plant-p-cut", plant_p_cut()),
        ("box-ends", box_ends(false)),
        ("box-ends-cut", box_ends(true)),
        ("three-tanks", three_tanks(false)),
        ("three-tanks-cut", three_tanks(true)),
        ("largest-cut", all_cut(large_grid(6, 3))),
        ("standing-pump", standing_pump()),
        ("worn-pump", worn_pump(RUNS_DRY)),
        ("worn-pump-over", worn_pump(RUNS_OVER)),
        ("hand-filled", hand_filled(BY_HAND, OVER_THE_RIM)),
        ("hand-filled-stirrer", hand_filled(BY_HAND, AT_THE_STIRRER)),
        ("brine-tank", brine_tank()),
        ("brine-tank-steadier", brine_tank_steadier()),
        ("worthless-wall", worthless_wall()),
        ("worthless-guard", worthless_guard(40)),
        ("store-and-vat", store_and_vat(2)),
    ]
}

/// Samples that are refused.
fn refused() -> Vec<(&'static str, Vec<u8>)> {
    let p = model_file(&plant_p().words());
    let mut too_high = plant_p();
    too_high.locations[0].invariant[3] = 1_000_001;
    let mut trailing = p.clone();
    trailing.push(0);
    let too_far = plant_p_from([0, 0, 2, 1_000_001]);
    let at_wall = Draft { cuts: vec![(0, 0, 10)], ..plant_p() };
    let range = Draft { edition: Edition::One, ..hand_filled(BY_HAND, OVER_THE_RIM) };
    vec![
        ("refused-empty", vec![]),
        ("refused-cut", p[..p.len() - 1].to_vec()),
        ("refused-trailing", trailing),
        ("refused-level", model_file(&too_high.words())),
        ("refused-start", model_file(&too_far.words())),
        ("refused-at-wall", model_file(&at_wall.words())),
        ("refused-range", model_file(&range.words())),
    ]
}

/// Sample tables, each with the number that check gives for it and its model, which is named by the
/// words before the dot.
pub fn tables() -> Vec<(&'static str, Vec<u8>, u64)> {
    let table_of_p = |change: fn(&mut Vec<i32>)| {
        let words = plant_p().words();
        let mut table = plant_p_table();
        change(&mut table);
        table_file(&Plant::from_words(&words).expect("P passes its questions"), &table)
    };
    let whole = table_of_p(|_| {});
    let mut all = vec![
        ("plant-p", whole.clone(), 100),
        ("plant-p.wider", table_of_p(|table| *table = plant_p_wider()), 100),
        ("plant-p.narrow", table_of_p(|table| table[16] = 3), 33),
        ("plant-p.off-wall", table_of_p(|table| table[18] = 9), 32),
        ("plant-p.cut", whole[..whole.len() - 1].to_vec(), 36),
        ("plant-p-unknown", whole, 34),
        ("two-tanks", answers_table(&two_tank(59)), 100),
        ("plant-p-crossing", answers_table(&plant_p_from([0, 0, 2, 15])), 100),
        ("plant-p-crossing.narrow", table_of_p(|_| {}), 33),
        ("plant-p-behind", answers_table(&plant_p_behind(10)), 100),
        ("heated-vat", answers_table(&heated_vat(100)), 100),
        ("plant-p-cut", plant_p_cut_file(), 100),
        ("three-tanks-cut", answers_table(&three_tanks(true)), 100),
        ("three-tanks-cut.exchanged", three_tanks_file(exchange), 32),
        ("three-tanks-cut.own-wall", three_tanks_file(|pieces| pieces.push(vec![2, 2, 1, 5, 5, 0, 0, 3, 3])), 32),
        ("three-tanks-cut.no-pieces", three_tanks_file(leave_out), 36),
        ("three-tanks-cut.not-cut", three_tanks_file(|pieces| pieces[1][2] = 1), 37),
        ("standing-pump", answers_table(&standing_pump()), 100),
        ("worn-pump", answers_table(&worn_pump(RUNS_DRY)), 100),
        ("worn-pump.wider", table_of_before(&worn_pump(RUNS_OVER)), 34),
        ("worn-pump-over", answers_table(&worn_pump(RUNS_OVER)), 100),
        ("worn-pump-over.wider", table_of_before(&worn_pump(RUNS_OVER)), 100),
        ("hand-filled", answers_table(&hand_filled(BY_HAND, OVER_THE_RIM)), 100),
        ("hand-filled.low", answers_table(&hand_filled([2, 2], OVER_THE_RIM)), 33),
        ("hand-filled-stirrer", answers_table(&hand_filled(BY_HAND, OVER_THE_RIM)), 34),
    ];
    all.extend(tables_of_a_pair());
    all
}

/// The tables of a plant and of a narrower one (document 02, T-13), each with both models.
fn tables_of_a_pair() -> [(&'static str, Vec<u8>, u64); 4] {
    let [first, second] = [brine_tank(), brine_tank_steadier()].map(|draft| answers_table(&draft));
    [
        ("brine-tank", first.clone(), 100),
        ("brine-tank.steadier", second.clone(), 33),
        ("brine-tank-steadier", second, 100),
        ("brine-tank-steadier.first", first, 100),
    ]
}

/// The table file of P cut at x = 5.
fn plant_p_cut_file() -> Vec<u8> {
    let words = plant_p_cut().words();
    table_file(&Plant::from_words(&words).expect("P passes its questions when it is cut"), &plant_p_cut_table())
}

/// The words of the fields of a table file.
type Records = Vec<Vec<i32>>;

/// The table file of the three tanks, cut, with its pieces (location, face, piece, box) changed.
fn three_tanks_file(change: fn(&mut Records)) -> Vec<u8> {
    let (first, second) = (vec![1, 2, 6, 7], vec![6, 7, 1, 2]);
    let piece =
        |location: i32, face: i32, piece: i32, x: i32, vats: &[i32]| [&[location, face, piece, x, x], vats].concat();
    let mut pieces = vec![
        piece(0, 0, 0, 0, &first),
        piece(0, 1, 0, 10, &first),
        piece(1, 0, 0, 0, &second),
        piece(1, 1, 0, 10, &second),
        piece(2, 0, 0, 0, &[1, 4, 6, 9]),
        piece(2, 0, 1, 0, &[6, 9, 1, 4]),
        piece(2, 1, 0, 10, &first),
        piece(2, 1, 1, 10, &second),
    ];
    change(&mut pieces);
    let mut file = field(TABLE_HEAD, &[pieces.len() as i32]);
    pieces.iter().for_each(|record| file.extend(field(FACE, record)));
    file
}

/// The two pieces on the full measuring tank, each with the other's box.
fn exchange(pieces: &mut Records) {
    let (before, after) = pieces.split_at_mut(7);
    before[6][3..].swap_with_slice(&mut after[0][3..]);
}

/// Every field without its piece.
fn leave_out(pieces: &mut Records) {
    pieces.iter_mut().for_each(|record| {
        record.remove(2);
    });
}

/// The file of a plant's table after all its passes.
fn answers_table(draft: &Draft) -> Vec<u8> {
    table_by(draft, run)
}

/// The same with the wall steps of before T-06.
fn table_of_before(draft: &Draft) -> Vec<u8> {
    table_by(draft, before::run)
}

fn table_by(draft: &Draft, run: fn(&Plant, u32, &mut [i32], &mut [i32]) -> (Answer, u32)) -> Vec<u8> {
    let words = draft.words();
    let plant = Plant::from_words(&words).expect("a sample passes its questions");
    let mut table = vec![0; plant.table_words()];
    let mut work = table.clone();
    run(&plant, 1_000, &mut table, &mut work);
    table_file(&plant, &table)
}
