//! The examples of source 000 (report ERL M99/12).

use second::held::simulate::{is_forbidden, is_reached, is_run, random_run};
use second::inputs::examples::*;
use second::inputs::random::Random;
use second::reference::analysis::Answer;
use second::reference::calls::{self, Buffers};
use second::reference::ceiling;
use second::reference::model::{Plant, MAX_BOX};
use second::reference::steps::wall_step;

fn run(words: &[i32]) -> (Answer, u32, Vec<i32>) {
    run_under(words, 100_000)
}

fn run_under(words: &[i32], limit: u32) -> (Answer, u32, Vec<i32>) {
    let size = Plant::from_words(words).unwrap().table_words();
    let lent = Buffers { table: vec![1; size], work: vec![1; size] };
    let (outcome, after) = calls::analysis(words, limit, lent);
    let (answer, k) = outcome.unwrap();
    (answer, k, after.table)
}

/// The bounds of a face of a location without a cut, or None if it is absent.
fn face(words: &[i32], table: &[i32], l: usize, face: usize) -> Option<Vec<i32>> {
    let plant = Plant::from_words(words).unwrap();
    let found = &table[plant.face_places(l, face)];
    (found[0] == 1).then(|| found[1..].to_vec())
}

#[test]
fn figure_1_as_a_plant() {
    let words = figure_1().words();
    let (answer, _, table) = run(&words);
    assert_eq!(answer, Answer::Safe);
    assert_eq!(face(&words, &table, 0, 0), Some(vec![1, 1, 2, 5])); // F1
    assert_eq!(face(&words, &table, 0, 3), Some(vec![2, 6, 7, 7])); // F2
    assert_eq!(face(&words, &table, 0, 2), None); // y = 1 is empty
    assert_eq!(face(&words, &table, 0, 1), None); // x = 7 is empty
}

/// Section 3.4, lengths times two: the faces, step by step.
#[test]
fn section_3_4_step_by_step() {
    let rates = [1; 6];
    let step = |part: [i32; 6], invariant: [i32; 6], d, b| {
        let mut out = [0; MAX_BOX];
        assert!(wall_step(3, &part, &rates, &invariant, d, b, &mut out));
        out[..6].to_vec()
    };
    let whole = [0, 4, 0, 4, 0, 8];
    let (low, right, high) = ([0, 2, 0, 2, 0, 8], [2, 4, 0, 2, 0, 8], [2, 4, 2, 4, 0, 8]);
    // Not divided.
    assert_eq!(step([0, 2, 0, 0, 0, 0], whole, 0, 4), [4, 4, 2, 4, 2, 4]);
    // Divided: F1, F2, FR.
    assert_eq!(step([0, 2, 0, 0, 0, 0], low, 0, 2), [2, 2, 0, 2, 0, 2]);
    assert_eq!(step([2, 2, 0, 2, 0, 2], right, 1, 2), [2, 4, 2, 2, 0, 4]);
    assert_eq!(step([2, 4, 2, 2, 0, 4], high, 0, 4), [4, 4, 2, 4, 0, 6]);
    // Split, first half: F1', F2', FR'.
    assert_eq!(step([1, 2, 0, 0, 0, 0], low, 0, 2), [2, 2, 0, 1, 0, 1]);
    assert_eq!(step([2, 2, 0, 1, 0, 1], right, 1, 2), [3, 4, 2, 2, 1, 3]);
    assert_eq!(step([3, 4, 2, 2, 1, 3], high, 0, 4), [4, 4, 2, 3, 1, 4]);
    // Split, second half.
    assert_eq!(step([0, 1, 0, 0, 0, 0], low, 0, 2), [2, 2, 1, 2, 1, 2]);
    assert_eq!(step([2, 2, 1, 2, 1, 2], right, 1, 2), [2, 3, 2, 2, 1, 3]);
    assert_eq!(step([2, 3, 2, 2, 1, 3], high, 0, 4), [4, 4, 3, 4, 2, 5]);
}

/// The same as plants. The base holds one box on each wall, so the two halves of the split
/// are two plants. Each of the report's faces stands in the table at the first pass that
/// reaches it; later passes add the steps from one wall of a location to another, which
/// the report's chain of three does not take.
#[test]
fn section_3_4_as_plants() {
    let at_pass = |words: &[i32], k: u32, l, number| {
        let (_, passes, table) = run_under(words, k);
        assert_eq!(passes, k);
        face(words, &table, l, number)
    };
    let words = whole_box((0, 2)).words();
    assert_eq!(at_pass(&words, 1, 0, 1), Some(vec![4, 4, 2, 4, 2, 4]));

    for (start, f1, f2, fr) in [
        ((0, 2), vec![2, 2, 0, 2, 0, 2], vec![2, 4, 2, 2, 0, 4], vec![4, 4, 2, 4, 0, 6]),
        ((1, 2), vec![2, 2, 0, 1, 0, 1], vec![3, 4, 2, 2, 1, 3], vec![4, 4, 2, 3, 1, 4]),
        ((0, 1), vec![2, 2, 1, 2, 1, 2], vec![2, 3, 2, 2, 1, 3], vec![4, 4, 3, 4, 2, 5]),
    ] {
        let words = divided_box(start).words();
        assert_eq!(at_pass(&words, 1, 1, 0), None);
        assert_eq!(at_pass(&words, 2, 1, 0), Some(f1));
        assert_eq!(at_pass(&words, 3, 3, 2), None);
        assert_eq!(at_pass(&words, 4, 3, 2), Some(f2));
        assert_eq!(at_pass(&words, 4, 3, 1), None);
        assert_eq!(at_pass(&words, 5, 3, 1), Some(fr));
        let (answer, k, table) = run(&words);
        assert_eq!(answer, Answer::Safe);
        assert!(k as u64 <= calls::ceiling(&words).unwrap());
        assert_eq!(calls::checker(&words, &table), Ok(()));
    }
}

/// Section 3.4 from the two ends of its start: as one box on x = 2 the report's F1, and from it F2; with
/// location 1 cut at y = 1 two pieces, and the far wall's t begins where runs do.
#[test]
fn section_3_4_in_pieces() {
    let words = box_ends(false).words();
    let (answer, k, table) = run(&words);
    assert_eq!((answer, k), (Answer::Unknown, 3));
    assert_eq!(face(&words, &table, 1, 0), Some(vec![2, 2, 0, 2, 0, 2]));
    assert_eq!(face(&words, &table, 1, 3), Some(vec![2, 4, 2, 2, 0, 4]));

    let words = box_ends(true).words();
    let plant = Plant::from_words(&words).unwrap();
    let (_, _, table) = run_under(&words, 2);
    let pieces = &table[plant.face_places(1, 0)];
    assert_eq!(pieces, [1, 2, 2, 0, 0, 0, 0, 1, 2, 2, 2, 2, 2, 2]);
    let (answer, _, table) = run(&words);
    assert_eq!(answer, Answer::Safe);
    assert_eq!(face(&words, &table, 3, 1), Some(vec![4, 4, 2, 4, 2, 8]));
    assert_eq!(calls::checker(&words, &table), Ok(()));
}

#[test]
fn two_tanks() {
    let words = two_tank(59).words();
    let plant = Plant::from_words(&words).unwrap();
    let (answer, k, table) = run(&words);
    assert_eq!((answer, k), (Answer::Safe, 15));
    let present = table.chunks(plant.sizes.face_words()).filter(|face| face[0] == 1).count();
    assert_eq!((plant.sizes.locations, plant.sizes.switches, present), (36, 90, 75));
    assert!(k as u64 <= ceiling::of_plant(&plant));
    assert_eq!(calls::checker(&words, &table), Ok(()));
    let mut random = Random::new(4);
    let mut switches = 0;
    for _ in 0..300 {
        let run = random_run(&plant, &mut random, 60, 40).unwrap();
        assert!(is_run(&plant, &run));
        switches += run.moves.iter().filter(|m| matches!(m.0, second::held::simulate::Move::Switch(_))).count();
        for at in std::iter::once(&run.first).chain(run.moves.iter().map(|m| &m.1)) {
            assert!(!is_forbidden(&plant, 60, at));
            assert!(is_reached(&plant, &table, 60, at));
        }
    }
    assert!(switches > 300, "{switches}");
}
