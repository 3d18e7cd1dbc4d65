//! All cases of document 01's section "Plant P and other cases", and the order of questions.

use second::inputs::draft::{Draft, LocationDraft, SwitchDraft};
use second::inputs::examples::*;
use second::reference::analysis::Answer;
use second::reference::before;
use second::reference::calls::{self, Buffers};
use second::reference::delays::{delays, touches, touches_quick, End};
use second::reference::desk::Desk;
use second::reference::files::{field, model_file};
use second::reference::fraction::{down, up, Fraction};
use second::reference::listing::listing;
use second::reference::model::{Plant, HEAD_WORDS, MAX_BOX};
use second::reference::steps::wall_step;

fn buffers(table: usize, work: usize) -> Buffers {
    Buffers { table: vec![-7; table], work: vec![-9; work] }
}

/// The delays as (earliest, latest), compared by value.
fn assert_delays(p: i64, q: i64, a: i64, c: i64, b: i64, first: (i64, i64), last: Option<(i64, i64)>) {
    let times = delays(p, q, a, c, b).expect("there are delays");
    assert!(times.earliest.same(Fraction::new(first.0, first.1)), "{times:?}");
    match (times.latest, last) {
        (End::At(t), Some(last)) => assert!(t.same(Fraction::new(last.0, last.1)), "{times:?}"),
        (End::Endless, None) => {}
        _ => panic!("{times:?}"),
    }
}

#[test]
fn delays_of_the_starred_cases() {
    assert_delays(2, 5, 1, 2, 7, (1, 1), Some((5, 1)));
    assert!(delays(3, 4, 0, 2, 0).is_none());
    assert_delays(3, 4, -2, 0, 0, (3, 2), None);
    assert_delays(3, 4, -2, -1, 0, (3, 2), Some((4, 1)));
    assert_delays(0, 0, 1, 1, 0, (0, 1), Some((0, 1)));
    assert_delays(0, 0, 0, 0, 0, (0, 1), None);
}

#[test]
fn wall_steps_of_the_starred_cases() {
    let mut out = [0; MAX_BOX];
    // x 1, y 2..5, P's rates, wall y = 7: x 2..6
    assert!(wall_step(2, &[1, 1, 2, 5], &[1, 1, 1, 2], &[0, 10, 0, 10], 1, 7, &mut out));
    assert_eq!(out[..4], [2, 6, 7, 7]);
    // part 3..4, rate -2..-1, wall 0, with z 0, rate -1..-1, invariant -10..10: z -4..-1
    assert!(wall_step(2, &[3, 4, 0, 0], &[-2, -1, -1, -1], &[-10, 10, -10, 10], 0, 0, &mut out));
    assert_eq!(out[..4], [0, 0, -4, -1]);
}

#[test]
fn rounding_is_outward() {
    assert_eq!((down(-5, 2), up(-5, 2)), (-3, -2));
    assert_eq!((down(5, 2), up(5, 2)), (2, 3));
    assert_eq!((down(-4, 2), up(-4, 2), down(6, 3), up(0, 5)), (-2, -2, 2, 0));
    // Round first, then cut: an exact low of 10.5 on an invariant's high of 10 gave [10, 10]. Document 02's T-06
    // has no delay there: y is past 10.
    let (part, rates, invariant) = ([0, 0, 10, 10], [2, 2, 1, 1], [0, 1, 0, 10]);
    let mut out = [0; MAX_BOX];
    assert!(before::wall_step(2, &part, &rates, &invariant, 0, 1, &mut out));
    assert_eq!(out[..4], [1, 1, 10, 10]);
    assert!(!wall_step(2, &part, &rates, &invariant, 0, 1, &mut out));
}

#[test]
fn touching_of_the_starred_cases() {
    let (start, rates, invariant) = ([0, 0, 2, 5], [1, 1, 1, 2], [0, 10, 0, 10]);
    for touch in [touches, touches_quick] {
        assert!(touch(2, &start, &rates, &invariant, &[5, 5, 9, 10]));
        assert!(!touch(2, &start, &rates, &invariant, &[9, 10, 0, 4]));
        // A box whose cut is empty is never touched.
        assert!(!touch(2, &start, &rates, &invariant, &[11, 12, 0, 10]));
    }
}

#[test]
fn listing_of_p() {
    assert_eq!(listing(&model_file(&plant_p().words())), "safe 1 2\n0 0 0 0 2 5\n0 3 2 8 10 10\n");
    assert_eq!(listing(&[]), "refused 1\n");
}

#[test]
fn ceiling_of_p() {
    assert_eq!(calls::ceiling(&plant_p().words()), Ok(44));
}

#[test]
fn largest_ceiling() {
    let location = LocationDraft { invariant: [-1_000_000, 1_000_000].repeat(6), rates: vec![0; 12], start: None };
    let draft = Draft { n: 6, locations: vec![location; 64], ..Draft::default() };
    assert_eq!(calls::ceiling(&draft.words()), Ok(7_680_000_768));
}

#[test]
fn answers_for_p() {
    let model = plant_p().words();
    let (outcome, after) = calls::analysis(&model, 1_000, buffers(23, 25));
    assert_eq!(outcome, Ok((Answer::Safe, 1)));
    assert_eq!(after.table[..20], plant_p_table());
    assert_eq!(after.table[20..], [-7; 3]);
    assert_eq!(after.work, [0; 25]);

    let (outcome, after) = calls::analysis(&model, 0, buffers(20, 20));
    assert_eq!(outcome, Ok((Answer::Unfinished, 0)));
    assert_eq!(after, Buffers { table: vec![0; 20], work: vec![0; 20] });

    let (outcome, after) = calls::analysis(&plant_p_unknown().words(), 1_000, buffers(21, 20));
    assert_eq!(outcome, Ok((Answer::Unknown, 0)));
    assert_eq!(after.table[20..], [-7]);
    assert_eq!(after.table[..20], [0; 20]);
    assert_eq!(after.work, [0; 20]);
}

#[test]
fn tables_for_p() {
    let model = plant_p().words();
    assert_eq!(calls::checker(&model, &plant_p_table()), Ok(()));
    assert_eq!(calls::checker(&model, &plant_p_wider()), Ok(()));
    let mut narrow = plant_p_table();
    narrow[16] = 3;
    assert_eq!(calls::checker(&model, &narrow), Err(33));
    // Words past the model's or the table's length are part of neither.
    let (mut longer, mut table) = (model.clone(), plant_p_table());
    longer.extend([5, 6]);
    table.extend([5, 6]);
    assert_eq!(calls::checker(&longer, &table), Ok(()));
    assert_eq!(calls::checker(&model, &table[..19]), Err(20));
    // The whole box is unchanged by a pass and touches what is forbidden.
    let all = [[1, 0, 0, 0, 10], [1, 10, 10, 0, 10], [1, 0, 10, 0, 0], [1, 0, 10, 10, 10]].concat();
    assert_eq!(calls::checker(&model, &all), Err(34));
}

#[test]
fn levels_and_sizes_at_their_edges() {
    let mut model = plant_p().words();
    model[P_LOCATION + 3] = 1_000_000;
    assert!(calls::ceiling(&model).is_ok());
    model[P_LOCATION + 3] = 1_000_001;
    assert_eq!(calls::ceiling(&model), Err(11));
    let mut model = at_rest(6).words();
    assert!(calls::ceiling(&model).is_ok());
    model[0] = 7;
    assert_eq!(calls::ceiling(&model), Err(2));
}

#[test]
fn short_lists() {
    // With the edition as the head's fifth word (document 02, T-10).
    assert_eq!(calls::ceiling(&[7, 1, 0, 0]), Err(5));
    assert_eq!(calls::ceiling(&[7, 1, 0, 0, 1]), Err(2));
    assert_eq!(calls::ceiling(&[1, 1, 0, 0, 1]), Err(5));
    assert_eq!(calls::ceiling(&[]), Err(5));
    assert_eq!(calls::ceiling(&[1, 65, 200, 0, 1]), Err(3));
    assert_eq!(calls::ceiling(&[1, 64, 128, 65, 1]), Err(4));
    assert_eq!(calls::ceiling(&[1, 64, 129, 0, 1]), Err(4));
}

#[test]
fn questions_are_asked_record_by_record() {
    let good = LocationDraft { invariant: vec![0, 4], rates: vec![0, 0], start: Some(vec![0, 0]) };
    let fails_13 = LocationDraft { start: Some(vec![5, 4]), ..good.clone() };
    let fails_11 = LocationDraft { invariant: vec![4, 0], ..good.clone() };
    let draft = |locations| Draft { n: 1, locations, ..Draft::default() };
    assert_eq!(calls::ceiling(&draft(vec![fails_13.clone(), fails_11.clone()]).words()), Err(13));
    assert_eq!(calls::ceiling(&draft(vec![good.clone(), fails_11]).words()), Err(11));

    // Flag 0 wants zeros.
    let mut words = draft(vec![good.clone()]).words();
    let flag = HEAD_WORDS + 4;
    words[flag] = 0;
    assert_eq!(calls::ceiling(&words), Ok(2));
    words[flag + 2] = 1;
    assert_eq!(calls::ceiling(&words), Err(13));
}

/// Two locations of one variable each, one switch from high wall to low wall.
fn two_locations() -> Draft {
    let location = |low, high| LocationDraft {
        invariant: vec![low, high],
        rates: vec![1, 1],
        start: (low == 0).then(|| vec![0, 0]),
    };
    Draft {
        n: 1,
        locations: vec![location(0, 4), location(4, 9)],
        switches: vec![SwitchDraft {
            source: 0,
            target: 1,
            d: 0,
            source_side: 1,
            target_side: 0,
            mask: 0,
            guard: vec![4, 4],
            reset: vec![4, 4],
        }],
        forbidden: vec![],
        ..Draft::default()
    }
}

#[test]
fn questions_of_a_switch() {
    let numbers = |change: &dyn Fn(&mut SwitchDraft)| {
        let mut draft = two_locations();
        change(&mut draft.switches[0]);
        calls::ceiling(&draft.words())
    };
    assert_eq!(numbers(&|_| {}), Ok(4));
    assert_eq!(numbers(&|s| s.source = 2), Err(14));
    assert_eq!(numbers(&|s| s.target = 2), Err(14));
    assert_eq!(numbers(&|s| s.d = 1), Err(14));
    assert_eq!(numbers(&|s| s.source_side = 2), Err(14));
    assert_eq!(numbers(&|s| s.target_side = 2), Err(14));
    assert_eq!(numbers(&|s| s.mask = 2), Err(14));
    assert_eq!(numbers(&|s| s.guard = vec![5, 4]), Err(15));
    assert_eq!(numbers(&|s| s.reset = vec![4, 1_000_001]), Err(15));
    assert_eq!(
        numbers(&|s| {
            s.mask = 1;
            s.reset = vec![4, 5]
        }),
        Err(16)
    );
    assert_eq!(numbers(&|s| s.guard = vec![4, 5]), Err(17));
    assert_eq!(numbers(&|s| s.guard = vec![3, 3]), Err(17));
    assert_eq!(numbers(&|s| s.target_side = 1), Err(18));
    assert_eq!(
        numbers(&|s| {
            s.mask = 1;
            s.reset = vec![5, 5]
        }),
        Err(18)
    );
    // 16 before 17, 17 before 18.
    assert_eq!(
        numbers(&|s| {
            s.mask = 1;
            s.reset = vec![4, 5];
            s.guard = vec![3, 3]
        }),
        Err(16)
    );
    assert_eq!(
        numbers(&|s| {
            s.guard = vec![3, 3];
            s.target_side = 1
        }),
        Err(17)
    );
    // d unmasked: the reset box of d need not hold the wall; the switch never lands.
    assert_eq!(numbers(&|s| s.reset = vec![7, 8]), Ok(4));
    let mut draft = two_locations();
    let (landed, _) = calls::analysis(&draft.words(), 9, buffers(12, 12));
    draft.switches[0].reset = vec![7, 8];
    let (not_landed, after) = calls::analysis(&draft.words(), 9, buffers(12, 12));
    assert_eq!(landed, Ok((Answer::Safe, 3)));
    assert_eq!(not_landed, Ok((Answer::Safe, 1)));
    assert_eq!(after.table[6..], [0; 6]);
}

#[test]
fn questions_of_a_forbidden_box() {
    let number = |location, bounds: [i32; 2]| {
        let mut draft = two_locations();
        draft.forbidden.push((location, bounds.to_vec()));
        calls::ceiling(&draft.words())
    };
    assert_eq!(number(1, [-1_000_000, 1_000_000]), Ok(4));
    assert_eq!(number(2, [0, 0]), Err(19));
    assert_eq!(number(0, [1, 0]), Err(19));
    assert_eq!(number(0, [0, 1_000_001]), Err(19));
}

#[test]
fn model_files_cut_short_and_long() {
    let words = plant_p().words();
    let file = model_file(&words);
    let read = |bytes: &[u8]| calls::read_model(bytes, vec![3; words.len() + 2]);
    let unchanged = vec![3; words.len() + 2];
    let zeros = vec![0; words.len() + 2];

    let (outcome, after) = read(&file);
    assert_eq!(outcome, Ok(words.len()));
    assert_eq!(after[..words.len()], words);
    assert_eq!(after[words.len()..], [3, 3]);

    assert_eq!(read(&[]), (Err(1), unchanged.clone()));
    assert_eq!(read(&file[..18]), (Err(1), unchanged.clone()));
    let mut other = file.clone();
    other[0] = 7;
    assert_eq!(read(&other), (Err(1), unchanged.clone()));
    let mut other = file.clone();
    other[2] = 20; // the right tag with another length
    assert_eq!(read(&other), (Err(1), unchanged.clone()));

    // Two bytes of the next field: 6, even if the tag is right. Three: 7.
    assert_eq!(read(&file[..19]), (Err(6), zeros.clone()));
    assert_eq!(read(&file[..21]), (Err(6), zeros.clone()));
    assert_eq!(read(&file[..22]), (Err(7), zeros.clone()));
    assert_eq!(read(&file[..file.len() - 1]), (Err(7), zeros.clone()));
    let mut other = file.clone();
    other[19] = 3;
    assert_eq!(read(&other), (Err(6), zeros.clone()));
    let mut other = file.clone();
    other[21] += 4;
    assert_eq!(read(&other), (Err(7), zeros.clone()));
    let mut other = file.clone();
    other.push(0);
    assert_eq!(read(&other), (Err(8), zeros.clone()));
    // 8 before 11.
    other[22..26].copy_from_slice(&11i32.to_be_bytes());
    assert_eq!(read(&other), (Err(8), zeros.clone()));
    other.pop();
    assert_eq!(read(&other), (Err(11), zeros.clone()));
    // 5 changes nothing and comes before 6.
    let short = vec![3; words.len() - 1];
    assert_eq!(calls::read_model(&file[..20], short.clone()), (Err(5), short));
    assert_eq!(calls::read_model(&file, vec![]), (Err(5), vec![]));
}

#[test]
fn table_files() {
    let model = plant_p().words();
    let table = plant_p_table();
    let room = 7 + 4 * (11 + 16);
    let (outcome, bytes) = calls::write_table(&model, &table, vec![0xEE; room + 3]);
    let mut file = field(6, &[2]);
    file.extend(field(5, &[0, 0, 0, 0, 2, 5]));
    file.extend(field(5, &[0, 3, 2, 8, 10, 10]));
    assert_eq!(outcome, Ok(file.len()));
    assert_eq!(bytes[..file.len()], file);
    assert!(bytes[file.len()..].iter().all(|&b| b == 0xEE));
    assert_eq!(calls::write_table(&model, &table, vec![1; room - 1]), (Err(39), vec![1; room - 1]));
    assert_eq!(calls::write_table(&model, &table[..19], vec![]).0, Err(20));
    let mut off = table.clone();
    off[0] = 2;
    assert_eq!(calls::write_table(&model, &off, vec![]).0, Err(32));

    let read = |bytes: &[u8]| calls::read_table(&model, bytes, vec![4; 22]);
    let mut words = table.clone();
    words.extend([4, 4]);
    assert_eq!(read(&file), (Ok(20), words));
    let refused = |number| (Err(number), vec![0; 22]);
    assert_eq!(read(&[]), refused(35));
    assert_eq!(read(&file[..6]), refused(35));
    assert_eq!(read(&field(6, &[5])), refused(35));
    assert_eq!(read(&field(6, &[-1])), refused(35));
    assert_eq!(read(&field(6, &[0])), (Ok(20), [vec![0; 20], vec![4, 4]].concat()));
    assert_eq!(read(&file[..file.len() - 1]), refused(36));
    assert_eq!(read(&field(6, &[1])), refused(36));
    let faces = |list: &[[i32; 6]]| {
        let mut bytes = field(6, &[list.len() as i32]);
        list.iter().for_each(|record| bytes.extend(field(5, record)));
        bytes
    };
    assert_eq!(read(&faces(&[[0, 3, 2, 8, 10, 10], [0, 0, 0, 0, 2, 5]])), refused(37));
    assert_eq!(read(&faces(&[[0, 0, 0, 0, 2, 5], [0, 0, 0, 0, 2, 5]])), refused(37));
    assert_eq!(read(&faces(&[[1, 0, 0, 0, 2, 5]])), refused(37));
    assert_eq!(read(&faces(&[[0, 4, 0, 0, 2, 5]])), refused(37));
    // A field that is out of place comes before one that is not whole later on.
    let mut bytes = faces(&[[0, 4, 0, 0, 2, 5], [0, 0, 0, 0, 2, 5]]);
    bytes.pop();
    assert_eq!(read(&bytes), refused(37));
    let mut longer = file.clone();
    longer.push(5);
    assert_eq!(read(&longer), refused(38));
    assert_eq!(read(&faces(&[[0, 0, 1, 1, 2, 5]])), refused(32));
    // 38 before 32.
    let mut bytes = faces(&[[0, 0, 1, 1, 2, 5]]);
    bytes.push(0);
    assert_eq!(read(&bytes), refused(38));
    // 20 and the model's questions change nothing.
    assert_eq!(calls::read_table(&model, &[], vec![4; 19]), (Err(20), vec![4; 19]));
    assert_eq!(calls::read_table(&model[..3], &[], vec![4; 19]), (Err(5), vec![4; 19]));
}

#[test]
fn buffers_too_short_change_nothing() {
    let model = plant_p().words();
    for (table, work, number) in [(19, 20, 20), (20, 19, 21), (19, 19, 20)] {
        let lent = buffers(table, work);
        assert_eq!(calls::analysis(&model, 5, lent.clone()), (Err(number), lent));
    }
    let lent = buffers(19, 0);
    assert_eq!(calls::analysis(&model[..5], 5, lent.clone()), (Err(5), lent));
}

#[test]
fn the_desk() {
    let model = plant_p().words();
    let call = |desk, limit| calls::desk(desk, &model, limit, buffers(20, 20));
    let fresh = Desk::default();
    assert_eq!(call(fresh, 7).0, Ok((Answer::Safe, 1)));
    assert_eq!(call(fresh, 7).1, Desk { jobs: 1, passes: 1 });
    // Unknown and unfinished are answers too.
    assert_eq!(call(fresh, 0).1, Desk { jobs: 1, passes: 0 });
    let full = Desk { jobs: u32::MAX, passes: 0 };
    assert_eq!(call(full, 0), (Err(22), full, buffers(20, 20)));
    // On the limit, not on k.
    let nearly = Desk { jobs: 3, passes: u32::MAX - 5 };
    assert_eq!(call(nearly, 6), (Err(22), nearly, buffers(20, 20)));
    assert_eq!(call(nearly, 5).1, Desk { jobs: 4, passes: u32::MAX - 4 });
    // 21 before 22.
    assert_eq!(calls::desk(full, &model, 0, buffers(20, 19)), (Err(21), full, buffers(20, 19)));
}

#[test]
fn host_calls() {
    let file = model_file(&plant_p().words());
    let room = 7 + 4 * (11 + 16);
    let (number, bytes) = calls::decide(&file, vec![0xAB; room + 1], 1_000);
    assert_eq!(number, 100 << 32 | 1);
    let mut table = field(6, &[2]);
    table.extend(field(5, &[0, 0, 0, 0, 2, 5]));
    table.extend(field(5, &[0, 3, 2, 8, 10, 10]));
    assert_eq!(bytes[..table.len()], table);
    assert!(bytes[table.len()..].iter().all(|&b| b == 0xAB));
    assert_eq!(calls::check(&file, &table), 100);

    let (number, bytes) = calls::decide(&file, vec![0xAB; room], 0);
    assert_eq!(number, 102 << 32);
    assert_eq!(bytes[..7], field(6, &[0]));
    let unknown = model_file(&plant_p_unknown().words());
    assert_eq!(calls::decide(&unknown, vec![0xAB; room], 9).0, 101 << 32);
    assert_eq!(calls::decide(&file, vec![0xAB; room - 1], 9), (39 << 32, vec![0xAB; room - 1]));
    assert_eq!(calls::decide(&[], vec![], 9), (1 << 32, vec![]));
    assert_eq!(calls::check(&[], &[]), 1);
    assert_eq!(calls::check(&file, &[]), 35);
    assert_eq!(calls::check(&unknown, &table), 34);
}

#[test]
fn no_start_is_safe_at_once() {
    let mut draft = plant_p();
    draft.locations[0].start = None;
    for limit in [0, 1, u32::MAX] {
        assert_eq!(calls::analysis(&draft.words(), limit, buffers(20, 20)).0, Ok((Answer::Safe, 0)));
    }
    assert_eq!(calls::checker(&draft.words(), &[0; 20]), Ok(()));
}

/// The longest file without cuts; document_02.rs has the longest of all.
#[test]
fn the_longest_file_without_cuts() {
    let words = large_grid(6, 3).words();
    let plant = Plant::from_words(&words).unwrap();
    assert_eq!(plant.table_words(), 9_984);
    assert_eq!(plant.table_file_room(), 45_319);
    assert_eq!(model_file(&words).len(), 28_947);
}

/// A pass takes every step from the table before it: a chain of three switches with nothing
/// to wait for still needs one pass for each.
#[test]
fn a_pass_reads_no_new_face() {
    let location = LocationDraft { invariant: vec![0, 0], rates: vec![0, 0], start: None };
    let mut draft = Draft { n: 1, locations: vec![location; 4], ..Draft::default() };
    draft.locations[0].start = Some(vec![0, 0]);
    for source in 0..3 {
        draft.switches.push(SwitchDraft {
            source,
            target: source + 1,
            d: 0,
            source_side: 0,
            target_side: 0,
            mask: 0,
            guard: vec![0, 0],
            reset: vec![0, 0],
        });
    }
    let words = draft.words();
    assert!(Plant::from_words(&words).is_ok());
    // Pass 1: both faces of location 0. Passes 2 to 4: the next location's low face; its
    // high face, on the same wall, comes one pass after. Pass 5: the last high face.
    let (outcome, after) = calls::analysis(&words, 99, buffers(24, 24));
    assert_eq!(outcome, Ok((Answer::Safe, 5)));
    assert_eq!(after.table, [1, 0, 0].repeat(8));
}
