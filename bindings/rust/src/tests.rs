//! Each promise of the functions, on cases of document 01 and on inputs that each refusal and outcome is for.
use super::*;

const CASE_O: &[u8] = include_bytes!("../../../examples/case-o.bin");

/// Image, book and log of case O.
fn case_o() -> (&'static [u8], &'static [u8], &'static [u8]) {
    let (image, rest) = CASE_O.split_at(116);
    let (book, log) = rest.split_at(26);
    (image, book, log)
}

/// Length and version before the fields.
fn framed(fields: &[u8]) -> Vec<u8> {
    let mut bytes = (fields.len() as u32 + 1).to_be_bytes().to_vec();
    bytes.push(1);
    bytes.extend(fields);
    bytes
}

fn values(values: [i32; 4]) -> Vec<u8> {
    values.iter().flat_map(|v| v.to_be_bytes()).collect()
}

/// An image of rows of table 0 with handles 1, 2, ..
fn image(next: u32, rows: &[[i32; 4]]) -> Vec<u8> {
    let mut fields = next.to_be_bytes().to_vec();
    fields.extend((rows.len() as u16).to_be_bytes());
    for (i, row) in rows.iter().enumerate() {
        fields.extend((i as u32 + 1).to_be_bytes());
        fields.push(0);
        fields.extend(values(*row));
    }
    framed(&fields)
}

fn book(limit: u16, rules: &[Vec<u8>]) -> Vec<u8> {
    let mut fields = limit.to_be_bytes().to_vec();
    fields.push(rules.len() as u8);
    fields.extend(rules.concat());
    framed(&fields)
}

fn log(operations: &[Vec<u8>]) -> Vec<u8> {
    let mut fields = (operations.len() as u16).to_be_bytes().to_vec();
    fields.extend(operations.concat());
    framed(&fields)
}

/// Active, on inserts into table 0, with no condition: rolls back.
fn rule_before(precedes: u16) -> Vec<u8> {
    let mut bytes = vec![1, 0, 1, 0];
    bytes.extend(precedes.to_be_bytes());
    bytes.extend([0, 1, 0]);
    bytes
}

/// Cases H and I: on updates of column 3 of table 0, adds `step` to it where it is below 5.
fn counting_rule(step: i32) -> Vec<u8> {
    let mut bytes = vec![1, 0, 4, 8, 0, 0, 0, 1, 4, 0, 8, 2, 3];
    bytes.extend(step.to_be_bytes());
    bytes.extend([1, 2, 3, 0, 0, 0, 5]);
    bytes
}

fn insert(row: [i32; 4]) -> Vec<u8> {
    [vec![1, 0], values(row)].concat()
}

fn delete(handle: u32) -> Vec<u8> {
    [vec![2], handle.to_be_bytes().to_vec()].concat()
}

fn set_column_3(handle: u32, value: i32) -> Vec<u8> {
    [
        vec![3],
        handle.to_be_bytes().to_vec(),
        vec![8],
        value.to_be_bytes().to_vec(),
    ]
    .concat()
}

/// The outcome of a run that leaves the start image.
fn unchanged(image: &[u8], book: &[u8], log: &[u8]) -> (Outcome, u32) {
    let ran = run(image, book, log).unwrap();
    assert_eq!(ran.image, image);
    (ran.outcome, ran.considerations)
}

#[test]
fn case_o_deletes_the_row_that_matches_on_both_columns() {
    let (image, book, log) = case_o();
    let ran = run(image, book, log).unwrap();
    assert_eq!((ran.outcome, ran.considerations), (Outcome::Commit, 1));
    assert_eq!((ran.outcome.number(), ran.outcome.reason()), (0, 0));
    let mut fields = 6u32.to_be_bytes().to_vec();
    fields.extend([0, 4]);
    for (handle, table, row) in [
        (1, 0, [7, 1, 10, 0]),
        (2, 0, [7, 2, 11, 0]),
        (3, 1, [7, 1, 501, 0]),
        (5, 1, [8, 1, 503, 0]),
    ] {
        fields.extend([0, 0, 0, handle, table]);
        fields.extend(values(row));
    }
    assert_eq!(ran.image, framed(&fields));
}

#[test]
fn case_o_in_lent_buffers_leaves_later_bytes() {
    let (image, book, log) = case_o();
    let mut out = [0xaa; RUN_OUTPUT + 8];
    let mut room = vec![0xbb; RUN_ROOM + 8];
    let length = {
        let ran = run_in(image, book, log, &mut out, &mut room).unwrap();
        assert_eq!((ran.outcome, ran.considerations), (Outcome::Commit, 1));
        assert_eq!(ran.image, run(image, book, log).unwrap().image);
        ran.image.len()
    };
    assert_eq!(length, 95);
    assert!(out[length..].iter().all(|b| *b == 0xaa));
    assert!(room[..RUN_ROOM].iter().all(|b| *b == 0));
    assert!(room[RUN_ROOM..].iter().all(|b| *b == 0xbb));
}

#[test]
fn case_o_has_one_rule_and_its_bytes_are_a_part_of_the_book() {
    let (_, book, _) = case_o();
    assert_eq!(check(book), Ok(vec![0]));
    assert_eq!(rule(book, 0), &book[8..]);
    assert_eq!(rule(book, 0).as_ptr(), book[8..].as_ptr());
    assert_eq!(rule(book, 1), &[]);
    assert_eq!(rule(book, usize::MAX), &[]);
}

#[test]
fn case_e_orders_1_2_0() {
    let book = book(1, &[rule_before(0), rule_before(0), rule_before(1)]);
    assert_eq!(check(&book), Ok(vec![1, 2, 0]));
}

#[test]
fn case_f_orders_0_2_1() {
    let book = book(1, &[rule_before(0), rule_before(0), rule_before(2)]);
    assert_eq!(check(&book), Ok(vec![0, 2, 1]));
}

#[test]
fn each_rule_is_found_where_it_stands() {
    let rules: Vec<_> = (0..16)
        .map(|k| {
            if k % 2 == 0 {
                rule_before(0)
            } else {
                counting_rule(k)
            }
        })
        .collect();
    let book = book(1, &rules);
    for (k, bytes) in rules.iter().enumerate() {
        assert_eq!(rule(&book, k), bytes);
    }
    assert_eq!(rule(&book, 16), &[]);
    assert_eq!(check(&book), Ok((0..16).collect()));
}

#[test]
fn refusals_1_and_2_change_nothing_and_come_in_their_order() {
    let (image, book, log) = case_o();
    let run_with = |output: usize, room: usize| {
        let mut out = vec![0xaa; output];
        let mut working = vec![0xbb; room];
        let refusal = run_in(image, book, log, &mut out, &mut working)
            .map(|_| ())
            .unwrap_err();
        assert!(out.iter().all(|b| *b == 0xaa) && working.iter().all(|b| *b == 0xbb));
        refusal
    };
    assert_eq!(run_with(RUN_OUTPUT - 1, RUN_ROOM), Refusal::OutputTooShort);
    assert_eq!(run_with(0, 0), Refusal::OutputTooShort);
    assert_eq!(run_with(RUN_OUTPUT, RUN_ROOM - 1), Refusal::RoomTooShort);
    assert_eq!(run_with(RUN_OUTPUT, 0), Refusal::RoomTooShort);
}

#[test]
fn refusals_3_to_6_change_nothing_and_come_in_their_order() {
    let (image, good, log) = case_o();
    let cycle = book(1, &[rule_before(2), rule_before(1)]);
    let run_on = |image: &[u8], book: &[u8], log: &[u8]| {
        let mut out = vec![0xaa; RUN_OUTPUT];
        let mut room = vec![0xbb; RUN_ROOM];
        let refusal = run_in(image, book, log, &mut out, &mut room)
            .map(|_| ())
            .unwrap_err();
        assert!(out.iter().all(|b| *b == 0xaa) && room.iter().all(|b| *b == 0xbb));
        assert_eq!(run(image, book, log), Err(refusal));
        refusal
    };
    assert_eq!(run_on(&[], &[], &[]), Refusal::ImageMalformed);
    assert_eq!(run_on(&image[..115], good, log), Refusal::ImageMalformed);
    assert_eq!(run_on(image, &[], &[]), Refusal::BookMalformed);
    assert_eq!(run_on(image, &good[..25], log), Refusal::BookMalformed);
    assert_eq!(run_on(image, &cycle, &[]), Refusal::PrecedesCycle);
    assert_eq!(run_on(image, good, &[]), Refusal::LogMalformed);
    assert_eq!(run_on(image, good, &log[..16]), Refusal::LogMalformed);
}

#[test]
fn case_g_a_book_with_a_cycle_has_no_order_and_no_rules() {
    let cycle = book(1, &[rule_before(2), rule_before(1)]);
    assert_eq!(check(&cycle), Err(Refusal::PrecedesCycle));
    assert_eq!(rule(&cycle, 0), &[]);
    assert_eq!(check(&[]), Err(Refusal::BookMalformed));
    assert_eq!(rule(&[], 0), &[]);
    assert_eq!(check(&book(1, &[])), Ok(vec![]));
}

#[test]
fn case_h_commits_after_5_and_case_i_stops_after_4() {
    let start = image(2, &[[0, 0, 0, 0]]);
    let log = log(&[set_column_3(1, 1)]);
    let ran = run(&start, &book(5, &[counting_rule(1)]), &log).unwrap();
    assert_eq!((ran.outcome, ran.considerations), (Outcome::Commit, 5));
    assert_eq!(ran.image, image(2, &[[0, 0, 0, 5]]));
    assert_eq!(
        unchanged(&start, &book(4, &[counting_rule(1)]), &log),
        (Outcome::StepLimit, 4)
    );
}

#[test]
fn a_rule_rolls_back() {
    let outcome = unchanged(
        &image(1, &[]),
        &book(1, &[rule_before(0)]),
        &log(&[insert([1, 2, 3, 4])]),
    );
    assert_eq!(outcome, (Outcome::RolledBack, 1));
}

#[test]
fn each_reason_is_told() {
    let no_rules = book(1, &[]);
    let row = [1, 2, 3, 4];
    let failed = |reason| (Outcome::Failed(reason), 0);
    let no_row = unchanged(&image(1, &[]), &no_rules, &log(&[delete(1)]));
    assert_eq!(no_row, failed(Reason::NoSuchRow));
    // case K
    let full = unchanged(
        &image(65, &[row; 64]),
        &no_rules,
        &log(&[insert(row), delete(1)]),
    );
    assert_eq!(full, failed(Reason::Full));
    // case L
    let last = image(4294967294, &[row]);
    assert_eq!(
        run(&last, &no_rules, &log(&[insert(row)])).unwrap().outcome,
        Outcome::Commit
    );
    assert_eq!(
        unchanged(&last, &no_rules, &log(&[insert(row), insert(row)])),
        failed(Reason::HandlesUsedUp)
    );
    let sum = unchanged(
        &image(2, &[row]),
        &book(5, &[counting_rule(i32::MIN)]),
        &log(&[set_column_3(1, -1)]),
    );
    assert_eq!(sum, (Outcome::Failed(Reason::SumOutOfRange), 1));
    assert_eq!((sum.0.number(), sum.0.reason()), (3, 4));
}

#[test]
fn a_full_image_fits_the_output() {
    let full = image(65, &[[i32::MIN, i32::MAX, 0, -1]; 64]);
    assert_eq!(full.len(), RUN_OUTPUT);
    assert_eq!(
        unchanged(&full, &book(1000, &[]), &log(&[])),
        (Outcome::Commit, 0)
    );
}

#[test]
fn a_refusal_says_its_number_and_why() {
    assert_eq!(
        Refusal::PrecedesCycle.to_string(),
        "refused 5: precedes has a cycle"
    );
}

#[test]
fn words_of_every_count_come_apart() {
    assert_eq!(
        word::ran(1000 << 32 | 2 << 8),
        Ok((Outcome::StepLimit, 1000))
    );
    assert_eq!(word::checked(16 << 32), Ok(16));
    assert_eq!(word::checked(4), Err(Refusal::BookMalformed));
    assert_eq!(word::place(8 << 32 | 18), 8..26);
    assert_eq!(word::place(0), 0..0);
}

#[test]
#[should_panic(expected = "do not belong together")]
fn a_refusal_with_a_count_is_unknown() {
    let _ = word::ran(1 << 32 | 3);
}

#[test]
#[should_panic(expected = "do not belong together")]
fn an_outcome_with_a_reason_that_it_cannot_have_is_unknown() {
    let _ = word::ran(1 << 16);
}

#[test]
#[should_panic(expected = "do not belong together")]
fn seventeen_rules_are_unknown() {
    let _ = word::checked(17 << 32);
}

#[test]
#[should_panic(expected = "do not belong together")]
fn a_book_check_that_refuses_a_log_is_unknown() {
    let _ = word::checked(6);
}
