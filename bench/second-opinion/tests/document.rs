//! The checked runs of the specification, and what its entry points promise
//! about the bytes they are lent.

use second_opinion::generate::{input, of_kind, parts, Kind};
use second_opinion::{check_book, program, rule_bytes, run, Answer, IMAGE_MAX};

fn part(fields: &[&[u8]]) -> Vec<u8> {
    let body = fields.concat();
    let mut bytes = (body.len() as u32 + 1).to_be_bytes().to_vec();
    bytes.push(1);
    bytes.extend(body);
    bytes
}

fn image(next: u32, rows: &[(u32, u8, [i32; 4])]) -> Vec<u8> {
    let mut body = next.to_be_bytes().to_vec();
    body.extend((rows.len() as u16).to_be_bytes());
    for (handle, table, values) in rows {
        body.extend(handle.to_be_bytes());
        body.push(*table);
        for value in values {
            body.extend(value.to_be_bytes());
        }
    }
    part(&[&body])
}

fn book(limit: u16, rules: &[&[u8]]) -> Vec<u8> {
    part(&[&limit.to_be_bytes(), &[rules.len() as u8], &rules.concat()])
}

fn log(operations: &[Vec<u8>]) -> Vec<u8> {
    part(&[
        &(operations.len() as u16).to_be_bytes(),
        &operations.concat(),
    ])
}

fn insert(table: u8, values: [i32; 4]) -> Vec<u8> {
    let mut bytes = vec![1, table];
    bytes.extend(values.iter().flat_map(|value| value.to_be_bytes()));
    bytes
}

fn delete(handle: u32) -> Vec<u8> {
    [&[2], &handle.to_be_bytes()[..]].concat()
}

fn update(handle: u32, column: u8, value: i32) -> Vec<u8> {
    [
        &[3],
        &handle.to_be_bytes()[..],
        &[1 << column],
        &value.to_be_bytes()[..],
    ]
    .concat()
}

/// Outcome, reason and count, and what is left in the output.
fn ran(image: &[u8], book: &[u8], log: &[u8]) -> ((u8, u8, u32), Vec<u8>) {
    let mut out = [0xA5; IMAGE_MAX + 3];
    match run(image, book, log, &mut out) {
        Answer::Ran {
            outcome,
            reason,
            count,
            written,
        } => {
            assert!(out[written..].iter().all(|&byte| byte == 0xA5));
            assert!(outcome == 0 || out[..written] == *image);
            ((outcome, reason, count), out[..written].to_vec())
        }
        Answer::Refused(refusal) => panic!("refused {refusal}"),
    }
}

/// A rule on table 0 with no condition.
fn rule(triggers: u8, columns: u8, precedes: u16, actions: &[&[u8]]) -> Vec<u8> {
    let mut bytes = vec![1, 0, triggers, columns];
    bytes.extend(precedes.to_be_bytes());
    bytes.extend([0, actions.len() as u8]);
    bytes.extend(actions.concat());
    bytes
}

const ROLLBACK: &[u8] = &[0];
/// Copies the rows of a transition table into table 3.
fn copy(source: u8) -> Vec<u8> {
    vec![2, 3, source, 0, 1, 0, 1, 1, 1, 2, 1, 3]
}

fn rows_of_table_3(image: &[u8]) -> Vec<[i32; 4]> {
    image[11..]
        .chunks(21)
        .filter(|row| row[4] == 3)
        .map(|row| {
            std::array::from_fn(|column| {
                let at = 5 + 4 * column;
                i32::from_be_bytes([row[at], row[at + 1], row[at + 2], row[at + 3]])
            })
        })
        .collect()
}

#[test]
fn net_effects() {
    let empty = image(1, &[]);
    let one = image(2, &[(1, 0, [1, 2, 3, 4])]);
    // A: seen as inserted, with its present values, and not as updated.
    let told = book(9, &[&rule(7, 15, 0, &[&copy(4), &copy(6)])]);
    let (answer, end) = ran(&empty, &told, &log(&[insert(0, [5; 4]), update(1, 1, 6)]));
    assert_eq!(
        (answer, rows_of_table_3(&end)),
        ((0, 0, 1), vec![[5, 6, 5, 5]])
    );
    // B: nothing is left to trigger.
    let (answer, _) = ran(&empty, &told, &log(&[insert(0, [5; 4]), delete(1)]));
    assert_eq!(answer, (0, 0, 0));
    // C: either column triggers; the old row is the first.
    for columns in [1, 4] {
        let told = book(9, &[&rule(4, columns, 0, &[&copy(7), &copy(6)])]);
        let changes = log(&[update(1, 0, 8), update(1, 2, 9)]);
        let (answer, end) = ran(&one, &told, &changes);
        assert_eq!(answer, (0, 0, 1));
        assert_eq!(rows_of_table_3(&end), [[1, 2, 3, 4], [8, 2, 9, 4]]);
    }
    let (answer, _) = ran(
        &one,
        &book(9, &[&rule(4, 2, 0, &[ROLLBACK])]),
        &log(&[update(1, 0, 8), update(1, 2, 9)]),
    );
    assert_eq!(answer, (0, 0, 0));
    // D: an update that changes no value triggers.
    let (answer, _) = ran(
        &one,
        &book(9, &[&rule(4, 1, 0, &[ROLLBACK])]),
        &log(&[update(1, 0, 1)]),
    );
    assert_eq!(answer, (1, 0, 1));
    // Updated then deleted: deleted, as the row was in the end.
    let (answer, end) = ran(
        &one,
        &book(9, &[&rule(7, 15, 0, &[&copy(5), &copy(7)])]),
        &log(&[update(1, 3, 7), delete(1)]),
    );
    assert_eq!(
        (answer, rows_of_table_3(&end)),
        ((0, 0, 1), vec![[1, 2, 3, 7]])
    );
}

#[test]
fn orders() {
    let order = |edges: [u16; 3]| {
        let rules = edges.map(|precedes| rule(1, 0, precedes, &[ROLLBACK]));
        let book = book(1, &[&rules[0], &rules[1], &rules[2]]);
        let mut out = [0xA5; 17];
        let answer = check_book(&book, &mut out);
        let cycle = answer.is_err();
        for (k, rule) in rules.iter().enumerate() {
            assert_eq!(rule_bytes(&book, k), if cycle { &[] } else { &rule[..] });
        }
        assert_eq!(rule_bytes(&book, 3), &[] as &[u8]);
        let touched = answer.unwrap_or(0);
        assert!(out[touched..].iter().all(|&byte| byte == 0xA5));
        answer.map(|count| out[..count].to_vec())
    };
    assert_eq!(order([0, 0, 1]), Ok(vec![1, 2, 0])); // E
    assert_eq!(order([0, 0, 2]), Ok(vec![0, 2, 1])); // F
    assert_eq!(order([2, 1, 0]), Err(5)); // G
    assert_eq!(order([0, 2, 0]), Err(5));
    assert_eq!(check_book(&book(1, &[]), &mut [0; 15]), Err(1));
    assert_eq!(check_book(&[], &mut [0; 16]), Err(4));
}

#[test]
fn limits() {
    let one = image(2, &[(1, 0, [0; 4])]);
    let climb: &[u8] = &[4, 0, 8, 2, 3, 0, 0, 0, 1, 1, 2, 3, 0, 0, 0, 5];
    let start = log(&[update(1, 3, 1)]);
    let at = |limit| ran(&one, &book(limit, &[&rule(4, 8, 0, &[climb])]), &start).0;
    assert_eq!(at(5), (0, 0, 5)); // H
    assert_eq!(at(4), (2, 0, 4)); // I
}

#[test]
fn room_and_handles() {
    let none = book(1, &[]);
    let rows: Vec<_> = (1..=64).map(|handle| (handle, 0, [0; 4])).collect();
    let full = image(65, &rows);
    let (away, new) = (delete(1), insert(1, [0; 4]));
    assert_eq!(
        ran(&full, &none, &log(&[away.clone(), new.clone()])).0,
        (0, 0, 0)
    ); // J
    assert_eq!(ran(&full, &none, &log(&[new.clone(), away])).0, (3, 2, 0)); // K
    let late = image(4_294_967_294, &[]);
    assert_eq!(
        ran(&late, &none, &log(std::slice::from_ref(&new))).0,
        (0, 0, 0)
    ); // L
    assert_eq!(
        ran(&late, &none, &log(&[new.clone(), new.clone()])).0,
        (3, 3, 0)
    );
    assert_eq!(ran(&late, &none, &log(&[delete(0)])).0, (3, 1, 0));
    let (answer, same) = ran(&full, &none, &log(&[])); // M
    assert_eq!((answer, same), ((0, 0, 0), full.clone()));
    let mut out = [7; IMAGE_MAX];
    assert_eq!(run(&[], &none, &log(&[]), &mut out), Answer::Refused(3)); // N
    assert_eq!(
        run(&full, &none, &log(&[]), &mut out[1..]),
        Answer::Refused(1)
    );
    assert_eq!(out, [7; IMAGE_MAX]);
}

#[test]
fn whole_run() {
    let image = image(
        6,
        &[
            (1, 0, [7, 1, 10, 0]),
            (2, 0, [7, 2, 10, 0]),
            (3, 1, [7, 1, 501, 0]),
            (4, 1, [7, 2, 502, 0]),
            (5, 1, [8, 1, 503, 0]),
        ],
    );
    assert_eq!(image.len(), 116);
    let book = [
        0, 0, 0, 0x16, 1, 0, 0x64, 1, 1, 0, 4, 4, 0, 0, 0, 1, 3, 1, 1, 0x0C, 6, 2, 0, 0, 1, 1,
    ];
    let log = [0, 0, 0, 0x0D, 1, 0, 1, 3, 0, 0, 0, 2, 4, 0, 0, 0, 0x0B];
    let printed = "0 0 1 6 4\n1 0 7 1 10 0\n2 0 7 2 11 0\n3 1 7 1 501 0\n5 1 8 1 503 0\n";
    assert_eq!(
        program(&[&image[..], &book, &log].concat()),
        printed.as_bytes()
    );
}

#[test]
fn generated_inputs_run() {
    let mut whole = 0;
    for seed in 0..1_500 {
        let (image, book, log) = parts(seed);
        let joined = [&image[..], &book, &log].concat();
        whole += u32::from(joined == input(seed));
        program(&input(seed));
        let mut out = [0xA5; IMAGE_MAX];
        match run(&image, &book, &log, &mut out) {
            Answer::Refused(_) => assert_eq!(out, [0xA5; IMAGE_MAX]),
            Answer::Ran {
                outcome, written, ..
            } => {
                assert!(outcome == 0 || out[..written] == image);
                assert!(out[written..].iter().all(|&byte| byte == 0xA5));
            }
        }
    }
    assert!(whole > 1_300);
}

#[test]
fn kinds_keep_their_word() {
    for seed in 0..60 {
        let answer = |kind| {
            let (image, book, log) = of_kind(kind, seed);
            match run(&image, &book, &log, &mut [0; IMAGE_MAX]) {
                Answer::Ran { outcome, count, .. } => (outcome, count, image[9..11].to_vec()),
                Answer::Refused(refusal) => panic!("{kind:?} {seed}: refused {refusal}"),
            }
        };
        let (outcome, count, _) = answer(Kind::Idle);
        assert_eq!((outcome, count), (0, 0));
        answer(Kind::Mixed);
        assert!(answer(Kind::Chain).1 >= 100);
        let (_, count, rows) = answer(Kind::Full);
        assert!(count >= 1 && rows == [0, 64]);
    }
}
