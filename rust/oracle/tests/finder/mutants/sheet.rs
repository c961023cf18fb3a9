//! Errors in judging a sheet and in the answer row.

use super::Change;
use oracle::query::Mode;
use oracle::rules::DOCUMENT_01;

pub const MUTANTS: &[(&str, Change)] = &[
    ("65 queries", |r| r.sheet.queries_are_sound = |queries| (1..=65).contains(&queries)),
    ("64 queries are refused", |r| r.sheet.queries_are_sound = |queries| (1..=63).contains(&queries)),
    ("no query", |r| r.sheet.queries_are_sound = |queries| queries <= 64),
    ("mode 3 is read as mode 2", |r| {
        r.sheet.mode = |number| [Mode::Plain, Mode::Pruned, Mode::All, Mode::All].get(number as usize).copied();
    }),
    ("k 65", |r| r.sheet.k_is_sound = |k| (1..=65).contains(&k)),
    ("k 64 is refused", |r| r.sheet.k_is_sound = |k| (1..=63).contains(&k)),
    ("k 1 is refused", |r| r.sheet.k_is_sound = |k| (2..=64).contains(&k)),
    ("k 0, which has no bar", |r| {
        r.sheet.k_is_sound = |k| k <= 64;
        r.search.bar = |ranked, k| if k == 0 { 0 } else { (DOCUMENT_01.search.bar)(ranked, k) };
    }),
    ("q 17", |r| r.sheet.q_is_sound = |q| (1..=17).contains(&q)),
    ("q 16 is refused", |r| r.sheet.q_is_sound = |q| (1..=15).contains(&q)),
    ("q 0", |r| r.sheet.q_is_sound = |q| q <= 16),
    ("term T is read as the last", |r| {
        r.sheet.term = |number, terms| match number as usize {
            term if term == terms => term.checked_sub(1),
            term => (term < terms).then_some(term),
        };
    }),
    ("term T - 1 is refused", |r| {
        r.sheet.term = |number, terms| (number as usize + 1 < terms).then_some(number as usize);
    }),
    ("weight 256", |r| r.sheet.weight_is_sound = |weight| (1..=256).contains(&weight)),
    ("weight 255 is refused", |r| r.sheet.weight_is_sound = |weight| (1..=254).contains(&weight)),
    ("weight 0", |r| r.sheet.weight_is_sound = |weight| weight <= 255),
    ("14 before 13", |r| r.sheet.first_of_pair = 14),
    ("a number left over", |r| r.sheet.rest_is_sound = |left_over| left_over <= 1),
    ("a query's place from 1", |r| r.sheet.query_place = |query| query + 1),
    ("numbers left over at the last query", |r| r.sheet.left_over_place = |queries| queries - 1),
    ("a row one too long is needed", |r| r.sheet.row_holds = |needed, row| needed < row),
    ("no zeros after the rows found", |r| r.sheet.fills_with_zeros = false),
];
