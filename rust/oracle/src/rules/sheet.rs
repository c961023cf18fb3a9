//! What "The sheet and the answer row" and refusals 9 to 15 compare.

use crate::query::Mode;

/// Each comparison or number with document 01's words beside it.
#[derive(Clone, Copy)]
pub struct SheetRules {
    /// 9: "queries not 1 to 64".
    pub queries_are_sound: fn(queries: u32) -> bool,
    /// 10: "mode above 2"; "0 plain, 1 pruned, 2 all terms".
    pub mode: fn(number: u32) -> Option<Mode>,
    /// 11: "k not 1 to 64".
    pub k_is_sound: fn(k: u32) -> bool,
    /// 12: "q not 1 to 16".
    pub q_is_sound: fn(q: u32) -> bool,
    /// 13: "term T or above".
    pub term: fn(number: u32, terms: usize) -> Option<usize>,
    /// 14: "weight not 1 to 255".
    pub weight_is_sound: fn(weight: u32) -> bool,
    /// "pair by pair 13 before 14": the number given where both are at fault.
    pub first_of_pair: u32,
    /// 9: "numbers ... left over".
    pub rest_is_sound: fn(left_over: usize) -> bool,
    /// 9 to 14: the place is the query.
    pub query_place: fn(query: usize) -> usize,
    /// 9: "the number of queries for numbers left over".
    pub left_over_place: fn(queries: usize) -> usize,
    /// 15: "answer row too short".
    pub row_holds: fn(needed: usize, row: usize) -> bool,
    /// "then zeros up to k rows".
    pub fills_with_zeros: bool,
}

pub const DOCUMENT_01: SheetRules = SheetRules {
    queries_are_sound: |queries| (1..=64).contains(&queries),
    mode: |number| match number {
        0 => Some(Mode::Plain),
        1 => Some(Mode::Pruned),
        2 => Some(Mode::All),
        _ => None,
    },
    k_is_sound: |k| (1..=64).contains(&k),
    q_is_sound: |q| (1..=16).contains(&q),
    term: |number, terms| (0..terms).contains(&(number as usize)).then_some(number as usize),
    weight_is_sound: |weight| (1..=255).contains(&weight),
    first_of_pair: 13,
    rest_is_sound: |left_over| left_over == 0,
    query_place: |query| query,
    left_over_place: |queries| queries,
    row_holds: |needed, row| needed <= row,
    fills_with_zeros: true,
};
