//! Faults aimed at each of the refusals 9 to 14, at the first, a middle or the last query.

use super::Random;
use crate::write::{QueryDraft, SheetDraft};

/// One or two faults in a sheet over so many terms.
pub fn random_faults(random: &mut Random, sheet: &mut SheetDraft, terms: usize) {
    let faults = if random.one_in(4) { 2 } else { 1 };
    for _ in 0..faults {
        let queries = sheet.queries.len();
        if queries == 0 || random.one_in(4) {
            count_fault(random, sheet);
        } else {
            let query = random.pick(&[0, queries / 2, queries - 1]);
            query_fault(random, &mut sheet.queries[query], terms as u32);
        }
    }
}

/// 9: the number of queries, numbers missing, numbers left over.
fn count_fault(random: &mut Random, sheet: &mut SheetDraft) {
    let numbers = sheet.numbers().len();
    match random.below(10) {
        0 => sheet.says = random.pick(&[0, 65, u32::MAX]),
        1 => sheet.says = random.any(),
        2 => sheet.says = sheet.says.wrapping_add(1),
        3 => sheet.says = sheet.says.wrapping_sub(1),
        4 => sheet.lacking = 1 + random.below(numbers.max(1)),
        5 => sheet.lacking = 1 + random.below(5),
        6 => *sheet = SheetDraft::new(Vec::new()),
        7 if !sheet.queries.is_empty() => {
            let query = sheet.queries[0].clone();
            sheet.queries.resize(random.between(64, 66) as usize, query);
            sheet.says = sheet.queries.len() as u32;
        }
        _ => sheet.left_over = vec![random.between(0, 2); random.pick(&[1, 1, 2, 5])],
    }
}

/// 10 to 14, and 9 for pairs that are missing.
fn query_fault(random: &mut Random, query: &mut QueryDraft, terms: u32) {
    let mentions = query.mentions.len();
    match random.between(9, 14) {
        10 => query.mode = random.pick(&[3, 4, 256, u32::MAX]),
        11 => query.k = random.pick(&[0, 65, 66, 256, u32::MAX]),
        12 => {
            let mention = query.mentions.first().copied().unwrap_or((0, 1));
            query.terms = random.pick(&[0, 17, 18, u32::MAX]);
            query.mentions.resize(query.terms.min(20) as usize, mention);
        }
        13 if mentions > 0 => {
            let mention = &mut query.mentions[random.below(mentions)];
            mention.0 = random.pick(&[terms, terms + 1, u32::MAX]);
            mention.1 = if random.one_in(4) { 0 } else { mention.1 };
        }
        14 if mentions > 0 => {
            query.mentions[random.below(mentions)].1 = random.pick(&[0, 256, 257, 65_536, u32::MAX]);
        }
        _ => query.terms = random.between(1, 16),
    }
}
