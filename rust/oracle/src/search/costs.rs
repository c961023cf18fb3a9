//! The cost of a document in each mode, "the number of postings scored", or none where the mode does not visit it.

use super::Question;

/// "Mode 0 visits every matching document; its cost is the number of mentions whose list holds it."
pub fn plain_cost(question: &Question, _bar: u64, document: u32) -> Option<u64> {
    question.matches(document).then(|| question.holding(document) as u64)
}

/// "A document is visited if a mention above rank j holds it. All such postings are scored. Then, from rank j down to
/// 1: if the sum so far plus P(i) is at most the bar, the document is dropped; else the mention at rank i is looked up
/// and scored if it holds the document. The cost is the number of postings scored."
pub fn pruned_cost(question: &Question, bar: u64, document: u32) -> Option<u64> {
    let (ceilings, rules) = (&question.ceilings, question.rules);
    let j = ceilings.set_aside(bar, rules);
    let products = ceilings.above(j).iter().filter_map(|mention| question.product(mention, document));
    let (mut sum, mut cost) = products.fold((0, 0), |(sum, cost), product| (sum + product, cost + 1));
    if cost == 0 {
        return None;
    }
    for i in (1..=j).rev() {
        if (rules.drops)(sum + ceilings.sum((rules.rank_of_bound)(i)), bar) {
            break;
        }
        let product = question.product(ceilings.rank(i), document);
        sum += product.unwrap_or(0);
        cost += (rules.lookup_cost)(product.is_some());
    }
    Some(cost)
}

/// "Mode 2 visits every matching document at cost q."
pub fn all_terms_cost(question: &Question, _bar: u64, document: u32) -> Option<u64> {
    question.matches(document).then(|| question.q() as u64)
}
