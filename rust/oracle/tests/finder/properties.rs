//! What the finder promises of any two of its answers, asked of the running library alone: larger budgets, the same
//! query on other sheets, the same index in other blocks, and the modes beside each other.

use crate::tested::{first_seed, show};
use clipfinder::{Answer, Mode, Query, Sheet, ask};
use oracle::cases::{Random, draft_image_of, draft_list, draft_query};
use oracle::write::{ImageDraft, QueryDraft};

/// Images for each property.
const IMAGES: u64 = 2_000;

/// Runs a property on a sound image of each seed.
fn on_images(name: &str, property: fn(&mut Random, &ImageDraft)) {
    let first = first_seed(0);
    for seed in first..first + IMAGES {
        let mut random = Random::new(seed);
        let (documents, terms) = (random.between(1, 80), random.between(1, 6));
        let image = draft_image_of(&mut random, documents, terms);
        let held = std::panic::catch_unwind(|| property(&mut Random::new(!seed), &image));
        assert!(held.is_ok(), "{name} does not hold at seed {seed}");
    }
    show(&format!("{name}: holds on the images of seeds {first} to {}", first + IMAGES - 1));
}

fn random_query(random: &mut Random, image: &ImageDraft) -> Query {
    let QueryDraft { mode, k, mentions, .. } = draft_query(random, image.lists.len());
    let mode = [Mode::Plain, Mode::Pruned, Mode::All][mode as usize];
    mentions.iter().fold(Query::new(mode, k, u32::MAX), |query, &(term, weight)| query.mention(term, weight))
}

fn random_queries(random: &mut Random, image: &ImageDraft) -> Vec<Query> {
    let queries = random.between(2, 12);
    let query = |_| Query { budget: random.pick(&[0, 3, 20, 90, u32::MAX]), ..random_query(random, image) };
    (0..queries).map(query).collect()
}

fn sheet_of(queries: &[Query]) -> Sheet {
    let mut sheet = Sheet::new();
    queries.iter().for_each(|query| sheet.push(query));
    sheet
}

fn answers(image: &[u8], queries: &[Query]) -> Vec<Answer> {
    ask(image, &sheet_of(queries)).expect("image and sheet are sound")
}

#[test]
fn a_larger_budget_never_answers_worse() {
    on_images("larger budgets", |random, image| {
        let query = random_query(random, image);
        let mut budgets: Vec<u32> = (0..60).map(|_| random.between(0, 300)).collect();
        budgets.extend([0, 1, u32::MAX]);
        budgets.sort_unstable();
        let queries: Vec<Query> = budgets.iter().map(|&budget| Query { budget, ..query.clone() }).collect();
        let answers = answers(&image.bytes(), &queries);
        for (answer, query) in answers.iter().zip(&queries) {
            stands_alone(answer, query);
        }
        for pair in answers.windows(2) {
            never_worse(&pair[0], &pair[1], query.k as usize);
        }
        assert!(answers[62].finished);
    });
}

/// The budget is kept, and the rows are below the place and in order of rank.
fn stands_alone(answer: &Answer, query: &Query) {
    assert!(answer.postings_scored <= query.budget);
    assert!(answer.rows.len() <= query.k as usize);
    assert!(answer.rows.iter().all(|row| row.document < answer.place && row.score > 0));
    let ranks = answer.rows.iter().map(|row| (u32::MAX - row.score, row.document));
    assert!(ranks.is_sorted_by(|one, other| one < other));
}

/// Place, rows found and postings scored never fall; row by row the score never falls; a row is left out only where a
/// full table outranks it; and a finished answer stays.
fn never_worse(smaller: &Answer, larger: &Answer, k: usize) {
    assert!(smaller.place <= larger.place);
    assert!(smaller.postings_scored <= larger.postings_scored);
    assert!(smaller.rows.len() <= larger.rows.len());
    assert!(smaller.rows.iter().zip(&larger.rows).all(|(before, after)| before.score <= after.score));
    for row in smaller.rows.iter().filter(|row| !larger.rows.contains(row)) {
        assert_eq!(larger.rows.len(), k);
        assert!(larger.rows[k - 1].score > row.score || larger.rows[k - 1].document < row.document);
    }
    if smaller.finished {
        assert_eq!(smaller, larger);
    }
}

#[test]
fn a_query_is_answered_alike_alone_and_on_a_sheet_of_many() {
    on_images("alone and on a sheet", |random, image| {
        let bytes = image.bytes();
        let mut queries = random_queries(random, image);
        let mut together = answers(&bytes, &queries);
        for (query, answer) in queries.iter().zip(&together) {
            assert_eq!(answers(&bytes, std::slice::from_ref(query)), std::slice::from_ref(answer));
        }
        queries.reverse();
        together.reverse();
        assert_eq!(answers(&bytes, &queries), together);
    });
}

#[test]
fn an_index_is_answered_alike_in_other_blocks() {
    on_images("other blocks", |random, image| {
        let queries = random_queries(random, image);
        let expected = answers(&image.bytes(), &queries);
        for _ in 0..4 {
            let lists = image.lists.iter().map(|list| draft_list(random, &list.postings())).collect();
            let other = ImageDraft { documents: image.documents, lists };
            assert_eq!(answers(&other.bytes(), &queries), expected);
        }
    });
}

#[test]
fn pruning_loses_no_row_and_scores_no_posting_more() {
    on_images("plain beside pruned", |random, image| {
        let query = random_query(random, image);
        let asked = [Mode::Plain, Mode::Pruned, Mode::All].map(|mode| Query { mode, ..query.clone() });
        let [plain, pruned, all] = answers(&image.bytes(), &asked).try_into().expect("three answers");
        let postings = |term: u32| image.lists[term as usize].postings().len();
        let all_postings: usize = query.mentions.iter().map(|mention| postings(mention.term)).sum();
        assert!(plain.finished && pruned.finished && all.finished);
        assert_eq!(plain.rows, pruned.rows);
        assert_eq!(plain.postings_scored as usize, all_postings);
        assert!(pruned.postings_scored <= plain.postings_scored);
        assert!(all.postings_scored <= plain.postings_scored);
        assert!(all.rows.len() <= plain.rows.len());
    });
}
