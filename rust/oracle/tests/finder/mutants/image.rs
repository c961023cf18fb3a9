//! Errors in judging an image and reading its postings.

use super::Change;

pub const MUTANTS: &[(&str, Change)] = &[
    // Document 01's "errors that look right".
    ("the first block's size is taken for all", |r| {
        r.image.postings_of_block =
            |field, before| before.first().map_or(field as usize + 1, |block| block.postings.len());
    }),
    ("a block is rounded up to a byte", |r| r.image.next_block_bit = |end| end.next_multiple_of(8)),
    ("the previous document restarts at each block", |r| r.image.previous_of_block = |_| -1),
    ("the last block's largest impact makes the list's ceiling", |r| {
        r.image.largest_of_list = |field, blocks| blocks.last().map_or(field, |block| block.largest);
    }),
    ("the first block's largest impact makes the list's ceiling", |r| {
        r.image.largest_of_list = |field, blocks| blocks.first().map_or(field, |block| block.largest);
    }),
    // Boundaries.
    ("an image of 7 bytes is read", |r| r.image.least_bytes = 7),
    ("an image of 8 bytes is refused 1", |r| r.image.least_bytes = 9),
    ("version 2 is the one", |r| r.image.version = 2),
    ("an image longer than its length field", |r| r.image.length_is_true = |field, bytes| field <= bytes),
    ("an image shorter than its length field", |r| r.image.length_is_true = |field, bytes| field >= bytes),
    ("a directory that ends the image", |r| r.image.directory_fits = |end, bytes| end < bytes),
    ("a directory past the image's end", |r| r.image.directory_fits = |_, _| true),
    ("an empty list's first bit", |r| r.image.empty_entry_is_sound = |_, largest| largest == 0),
    ("an empty list's largest impact", |r| r.image.empty_entry_is_sound = |first_bit, _| first_bit == 0),
    ("as many postings as documents are refused", |r| {
        r.image.postings_fit = |postings, documents| postings < documents as usize;
    }),
    ("one posting more than documents", |r| {
        r.image.postings_fit = |postings, documents| postings <= documents as usize + 1;
    }),
    ("a list anywhere", |r| r.image.is_at_due_bit = |_, _| true),
    ("a list in its due byte", |r| r.image.is_at_due_bit = |first_bit, due| first_bit / 8 == due / 8),
    ("a block that ends at the last bit is refused", |r| r.image.ends_inside = |end, bits| end < bits),
    ("a block one bit past the end", |r| r.image.ends_inside = |end, bits| end <= bits + 1),
    ("w 24 is refused", |r| r.image.widest_gap = 23),
    ("w 25 is read", |r| r.image.widest_gap = 25),
    ("a list's last block must leave a posting", |r| r.image.list_has_left = |postings, left| postings < left),
    ("one posting more than the list has left", |r| r.image.list_has_left = |postings, left| postings <= left + 1),
    ("a full block is read as 127 postings", |r| {
        r.image.postings_of_block = |field, _| if field == 127 { 127 } else { field as usize + 1 };
    }),
    ("a gap without the 1", |r| r.image.document = |previous, gap| previous.max(0) + i64::from(gap)),
    ("document N is read", |r| r.image.document_is_sound = |document, documents| document <= i64::from(documents)),
    ("document N - 1 is refused", |r| {
        r.image.document_is_sound = |document, documents| document + 1 < i64::from(documents);
    }),
    ("impact 0 is read", |r| r.image.least_impact = 0),
    ("impact 1 is refused", |r| r.image.least_impact = 2),
    ("a block's last document is not judged", |r| r.image.last_is_true = |_, _| true),
    ("a block's largest impact is not judged", |r| r.image.block_largest_is_true = |_, _| true),
    ("a block's largest impact may be larger", |r| r.image.block_largest_is_true = |field, largest| field >= largest),
    ("a list's largest impact is not judged", |r| r.image.list_largest_is_true = |_, _| true),
    ("a list's largest impact may be larger", |r| r.image.list_largest_is_true = |field, largest| field >= largest),
    ("8 bits left", |r| r.image.most_bits_left = 8),
    ("7 bits left are refused", |r| r.image.most_bits_left = 6),
    ("bits left that are not zero", |r| r.image.bits_left_are_sound = |_| true),
    ("a term's place from 1", |r| r.image.term_place = |term| term + 1),
    ("refusal 8 at the last term", |r| r.image.bits_left_place = |terms| terms.saturating_sub(1)),
];
