//! A mismatch in words: the image, the sheet, and what each finder said, side by side.

use super::{Finder, Lent, Said, oracle};
use crate::outcome::Outcome;

/// The lent rows, and both answers number by number; an arrow marks each difference.
pub fn side_by_side(lent: &Lent, finder: &Finder) -> String {
    let (expected, given) = (lent.ask(&oracle), lent.ask(finder));
    let image: Vec<String> = lent.image.iter().map(|byte| format!("{byte:02X}")).collect();
    let sheet: Vec<String> = lent.sheet.iter().map(u32::to_string).collect();
    let mut lines = vec![
        format!("image of {} bytes: {}", lent.image.len(), image.join(" ")),
        format!("sheet of {} numbers: {}", lent.sheet.len(), sheet.join(", ")),
        format!("answer row of {} numbers", lent.room),
        line("", "oracle", "tested"),
        line("outcome", &words(expected.outcome), &words(given.outcome)),
    ];
    lines.extend(rows(lent, &expected, &given));
    lines.join("\n") + "\n"
}

fn words(outcome: Outcome) -> String {
    match outcome {
        Ok(count) => format!("done {count}"),
        Err(refusal) => format!("refused {} {}", refusal.number, refusal.place),
    }
}

/// The rows' numbers, and the guards around them where they differ.
fn rows(lent: &Lent, expected: &Said, given: &Said) -> Vec<String> {
    let inside = 0..lent.room as i64;
    let pairs = expected.numbers().zip(given.numbers());
    let shown = pairs.filter(|((at, one), (_, other))| inside.contains(at) || one != other);
    shown.map(|((at, one), (_, other))| line(&format!("row {at}"), &one.to_string(), &other.to_string())).collect()
}

fn line(name: &str, one: &str, other: &str) -> String {
    let arrow = if name.is_empty() || one == other { "" } else { "  <--" };
    format!("{name:>8}  {one:>16}  {other:>16}{arrow}")
}
