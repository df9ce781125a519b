//! A whole case: its text is drawn, every entry is asked, and what differed is told.

use crate::case::{Case, Counts};
use crate::desk::Desk;
use crate::{papers, sessions, signed, texts};
use second::chance::Chance;
use second::desk::Page;
use second::families::{text, Family};
use second::plan::shown;

/// Draws a family's case and compares all of it; what differed is told with the text.
pub fn compared(desk: &impl Desk, family: &Family, seed: u64, number: u64, most_steps: u64) -> (Counts, Vec<String>) {
    let text = text(family, seed, number);
    let before = text.clone();
    // A stream apart from the text's own.
    let chance = Chance::of_case(seed ^ 0x5EC0_4D00, number);
    let page = Page::new(&text, most_steps);
    let mut case = Case { desk, text: &text, page, chance, counts: Counts::default(), steps: Vec::new(), differences: Vec::new() };
    texts::compare(&mut case);
    signed::compare(&mut case);
    sessions::compare(&mut case);
    signed::compare_runs(&mut case);
    papers::compare_written(&mut case);
    if before != case.text {
        case.counts.texts_failed += 1;
        case.differences.push("the text itself was changed\n".to_string());
    }
    let told = |difference: &String| {
        let head = format!("DIFFERENCE: family {} seed {seed} case {number}: {difference}", family.name);
        format!("{head}text ({} bytes):\n{}\n", text.len(), shown(&text))
    };
    let differences = case.differences.iter().map(told).collect();
    (case.counts, differences)
}
