//! The header's names and numbers, and no two refusals alike.

use std::collections::HashSet;
use std::error::Error;

use super::Refusal;

const HEADER: &str = include_str!("../../../../include/sindhopul.h");

/// The causes of the header: SESSION_DAY as SessionDay, with their numbers.
fn causes_of_header() -> impl Iterator<Item = (String, u16)> {
    HEADER.lines().filter_map(|line| {
        let (name, number) = line
            .trim()
            .strip_prefix("SINDHOPUL_CAUSE_")?
            .split_once(" = ")?;
        let number = number
            .trim_end_matches(',')
            .parse()
            .expect("a cause is a number");
        let word = |word: &str| word[..1].to_string() + &word[1..].to_lowercase();
        Some((name.split('_').map(word).collect(), number))
    })
}

/// Every refusal with values that stand beside its number, or would.
#[test]
fn every_cause_can_be_told() {
    let mut texts = HashSet::new();
    for (name, number) in causes_of_header() {
        let refusal = Refusal::unless_accepted(number, &[317, 4]).expect_err("it is a cause");
        assert_eq!(format!("{refusal:?}").split(' ').next(), Some(&*name));
        assert_eq!(refusal.number(), number);
        let error: &dyn Error = &refusal;
        let text = error.to_string();
        assert!(text.starts_with(&format!("refused ({number}): ")), "{text}");
        assert!(texts.insert(text));
    }
    assert!(texts.contains("refused (17): the register is empty"));
}

#[test]
fn a_month_is_told_with_its_date() {
    let month = Refusal::CalendarMonth { month: 317 }.to_string();
    assert!(month.contains("month 317 (2026-06)"), "{month}");
}
