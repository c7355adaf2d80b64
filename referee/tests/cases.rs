//! Every case under `tests/cases` is answered as it says.

use referee::cases::{folder, load, Case};
use referee::stack::with_large_stack;

const CASES: usize = 4_101;

/// The name of the case, what is expected and what the referee says.
fn failure(case: &Case) -> Option<String> {
    let got = case.record.expand().printed();
    if got == case.answer {
        return None;
    }
    Some(format!(
        "{}\n expected {}\n got      {}",
        case.name,
        case.answer.escape_ascii(),
        got.escape_ascii()
    ))
}

#[test]
fn every_case_agrees() {
    let cases = load(&folder()).expect("the cases can be read");
    assert_eq!(cases.len(), CASES, "number of cases");
    let failures = with_large_stack(move || cases.iter().filter_map(failure).collect::<Vec<_>>())
        .expect("every case is answered");
    let shown = failures.iter().take(20).cloned().collect::<Vec<_>>();
    assert!(
        failures.is_empty(),
        "{} cases disagree:\n{}",
        failures.len(),
        shown.join("\n")
    );
}

#[test]
fn every_name_is_given_once() {
    let cases = load(&folder()).expect("the cases can be read");
    let mut names: Vec<String> = cases.into_iter().map(|case| case.name).collect();
    names.sort();
    names.dedup();
    assert_eq!(names.len(), CASES, "number of names");
}
