//! The header for C has the numbers and the version of this crate.
use barrizuppa::Refusal;

const HEADER: &str = include_str!("../../../include/barrizuppa.h");

#[test]
fn every_refusal_is_in_the_enum() {
    let numbers: Vec<u32> = HEADER
        .lines()
        .filter_map(|line| line.trim().strip_prefix("BARRIZUPPA_REFUSED_"))
        .map(|line| line.split(' ').nth(2).unwrap().trim_end_matches(','))
        .map(|number| number.parse().unwrap())
        .collect();
    let known = |number: &u32| Refusal::new(*number, 0).meaning() != "unknown";
    assert_eq!(numbers, (1..).take_while(known).collect::<Vec<_>>());
}

#[test]
fn one_version() {
    let version = env!("CARGO_PKG_VERSION");
    assert!(HEADER.contains(&format!("#define BARRIZUPPA_VERSION \"{version}\"\n")));
}
