//! The example of three laptops says what README.md shows.

#[path = "../examples/laptops.rs"]
mod laptops;

#[test]
fn three_laptops_are_served_in_turn() {
    let said = laptops::lines();
    assert_eq!(
        said,
        [
            "seat 4 submits stage 2",
            "seat 6 submits stage 3, a byte too long",
            "seat 1 submits stage 1",
            "seat 1 submits stage 3: refused 30",
            "turn: seat 1, accepted 31",
            "seat 1 submits stage 3",
            "turn: seat 4, refused 15 file 3 at 15",
            "turn: seat 6, refused 34 file 4 at 0",
            "turn: seat 1, accepted 19",
            "turn: no job waits",
        ]
    );
    let page = include_str!("../../../README.md");
    let shown: String = said.iter().map(|line| format!("    {line}\n")).collect();
    assert!(page.contains(&shown), "README.md does not show it");
}
