//! The example prints what is stored for it; ../../c/run.sh holds the C example to the same text.
#[allow(dead_code)]
#[path = "../examples/plan_a_day.rs"]
mod plan_a_day;

#[test]
fn the_day_is_planned_as_stored() {
    let mut text = String::new();
    assert_eq!(plan_a_day::plan(&mut text), Ok(()));
    assert_eq!(text, include_str!("../../plan_a_day.txt"));
}
