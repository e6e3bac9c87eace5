//! src/library.rs and `Vehicle` say what include/planner.h says: the same entries, with the same parameters in the same order.
use std::collections::BTreeMap;

static HEADER: &str = include_str!("../../../include/planner.h");
static LIBRARY: &str = include_str!("../src/library.rs");
static VEHICLE: &str = include_str!("../src/vehicle.rs");

/// What stands between the two, the first time.
fn between<'a>(text: &'a str, start: &str, end: &str) -> &'a str {
    let (_, behind) = text.split_once(start).unwrap_or_else(|| panic!("there is no '{start}'"));
    behind.split_once(end).unwrap_or_else(|| panic!("there is no '{end}' behind '{start}'")).0
}

/// Words parted by one blank each, and none at a comma's left or a star's right.
fn plainly(text: &str) -> String {
    text.split_whitespace().collect::<Vec<_>>().join(" ").replace(" ,", ",").replace("* ", "*")
}

fn without_comments(text: &str) -> String {
    let parts = text.split("/*").map(|part| part.split_once("*/").map_or(part, |(_, behind)| behind));
    parts.collect()
}

/// The header's functions by name, each with its parameters in words.
fn declared() -> BTreeMap<String, String> {
    let mut text = without_comments(HEADER).replace("\\\n", " ");
    while let Some((name, body)) = text.lines().find_map(|line| line.strip_prefix("#define PLANNER_")?.split_once(' ')) {
        let (name, body) = (format!("PLANNER_{name}"), body.to_string());
        text = text.replacen(&format!("#define {name}"), "#defined", 1);
        text = text.replace(&format!("{name},"), &format!("{body},")).replace(&format!("{name})"), &format!("{body})"));
    }
    let functions = text.split("uint8_t planner_").skip(1).map(|function| between(function, "", ");").split_once('('));
    functions.flatten().map(|(name, parameters)| (format!("planner_{name}"), plainly(parameters))).collect()
}

fn in_c(kind: &str) -> &str {
    match kind {
        "u8" => "uint8_t",
        "u16" => "uint16_t",
        "u32" => "uint32_t",
        "i32" => "int32_t",
        "usize" => "size_t",
        "f64" => "double",
        "Vehicle" => "struct planner_van",
        _ => panic!("{kind} has no name in C"),
    }
}

/// `NAME: KIND, ..` in C, each made so by `form`.
fn parameters(list: &str, form: impl Fn(&str, &str) -> String) -> Vec<String> {
    let pairs = list.split(',').filter_map(|parameter| parameter.trim().split_once(": "));
    pairs.map(|(name, kind)| form(name, kind)).collect()
}

fn written(name: &str, kind: &str) -> String {
    format!("{} *{name}, size_t {name}_count", in_c(kind))
}

fn read(name: &str, kind: &str) -> String {
    format!("const {}", written(name, kind))
}

fn other(name: &str, kind: &str) -> String {
    kind.strip_prefix("&mut ").map_or_else(|| format!("{} {name}", in_c(kind)), |kind| format!("{} *{name}", in_c(kind)))
}

/// The entries of library.rs that `of` makes, with what comes behind the day.
fn entries(of: &str, first: &[String]) -> BTreeMap<String, String> {
    let day = between(LIBRARY, "fn $name(\n                    l: usize,", "$(").replace(", _: usize", "").replace("*const ", "");
    let entry = |text: &str| {
        let text = between(text, "", ");");
        let mut all = vec!["size_t l".to_string()];
        all.extend(parameters(&day, read));
        all.extend_from_slice(first);
        all.extend(parameters(between(text, "writes(", ")"), written));
        all.extend(parameters(between(text, "reads(", ")"), read));
        let (_, others) = text.rsplit_once(')').unwrap_or(("", ""));
        all.extend(parameters(others, other));
        (between(text, "", ",").to_string(), plainly(&all.join(", ")))
    };
    LIBRARY.split(of).skip(1).map(entry).collect()
}

#[test]
fn the_entries_are_the_header_s() {
    let fleet = parameters(between(LIBRARY, "Fleet<'_> {", "}"), read);
    let mut ours = entries("\nvan_entry!(", &["struct planner_van van".to_string()]);
    ours.extend(entries("\nfleet_entry!(", &fleet));
    let declared = declared();
    assert_eq!(ours.keys().collect::<Vec<_>>(), declared.keys().collect::<Vec<_>>());
    for (name, parameters) in &declared {
        assert_eq!(ours.get(name), Some(parameters), "{name}");
    }
}

#[test]
fn the_van_is_the_header_s() {
    let header = without_comments(between(HEADER, "struct planner_van {", "};"));
    let ours = parameters(&between(VEHICLE, "pub struct Vehicle {", "}").replace("pub(crate) ", ""), other);
    assert_eq!(plainly(&header.replace(';', ",")), plainly(&(ours.join(", ") + ",")));
}
