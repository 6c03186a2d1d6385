//! The constants of `src/raw.rs` are those of the C header, by name and value.
use std::collections::BTreeMap;
use std::fs;

/// The constants that lines declare, as names and numbers; a line that does not is passed over.
fn constants<'t>(
    text: &'t str,
    declared: fn(&'t str) -> Option<(&'t str, &'t str)>,
) -> BTreeMap<&'t str, u64> {
    let number = |value: &str| value.replace('_', "").parse().ok();
    text.lines()
        .filter_map(declared)
        .filter_map(|(name, value)| Some((name, number(value)?)))
        .collect()
}

/// `pub const NAME: TYPE = VALUE;`
fn in_rust(line: &str) -> Option<(&str, &str)> {
    let (name, rest) = line.strip_prefix("pub const ")?.split_once(": ")?;
    Some((name, rest.split_once(" = ")?.1.strip_suffix(';')?))
}

/// `#define QUAYSAFFRON_NAME VALUE`, VALUE a number or one in brackets behind its type, then perhaps a remark
fn in_c(line: &str) -> Option<(&str, &str)> {
    let (name, rest) = line.strip_prefix("#define QUAYSAFFRON_")?.split_once(' ')?;
    let value = rest.split(' ').next()?;
    Some((
        name,
        value.trim_start_matches("UINT32_C(").trim_end_matches(')'),
    ))
}

#[test]
fn as_in_the_header() {
    let path = concat!(env!("CARGO_MANIFEST_DIR"), "/../c/quaysaffron.h");
    let header = fs::read_to_string(path).expect("the C header");
    let rust = constants(include_str!("../src/raw.rs"), in_rust);
    let mut c = constants(&header, in_c);
    // the stack of each call alone is told in C
    c.retain(|name, _| !name.ends_with("_STACK_BYTES"));
    assert_eq!(rust, c);
    assert!(rust.len() > 60);
}
