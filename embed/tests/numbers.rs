//! The numbers of refusals, of the kinds of answer and of desks stand in several files, of several languages. Each list is read from its
//! text, and all are held together.

use ombykape::Refusal;
use std::collections::BTreeMap;
use std::fs;
use std::path::Path;

type Numbers = BTreeMap<String, u64>;

/// The text of a file of the repository.
fn text(path: &str) -> String {
    let root = Path::new(env!("CARGO_MANIFEST_DIR")).join("..");
    fs::read_to_string(root.join(path)).unwrap_or_else(|why| panic!("{path}: {why}"))
}

/// What stands behind the first `from`, up to the next `to`.
fn part(text: &str, from: &str, to: &str) -> String {
    let (_, rest) = text.split_once(from).expect(from);
    rest.split_once(to).expect(to).0.to_string()
}

/// `ShortList` and `short-list` as `SHORT_LIST`.
fn shouted(name: &str) -> String {
    let mut shout = String::new();
    for letter in name.chars() {
        if letter.is_ascii_uppercase() && shout.ends_with(|last: char| last.is_ascii_lowercase()) {
            shout.push('_');
        }
        shout.push(if letter == '-' { '_' } else { letter });
    }
    shout.to_ascii_uppercase()
}

/// The name and the number of each line that has the name behind `before` and the number behind `between`.
fn numbers(text: &str, before: &str, between: &str) -> Numbers {
    let numbered = |line: &str| {
        let (name, rest) = line.trim().strip_prefix(before)?.split_once(between)?;
        let digits: String = rest.trim_start().chars().take_while(char::is_ascii_digit).collect();
        Some((shouted(name), digits.parse().ok()?))
    };
    text.lines().filter_map(numbered).collect()
}

/// All are the first.
fn hold_together(first: &Numbers, others: &[(&str, Numbers)]) {
    assert!(!first.is_empty(), "nothing was read");
    for (place, other) in others {
        assert_eq!(other, first, "{place}");
    }
}

#[test]
fn refusals() {
    let ours = Refusal::ALL
        .iter()
        .map(|refusal| (shouted(&format!("{refusal:?}")), refusal.number()))
        .collect();
    let header = part(&text("embed/c/ombykape.h"), "enum ombykape_refusal {", "};");
    let definition = text("crates/words/specs/Refusals.antt");
    hold_together(
        &ours,
        &[
            ("the C header", numbers(&header, "OMBYKAPE_", " = ")),
            ("the definition", numbers(&definition, "number ", " = ")),
            (
                "the proved code",
                numbers(
                    &part(&text("crates/words/src/refusal.rt"), "pub enum Refusal {", "}"),
                    "",
                    " = ",
                ),
            ),
        ],
    );
}

#[test]
fn kinds_of_answer() {
    let ours = numbers(
        &part(&text("embed/src/ffi.rs"), "pub mod kind {", "}"),
        "pub const ",
        ": u64 = ",
    );
    let header = part(&text("embed/c/ombykape.h"), "enum ombykape_kind {", "};");
    let mut definition = numbers(&text("crates/words/specs/Kinds.antt"), "", " = ");
    assert!(
        definition.remove("SERVED").is_some(),
        "a kind of turns alone, which no reply bears"
    );
    hold_together(
        &ours,
        &[
            ("the C header", numbers(&header, "OMBYKAPE_", " = ")),
            ("the definition", definition),
            (
                "the proved code",
                numbers(&part(&text("crates/exports/src/reply.rt"), "pub enum Kind {", "}"), "", " = "),
            ),
        ],
    );
}

#[test]
fn kinds_of_desk() {
    let mut ours = numbers(
        &part(&text("embed/src/ffi.rs"), "pub mod desk_kind {", "}"),
        "pub const ",
        ": u64 = ",
    );
    let empty = ours.remove("EMPTY").expect("the kind of an empty desk");
    ours.insert("NOTHING".to_string(), empty);
    hold_together(
        &ours,
        &[
            ("the definition", numbers(&text("crates/turns/specs/Desks.antt"), "", " = ")),
            (
                "the proved code",
                numbers(&text("crates/turns/src/record.rt"), "pub const ", ": u64 = "),
            ),
        ],
    );
}

/// The header's limits are those of the proved code.
#[test]
fn limits() {
    let header = numbers(&text("embed/c/ombykape.h"), "#define OMBYKAPE_", " ");
    let mut code = numbers(&text("crates/words/src/limits.rt"), "pub const ", ": u64 = ");
    let most = numbers(&text("crates/desk/src/lent.rt"), "pub const ", ": usize = ")["MOST"];
    code.insert("MEMBERS_MOST".to_string(), most);
    for name in ["LINE_WORDS", "LIST_WORDS", "CAPACITY_MOST", "MEMBERS_MOST"] {
        assert_eq!(header[name], code[name], "{name}");
    }
}
