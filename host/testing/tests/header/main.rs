//! The C headers and the Rust package say what the Rattle source says: limits, numbers of refusal,
//! calls, the point record and the version, compared as texts. `programs` compiles and calls them.

mod declared;
mod programs;
mod source;

use std::collections::BTreeMap;

use declared::{calls_in_c, calls_in_rust, defined, fields, pointer_lines};
use frontier::limits as limit;
use frontier::refusal as number;
use source::{constants, exported, exports, fields_in_c, numbers, Export};
use testing::{batch, cache};

const HEADER: &str = include_str!("../../../../include/frontier.h");
const MEASURE_HEADER: &str = include_str!("../../../../include/frontier_measure.h");
const RUST_CALLS: &str = include_str!("../../../frontier/src/ffi.rs");

/// The Rattle source: the exported calls, the calls that they stand for, the kinds with their limits, what calls refuse,
/// the store, batches.
const EXPORTS: &str = include_str!("../../../../crates/frontier_c/src/lib.rt");
const CALLS: &str = include_str!("../../../../crates/frontier/src/lib.rt");
const KINDS: &str = include_str!("../../../../crates/model/src/lib.rt");
const ANSWERS: &str = include_str!("../../../../crates/answers/src/lib.rt");
const STORE: &str = include_str!("../../../../crates/cache_store/src/lib.rt");
const FRAMES: &str = include_str!("../../../../crates/batch_frames/src/lib.rt");

/// The specifications of the numbers of refusal (those of texts, the store and batches stand apart), of the store, of
/// batches and of the version.
const REFUSALS: &str = include_str!("../../../../crates/model/specs/Refusals.antt");
const TEXT_REFUSALS: &str = include_str!("../../../../crates/text_networks/specs/Conversions.antt");
const STORE_REFUSALS: &str = include_str!("../../../../crates/cache_answers/specs/Outcomes.antt");
const STORES: &str = include_str!("../../../../crates/cache_answers/specs/Stores.antt");
const BATCHES: &str = include_str!("../../../../crates/batch_frames/specs/Batches.antt");
const BATCH_AREAS: &str = include_str!("../../../../crates/batch_frames/specs/Outcomes.antt");
const VERSION: &str = include_str!("../../../../crates/frontier/specs/Version.antt");

#[test]
fn limits_agree() {
    let expected = [
        ("MAX_BYTES", "Header::MAX_BYTES", limit::MAX_BYTES),
        (
            "MAX_VARIABLES",
            "Header::MAX_VARIABLES",
            limit::MAX_VARIABLES,
        ),
        (
            "MAX_OBJECTIVES",
            "Header::MAX_OBJECTIVES",
            limit::MAX_OBJECTIVES,
        ),
        ("MAX_TABLES", "Header::MAX_TABLES", limit::MAX_TABLES),
        ("MAX_DOMAIN", "Domain::MAX_SIZE", limit::MAX_DOMAIN),
        ("MAX_ARITY", "CostRecord::MAX_ARITY", limit::MAX_ARITY),
        ("MAX_POINTS", "Point::MAX_COUNT", limit::MAX_POINTS),
        ("LEAST_WORK", "LEAST_WORK", limit::LEAST_WORK),
        ("SLOT_BYTES", "SLOT_SIZE", limit::SLOT_BYTES),
        ("MAX_SLOTS", "MAX_SLOTS", limit::MAX_SLOTS),
        ("MAX_BATCH", "MAX_BATCH", limit::MAX_BATCH),
    ];
    let (defined, mut source) = (defined(HEADER), constants(KINDS));
    for (name, value) in [ANSWERS, STORE, FRAMES].into_iter().flat_map(constants) {
        let told = source.insert(name.clone(), value);
        assert!(told.is_none_or(|told| told == value), "{name}");
    }
    for (name, in_source, in_rust) in expected {
        assert_eq!(defined.get(name), source.get(in_source), "FRONTIER_{name}");
        assert_eq!(defined.get(name), Some(&in_rust), "FRONTIER_{name}");
    }
    let limits = defined.keys().filter(|name| name.starts_with("MAX_"));
    assert_eq!(limits.count() + 2, expected.len(), "each limit has a row");
}

/// The parts of a slot stand where the specification and the source have them, and where the tests expect them.
#[test]
fn the_parts_of_a_slot_agree() {
    let (specified, source) = (numbers(STORES), constants(STORE));
    for (name, in_source, place) in [
        ("costs_at", "COSTS_AT", cache::COSTS_AT),
        ("choices_at", "CHOICES_AT", cache::CHOICES_AT),
        ("length_at", "LENGTH_AT", cache::LENGTH_AT),
        ("count_at", "COUNT_AT", cache::COUNT_AT),
        ("next_at", "NEXT_AT", cache::NEXT_AT),
        ("slot_size", "SLOT_SIZE", limit::SLOT_BYTES),
        ("max_slots", "MAX_SLOTS", limit::MAX_SLOTS),
    ] {
        assert_eq!(specified.get(name), Some(&place), "{name}");
        assert_eq!(source.get(in_source), Some(&place), "{in_source}");
    }
}

/// Frames and areas of a batch are those of the specification and the source, and those that the tests expect.
#[test]
fn the_parts_of_a_batch_agree() {
    let (mut specified, source) = (numbers(BATCHES), constants(FRAMES));
    specified.extend(numbers(BATCH_AREAS));
    for (name, in_source, in_rust, due) in [
        ("max_batch", "MAX_BATCH", limit::MAX_BATCH, batch::MOST),
        ("frame_head", "FRAME_HEAD", limit::FRAME_BYTES, batch::HEAD),
        ("cost_area", "COST_AREA", limit::COSTS_LEN, batch::COSTS),
        (
            "choice_area",
            "CHOICE_AREA",
            limit::CHOICES_LEN,
            batch::CHOICES,
        ),
        (
            "result_area",
            "RESULT_AREA",
            limit::RESULT_LEN,
            batch::RESULTS,
        ),
    ] {
        assert_eq!(specified.get(name), Some(&due), "{name}");
        assert_eq!(source.get(in_source), Some(&due), "{in_source}");
        assert_eq!(in_rust, due, "{name}");
    }
    let mark = ["letter_b", "letter_p"].map(|name| specified[name]);
    assert_eq!(mark, [b'B', b'P'].map(usize::from));
    let header = defined(HEADER);
    assert_eq!(header["FRAME_BYTES"], limit::FRAME_BYTES);
    assert_eq!(header["RESULT_LEN"], limit::RESULT_LEN);
}

/// An entry of three variables and ten digits has 17 bytes of text for its 4, and nothing has more.
#[test]
fn a_text_of_the_greatest_length_fits_exactly() {
    assert_eq!(defined(HEADER)["TEXT_LEN"], limit::TEXT_LEN);
    assert_eq!(4 * limit::TEXT_LEN, 17 * limit::MAX_BYTES);
    assert_eq!("7 7 7 4294967295\n".len(), 17);
}

/// The numbers of refusal that the header defines, by name without the prefix.
fn refusals() -> BTreeMap<&'static str, usize> {
    let named =
        |(name, number): (&'static str, usize)| Some((name.strip_prefix("REFUSED_")?, number));
    defined(HEADER).into_iter().filter_map(named).collect()
}

#[test]
fn numbers_of_refusal_agree() {
    let expected = [
        ("OVERSIZE", number::OVERSIZE),
        ("CUT_SHORT", number::CUT_SHORT),
        ("STRAY_MARK", number::STRAY_MARK),
        ("VARIABLES", number::VARIABLES),
        ("OBJECTIVES", number::OBJECTIVES),
        ("TABLES", number::TABLES),
        ("DOMAIN", number::DOMAIN),
        ("OWNER", number::OWNER),
        ("ARITY", number::ARITY),
        ("SCOPE", number::SCOPE),
        ("LEFTOVER", number::LEFTOVER),
        ("WORK", number::WORK),
        ("SIDES", number::SIDES),
        ("LINKED", number::LINKED),
        ("FULL", number::FULL),
        ("PREFIX", number::PREFIX),
        ("TEXT", number::TEXT),
        ("DIALECT", number::DIALECT),
        ("OUTPUT", number::OUTPUT),
        ("STORE", number::STORE),
        ("BATCH", number::BATCH),
    ];
    let refusals = refusals();
    for (name, value) in expected {
        assert_eq!(refusals.get(name), Some(&value.into()), "{name}");
    }
}

#[test]
fn numbers_of_refusal_are_those_of_the_specification() {
    let (refusals, mut specified) = (refusals(), numbers(REFUSALS));
    specified.extend(numbers(TEXT_REFUSALS));
    specified.extend(numbers(STORE_REFUSALS));
    // Beside the number stand the lengths of areas.
    let batch = numbers(BATCH_AREAS).into_iter();
    specified.extend(batch.filter(|(name, _)| !name.ends_with("_area")));
    assert_eq!(refusals.len(), specified.len());
    for (name, number) in refusals {
        // The specification has `cut_short`, `bad_scope`, `work_short`.
        let word = name.to_lowercase();
        let has_word = |(name, _): &(&&str, &usize)| name.contains(&word);
        let named: Vec<_> = specified.iter().filter(has_word).collect();
        assert!(named.len() == 1, "{name}: {named:?}");
        assert_eq!(*named[0].1, number, "{name}");
    }
}

#[test]
fn a_refusal_has_the_name_of_its_word() {
    let words = (1..=u8::MAX).map(|number| (number::word_of(number), usize::from(number)));
    let known = words.filter(|(word, _)| *word != "unknown");
    let names = known.map(|(word, number)| (word.to_uppercase().replace(' ', "_"), number));
    let expected = refusals().into_iter();
    let expected: BTreeMap<_, _> = expected.map(|(name, n)| (name.to_string(), n)).collect();
    assert_eq!(names.collect::<BTreeMap<_, _>>(), expected);
}

/// Asserts that each export of the library is declared, once and alike, and nothing else.
fn assert_declared(mut declared: Vec<String>, written: fn(&Export) -> String) {
    let mut exported: Vec<String> = exports(EXPORTS).iter().map(written).collect();
    assert!(exported.len() > 4, "the calls are found in the source");
    declared.sort();
    exported.sort();
    assert_eq!(declared, exported, "left: declared, right: the source");
}

#[test]
fn the_headers_declare_each_export_once() {
    let lengths = defined(HEADER);
    let mut declared = calls_in_c(HEADER, &lengths);
    declared.extend(calls_in_c(MEASURE_HEADER, &lengths));
    assert_declared(declared, Export::in_c);
}

#[test]
fn rust_declares_each_export_once() {
    assert_declared(calls_in_rust(RUST_CALLS, &defined(HEADER)), Export::in_rust);
}

#[test]
fn each_export_has_the_name_and_the_parameters_of_its_call() {
    let called: Vec<String> = exported(CALLS).iter().map(Export::in_c).collect();
    assert_declared(called, Export::in_c);
}

/// What the header must say of a pointer: none may be null, and only what is read may overlap what is
/// read.
fn pointer_line((name, is_read): (&str, bool), all: &[(&str, bool)]) -> String {
    let mut others = all.iter().filter(|other| other.1 && other.0 != name);
    match others.next() {
        _ if !is_read => format!("{name} written no nothing"),
        Some((other, _)) => format!("{name} read no {other}"),
        None => format!("{name} read no nothing"),
    }
}

#[test]
fn the_comment_of_a_call_has_a_line_for_each_pointer() {
    for export in exports(EXPORTS) {
        let pointers = export.pointers();
        let expected = pointers.iter().map(|p| pointer_line(*p, &pointers));
        let lines = pointer_lines(&[HEADER, MEASURE_HEADER], &export.name);
        assert_eq!(lines, expected.collect::<Vec<_>>(), "{}", export.name);
    }
}

#[test]
fn the_point_record_has_the_fields_of_the_source() {
    let declared = fields(HEADER, "frontier_point", &defined(HEADER));
    assert_eq!(declared, fields_in_c(KINDS, "Point"));
}

#[test]
fn one_version_is_told_everywhere() {
    let names = ["VERSION_MAJOR", "VERSION_MINOR", "VERSION_PATCH"];
    let header = defined(HEADER);
    let expected = names.map(|name| header[name]);
    let (code, specified) = (constants(CALLS), numbers(VERSION));
    assert_eq!(
        names.map(|name| code[name]),
        expected,
        "crates/frontier/src/lib.rt"
    );
    let specified = ["major", "minor", "patch"].map(|name| specified[name]);
    assert_eq!(specified, expected, "crates/frontier/specs/Version.antt");
    let dotted = expected.map(|number| number.to_string()).join(".");
    assert_eq!(env!("CARGO_PKG_VERSION"), dotted, "host/Cargo.toml");
    let changes = include_str!("../../../../CHANGELOG.md").lines();
    let newest = changes.filter_map(|line| line.strip_prefix("## ")).next();
    assert_eq!(newest, Some(&dotted[..]), "CHANGELOG.md");
}
