//! The plain search: against the brute force with every setting, and on the night's problems.

use std::ops::Range;
use std::time::Duration;

use chooser::junk::junk_buffers;
use frontier::lent::Answer;
use frontier::limits::LEAST_WORK;
use frontier::refusal::FULL;
use testing::mixed::compare_seeds;
use testing::night::read_bytes;
use testing::owned::answer_text;
use testing::places::data;
use testing::plain::{solve_problem, solve_within, Settings};
use testing::stored::{nightly, STRESS};

fn settings(text: &str) -> Settings {
    Settings::parse(text).expect("settings")
}

/// The plain search as a flat call: it leaves the work buffer as the flat call does.
fn flat_call(
    settings: &Settings,
    bytes: &[u8],
    costs: &mut [u32],
    choices: &mut [u8],
    work: &mut [u32],
) -> Answer {
    let answer = solve_problem(settings, bytes, costs, choices, work.len());
    if answer.number == 0 || answer.number == FULL {
        work.fill(0);
    }
    answer
}

/// Compares with the brute force: valid and damaged problems, all rooms, junk in the buffers.
fn compare_with_brute_force(settings: &Settings, seeds: Range<u64>) {
    compare_seeds(seeds, |case| {
        let call = |bytes: &[u8], costs: &mut [u32], choices: &mut [u8], work: &mut [u32]| {
            flat_call(settings, bytes, costs, choices, work)
        };
        case.compare_solve(call)
    });
}

#[test]
fn it_answers_as_the_brute_force() {
    compare_with_brute_force(&Settings::default(), 0..20_000);
}

#[test]
fn no_setting_changes_an_answer() {
    let changes = [
        "numbers=100",
        "numbers=30,messages=3",
        "messages=0",
        "memory=part,numbers=100",
        "memory=part,numbers=60,messages=4,rest=no",
        "rest=no",
        "parts=alone",
        "budget=1",
        "budget=2,kinds=one",
        "budget=3,slacks=no",
        "turns=1",
        "turns=3,budget=5",
        "width=2",
        "width=1",
        "width=1,rest=no",
        "width=0",
        "width=0,rest=no",
        "order=natural",
        "values=natural",
        "zones=1",
        "zones=5",
        "sums=1",
        "sums=2",
        "ties=costs",
        "order=natural,values=natural,width=0,zones=1,sums=1,ties=costs,rest=no",
    ];
    for (number, change) in (0..).zip(changes) {
        let first = 20_000 + 1_500 * number;
        compare_with_brute_force(&settings(change), first..first + 1_500);
    }
}

/// How many values all of the night's problems take. It changes with every change of the bounds or
/// of the order, and with nothing else.
const NIGHT_NODES: u64 = 16_971_935;

#[test]
fn the_night_has_its_expected_texts() {
    let mut nodes = 0;
    for stored in nightly() {
        let mut lent = junk_buffers();
        let (costs, choices) = (&mut lent.costs, &mut lent.choices);
        let outcome = solve_within(
            None,
            &Settings::default(),
            &stored.bytes,
            costs,
            choices,
            LEAST_WORK,
        );
        let answer = outcome.answer.expect("no limit");
        let text = answer_text(&lent, &stored.bytes, answer);
        assert_eq!(text, stored.expected, "{}", stored.name);
        nodes += outcome.nodes;
    }
    assert_eq!(nodes, NIGHT_NODES);
}

/// This one takes hours, so that any limit gives it up.
#[test]
fn a_search_can_be_given_up() {
    let bytes = read_bytes(&data(STRESS).join("tern_x_5.bin")).expect("a problem");
    let mut lent = junk_buffers();
    let before = lent.clone();
    let limit = Some(Duration::from_millis(1));
    let (costs, choices) = (&mut lent.costs, &mut lent.choices);
    let outcome = solve_within(
        limit,
        &Settings::default(),
        &bytes,
        costs,
        choices,
        LEAST_WORK,
    );
    assert_eq!(outcome.answer, None);
    assert!(outcome.nodes > 0);
    assert_eq!(lent, before);
}

#[test]
fn settings_are_read_or_complained_about() {
    let changed = Settings {
        numbers: 3_900,
        messages: 120,
        by_part: true,
        rest: false,
        width: 1,
        shared: false,
        min_degree: false,
        turns: 2,
        budget: 7,
        kinds: false,
        slacks: false,
        sorted: false,
        zones: 64,
        sums: 3,
        tie_sums: false,
    };
    let text = "numbers=3900,messages=120,memory=part,rest=no,width=1,parts=alone,order=natural,\
                turns=2,budget=7,kinds=one,slacks=no,values=natural,zones=64,sums=3,ties=costs";
    assert_eq!(settings(text), changed);
    let same =
        "memory=bucket,rest=yes,parts=shared,order=min-degree,turns=5,kinds=four,slacks=yes,\
                values=sorted,ties=sums";
    assert_eq!(settings(same), Settings::default());
    let complaint = |text: &str| Settings::parse(text).expect_err("a complaint");
    assert_eq!(
        complaint("rest"),
        "'rest' is no setting of the form NAME=VALUE"
    );
    assert_eq!(complaint("colour=red"), "there is no setting 'colour'");
    assert_eq!(complaint("width=4"), "'width=4' takes a number from 0 to 3");
    assert_eq!(complaint("zones=0"), "'zones=0' takes a number from 1 on");
    assert_eq!(complaint("rest=1"), "'rest=1' takes 'yes' or 'no'");
}
