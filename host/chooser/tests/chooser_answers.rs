//! What `chooser solve`, `cut` and `bound` answer, as text and as JSON.

use chooser::junk::Rng;
use frontier::Refusal;
use testing::brute::bound_prefix;
use testing::chooser_run::json::{parse, Value};
use testing::chooser_run::{run, run_with};
use testing::examples::{colours, lone, pair, staircase, three};
use testing::owned::{cut_of, frontier_of, Listed};
use testing::random::{parted_problem, random_choice, random_problem, uncrossed_sides, Shape};

const FIRMWARE: &str = "\
12 points

flash  cycles  |  uart       crc      timer     filter
  950    8900  |  polled     nibble   tick      loop
 1042    8200  |  interrupt  bitwise  tick      loop
 1126    6600  |  interrupt  nibble   tick      loop
 1290    5000  |  dma        nibble   tick      loop
 1480    4450  |  dma        nibble   tickless  loop
 1560    4100  |  dma        nibble   tick      unrolled
 1702    3850  |  dma        table    tick      loop
 1750    3550  |  dma        nibble   tickless  unrolled
 1892    3300  |  dma        table    tickless  loop
 1972    2950  |  dma        table    tick      unrolled
 2162    2400  |  dma        table    tickless  unrolled
 2322    2350  |  dma        table    tick      lookup
";

#[test]
fn a_text_problem_is_answered_with_its_names() {
    let ended = run(&["solve", "examples/firmware.txt"]).with(0);
    assert_eq!(ended.text(), FIRMWARE);
    assert_eq!(ended.err, "");
    let cut = run(&["cut", "examples/firmware.txt", "0011"]).with(0);
    assert_eq!(cut.text(), format!("{FIRMWARE}\nhalf sizes: 5 and 6\n"));
}

#[test]
fn stats_are_told_beside_the_answer() {
    let ended = run(&["solve", "examples/firmware.txt", "--stats"]).with(0);
    assert_eq!(ended.text(), FIRMWARE);
    let ended = ended.tells(&["the second form", "plans made: 1", "failed their test: 0"]);
    assert!(ended.err.contains("passes: 1"), "{}", ended.err);
    let refused = run_with(&["solve", "-", "--stats"], b"HD").with(1);
    refused.tells(&["search: none", "cut short"]);
}

#[test]
fn a_binary_problem_is_answered_with_numbers() {
    let due = "\
2 points

cost 0  cost 1  |  module 0  module 1  module 2
     1       4  |  0         0         1
    10       0  |  0         0         0
";
    let named = run(&["solve", "examples/colours.bin"]).with(0);
    assert_eq!(named.text(), due);
    let piped = run_with(&["solve", "-"], &colours([100, 100]).encode()).with(0);
    assert_eq!(piped.text(), due);
}

#[test]
fn the_packed_example_says_what_the_text_says() {
    let text = parse(run(&["solve", "examples/firmware.txt", "--json"]).text());
    let binary = parse(run(&["solve", "examples/firmware.bin", "--json"]).text());
    let points = |value: &Value| -> Vec<(Vec<u64>, Vec<u64>)> {
        let points = value.at("points").items().iter();
        let point = |point: &Value| (point.at("costs").numbers(), point.at("choice").numbers());
        points.map(point).collect()
    };
    assert_eq!(points(&text), points(&binary));
    assert_eq!(points(&text).len(), 12);
}

#[test]
fn one_point_and_none_are_told() {
    let one = run_with(&["solve", "-"], &lone(1, 1).encode()).with(0);
    assert_eq!(one.text(), "1 point\n\ncost 0  |  module 0\n     0  |  0\n");
    let none = colours([2, 3]).encode();
    let told = run_with(&["solve", "-"], &none).with(0);
    assert!(told.text().starts_with("no points: "), "{}", told.text());
    let json = run_with(&["solve", "--json", "-"], &none).with(0);
    assert_eq!(parse(json.text()).at("points").items(), []);
}

#[test]
fn room_is_what_was_asked_for() {
    let bytes = staircase([63, 200]).encode();
    run_with(&["solve", "-"], &bytes).with(0);
    run_with(&["solve", "-", "--room", "64"], &bytes).with(0);
    let small = run_with(&["solve", "-", "--room=63"], &bytes).with(1);
    small.tells(&["number 15 (full) at byte 0", "(63)", "larger --room"]);
    let pair = pair([9, 9]).encode();
    run_with(&["cut", "-", "01", "--room", "3"], &pair).with(0);
    run_with(&["cut", "-", "01", "--room", "2"], &pair).with(1);
    run_with(&["solve", "-", "--room", "0"], &colours([2, 3]).encode()).with(0);
    run_with(&["solve", "-", "--room", "0"], &lone(1, 0).encode()).with(1);
    for room in ["65", "-1", "many", ""] {
        let ended = run_with(&["solve", "-", "--room", room], &bytes).with(2);
        ended.tells(&["--room takes a number from 0 to 64"]);
    }
}

#[test]
fn bounds_are_told_for_numbers_and_names() {
    let due = "\
every choice with uart = dma, crc = table costs at least

cost    at least  ceiling
flash       1702     2400
cycles      1880     9000
";
    for prefix in ["dma,table", "2,2", "dma,2"] {
        let ended = run(&["bound", "examples/firmware.txt", prefix]).with(0);
        assert_eq!(ended.text(), due);
    }
    for prefix in ["-", ""] {
        let ended = run(&["bound", "examples/firmware.txt", prefix]).with(0);
        assert!(ended.text().starts_with("every choice costs at least\n"));
    }
    let met = run_with(&["bound", "-", "2"], &three([2, 3]).encode()).with(0);
    assert!(met.text().contains("cost 0         2        2\n"));
    let hopeless = run_with(&["bound", "-", "2"], &three([1, 3]).encode()).with(0);
    assert!(hopeless
        .text()
        .contains("cost 0         2        1  above it\n"));
}

#[test]
fn wrong_prefixes_and_sides_are_misuse() {
    let cases = [
        (
            ["bound", "examples/firmware.txt", "dm"],
            "did you mean 'dma'?",
        ),
        (
            ["bound", "examples/firmware.txt", "0,0,0,0,x"],
            "there are 4 modules",
        ),
        (
            ["bound", "examples/firmware.txt", "quick"],
            "polled, interrupt, dma",
        ),
        (
            ["bound", "examples/firmware.bin", "dma"],
            "numbers from 0 to 7",
        ),
        (
            ["bound", "examples/firmware.bin", "256"],
            "numbers from 0 to 7",
        ),
        (["cut", "examples/firmware.txt", "01x0"], "as 0110"),
    ];
    for (words, part) in cases {
        assert_eq!(run(&words).with(2).tells(&[part]).out, b"");
    }
}

/// The points of a JSON answer.
fn listed(value: &Value) -> Vec<Listed> {
    let costs = |n: Vec<u64>| n.iter().map(|&c| c as u32).collect::<Vec<u32>>();
    let choice = |n: Vec<u64>| n.iter().map(|&v| v as u8).collect::<Vec<u8>>();
    let points = value.at("points").items().iter();
    let point = |point: &Value| {
        assert_eq!(
            point.at("variants").texts(),
            point
                .at("choice")
                .numbers()
                .iter()
                .map(u64::to_string)
                .collect::<Vec<_>>()
        );
        Listed {
            costs: costs(point.at("costs").numbers()),
            choice: choice(point.at("choice").numbers()),
        }
    };
    points.map(point).collect()
}

/// The refusal of a JSON answer.
fn refusal(value: &Value) -> Refusal {
    let refused = value.at("refused");
    let [number, place] = ["number", "place"].map(|name| refused.at(name).number());
    Refusal::new(number as u8, place as u32).expect("a refusal")
}

#[test]
fn json_answers_agree_with_the_brute_force() {
    let mut rng = Rng::new(5);
    for turn in 0..120 {
        let (problem, parted) = parted_problem(&mut rng, &Shape::small());
        let bytes = problem.encode();
        let solved = run_with(&["solve", "-", "--json"], &bytes);
        match frontier_of(&bytes) {
            Ok(list) => assert_eq!(listed(&parse(solved.with(0).text())), list),
            Err(due) => assert_eq!(refusal(&parse(solved.with(1).text())), due),
        }
        let sides = [parted, uncrossed_sides(&mut rng, &problem)][turn % 2].clone();
        let word: String = sides.iter().map(u8::to_string).collect();
        let cut = run_with(&["cut", "-", &word, "--json"], &bytes);
        match cut_of(&bytes, &sides) {
            Ok((list, halves)) => {
                let value = parse(cut.with(0).text());
                assert_eq!(listed(&value), list);
                assert_eq!(value.at("halves").numbers(), halves.map(u64::from));
            }
            Err(due) => assert_eq!(refusal(&parse(cut.with(1).text())), due),
        }
    }
}

#[test]
fn json_bounds_agree_with_the_brute_force() {
    let mut rng = Rng::new(6);
    for _ in 0..120 {
        let problem = random_problem(&mut rng, &Shape::wide());
        let mut prefix = random_choice(&mut rng, &problem);
        prefix.truncate(rng.below(prefix.len() + 1));
        let words: Vec<String> = prefix.iter().map(u8::to_string).collect();
        let ended = run_with(
            &["bound", "--json", "-", &words.join(",")],
            &problem.encode(),
        );
        let value = parse(ended.with(0).text());
        let least = bound_prefix(&problem.encode(), &prefix).least;
        assert_eq!(value.at("least").numbers(), &least[..problem.objectives()]);
        let given: Vec<u64> = prefix.iter().map(|&value| value.into()).collect();
        assert_eq!(value.at("prefix").numbers(), given);
        let ceilings = value.at("costs").items().iter();
        let ceilings: Vec<u64> = ceilings.map(|cost| cost.at("ceiling").number()).collect();
        assert_eq!(
            ceilings,
            problem
                .ceilings
                .iter()
                .map(|&c| c.into())
                .collect::<Vec<u64>>()
        );
        assert_eq!(value.at("modules").items().len(), problem.variables());
    }
}
