//! `chooser plot`: well-formed pictures with every point, labels that do not overlap, round ticks, and
//! every way to fail.

use std::fs;
use std::path::{Path, PathBuf};
use std::process::Command;

use chooser::junk::Rng;
use frontier::lent::solve_problem;
use frontier::{Problem, Table};
use testing::chooser_run::{run, Ended};
use testing::examples::{colours, every_arity, lone, objects, staircase, three};
use testing::owned::{frontier_by, Listed};
use testing::random::{random_problem, Shape};

use testing::xml::{parse, Element};

/// A file of its own for a test.
fn scratch(name: &str) -> PathBuf {
    Path::new(env!("CARGO_TARGET_TMPDIR")).join(format!("plot_{name}"))
}

fn plot(words: &[&str]) -> Ended {
    run(&[&["plot"], words].concat())
}

/// The picture of a problem file, on standard output.
fn picture_of(file: &str) -> String {
    plot(&[file, "-o", "-"]).with(0).text().into()
}

/// The picture of a problem, by way of a file with this name.
fn picture(name: &str, problem: &Problem) -> String {
    let file = scratch(&format!("{name}.bin"));
    fs::write(&file, problem.encode()).expect("a file can be written");
    picture_of(file.to_str().expect("a path that is text"))
}

fn list_of(problem: &Problem) -> Vec<Listed> {
    frontier_by(solve_problem, &problem.encode()).expect("an answer")
}

/// Asserts that every panel has every point once, with its costs in what is shown for it.
fn assert_points(root: &Element, problem: &Problem) {
    let (p, list) = (problem.objectives(), list_of(problem));
    let panels = if p == 1 { 1 } else { p * (p - 1) / 2 };
    let titles: Vec<String> = root.all("title").map(Element::text).collect();
    assert_eq!(titles.len(), panels * list.len());
    assert_eq!(root.all("circle").count(), panels * list.len());
    for (i, point) in (1..).zip(&list) {
        let mut told = format!("point {i} of {}", list.len());
        for (k, &cost) in point.costs.iter().enumerate() {
            told += &format!("\ncost {k}: {}", grouped(cost.into()));
        }
        for (v, value) in point.choice.iter().enumerate() {
            told += &format!("\nmodule {v} = {value}");
        }
        let times = titles.iter().filter(|title| **title == told).count();
        assert_eq!(times, panels, "{told}");
    }
}

/// A number with a comma before each three digits.
fn grouped(number: u64) -> String {
    match number {
        0..1_000 => number.to_string(),
        _ => format!("{},{:03}", grouped(number / 1_000), number % 1_000),
    }
}

/// Left, top, right and bottom of a text that lies, by the widths of a common font.
fn extent(element: &Element) -> [f64; 4] {
    let number = |name: &str| -> f64 { element.attribute(name).parse().expect("a number") };
    let width = 6.9 * element.text().chars().count() as f64;
    let left = match element.attribute("text-anchor") {
        "start" => number("x"),
        "middle" => number("x") - width / 2.0,
        _ => number("x") - width,
    };
    [left, number("y") - 8.0, left + width, number("y") + 2.0]
}

fn lying_texts(root: &Element) -> impl Iterator<Item = &Element> {
    root.all("text").filter(|text| text.has("x"))
}

/// Asserts that no text covers another, and that none leaves the picture.
fn assert_texts_apart(root: &Element) {
    let texts: Vec<&Element> = lying_texts(root).collect();
    let [width, height]: [f64; 2] =
        ["width", "height"].map(|side| root.attribute(side).parse().expect("a number"));
    for (i, one) in texts.iter().enumerate() {
        let [left, top, right, bottom] = extent(one);
        let inside = left >= 0.0 && top >= 0.0 && right <= width && bottom <= height;
        assert!(inside || one.attribute("class") == "head", "{}", one.text());
        for other in &texts[i + 1..] {
            let [l, t, r, b] = extent(other);
            let apart = right <= l || r <= left || bottom <= t || b <= top;
            assert!(apart, "'{}' covers '{}'", one.text(), other.text());
        }
    }
}

/// Problems with one to four objectives, with none, one and many points, and with the least and
/// greatest costs.
fn drawn_problems() -> Vec<Problem> {
    let mut greatest = three([u32::MAX, u32::MAX]);
    greatest.tables[0].costs = vec![0, 1_000_000_000, u32::MAX - 1];
    greatest.tables[1].costs = vec![u32::MAX - 1, 10, 9];
    let mut high = lone(1, u32::MAX);
    high.tables = vec![
        Table::new(0, &[], &[u32::MAX - 1]),
        Table::new(0, &[], &[1]),
    ];
    let mut none = lone(1, 4);
    none.tables = vec![Table::new(0, &[], &[5])];
    let mut four = every_arity();
    four.ceilings = vec![u32::MAX; 4];
    four.tables.remove(0);
    let mut crowd = four.clone();
    crowd.tables.push(Table::new(3, &[1], &[2, 1, 0]));
    vec![
        colours([100, 100]),
        colours([2, 3]),
        staircase([63, 200]),
        three([3, 3]),
        objects([13, 100, 100]),
        lone(1, 1),
        lone(1, 0),
        lone(3, u32::MAX),
        none,
        high,
        greatest,
        four,
        crowd,
    ]
}

#[test]
fn every_point_is_drawn_once_in_every_panel() {
    for (i, problem) in drawn_problems().iter().enumerate() {
        let root = parse(&picture(&format!("drawn_{i}"), problem)).expect("XML");
        assert_points(&root, problem);
        assert_texts_apart(&root);
    }
}

#[test]
fn random_problems_are_drawn() {
    let mut rng = Rng::new(5);
    for _ in 0..60 {
        let problem = random_problem(&mut rng, &Shape::small());
        if frontier_by(solve_problem, &problem.encode()).is_ok() {
            let root = parse(&picture("random", &problem)).expect("XML");
            assert_points(&root, &problem);
            assert_texts_apart(&root);
        }
    }
}

/// The numbers of the ticks of an axis, as they are written beside it.
fn ticks(root: &Element, is_beside: impl Fn(&Element) -> bool) -> Vec<u64> {
    let quiet = lying_texts(root).filter(|text| text.attribute("class") == "quiet");
    let numbers = quiet.filter(|text| is_beside(text));
    let number = |text: &Element| text.text().replace(',', "").parse().ok();
    numbers.filter_map(number).collect()
}

#[test]
fn ticks_are_round_numbers_in_equal_steps() {
    for (i, problem) in drawn_problems().iter().enumerate() {
        if problem.objectives() != 2 || list_of(problem).is_empty() {
            continue;
        }
        let root = parse(&picture(&format!("ticks_{i}"), problem)).expect("XML");
        for anchor in ["middle", "end"] {
            let ticks = ticks(&root, |text| text.attribute("text-anchor") == anchor);
            assert!(ticks.len() >= 2, "{ticks:?}");
            let step = ticks[1] - ticks[0];
            assert!(ticks.windows(2).all(|pair| pair[1] - pair[0] == step));
            assert!(ticks.iter().all(|tick| tick % step == 0), "{ticks:?}");
            let digits = step.to_string();
            let digits = digits.trim_end_matches('0');
            assert!(["1", "2", "5"].contains(&digits), "step {step}");
        }
    }
}

#[test]
fn names_of_a_text_problem_are_shown() {
    let picture = picture_of("examples/firmware.txt");
    let root = parse(&picture).expect("XML");
    let titles: Vec<String> = root.all("title").map(Element::text).collect();
    assert_eq!(titles.len(), 12);
    let first = "point 1 of 12\nflash: 950\ncycles: 8,900\n\
                 uart = polled\ncrc = nibble\ntimer = tick\nfilter = loop";
    assert_eq!(titles[0], first);
    let texts: Vec<String> = root.all("text").map(Element::text).collect();
    for text in [
        "firmware.txt",
        "flash (at most 2,400)",
        "cycles (at most 9,000)",
    ] {
        assert!(texts.iter().any(|shown| shown == text), "{text}");
    }
    // With so few points every one of them has its label.
    let labels = root
        .all("text")
        .filter(|text| text.attribute("class") == "label");
    assert_eq!(labels.count(), 12);
}

#[test]
fn the_same_problem_gives_the_same_bytes() {
    let first = picture_of("examples/firmware.txt");
    assert_eq!(picture_of("examples/firmware.txt"), first);
    assert!(first.contains("@media (prefers-color-scheme: dark)"));
}

#[test]
fn a_file_name_cannot_break_the_picture() {
    let name = "<&\"'>]]> \u{7} é.bin";
    let file = scratch(name);
    fs::write(&file, colours([100, 100]).encode()).expect("a file can be written");
    let root = parse(&picture_of(file.to_str().unwrap())).expect("XML");
    let head = root.all("text").next().expect("a head").text();
    assert_eq!(head, format!("plot_{}", name.replace('\u{7}', "\u{fffd}")));
}

#[test]
fn a_picture_is_written_to_its_file() {
    let out = scratch("out.svg");
    let _ = fs::remove_file(&out); // of an earlier run, if any
    let out = out.to_str().expect("a path that is text");
    let ended = plot(&["examples/colours.bin", "-o", out]).with(0);
    assert_eq!(ended.text(), format!("{out}: 2 points\n"));
    let written = fs::read_to_string(out).expect("a picture");
    assert_eq!(written, picture_of("examples/colours.bin"));
}

/// Asserts the status and the words of a run without a picture.
fn assert_complaint(words: &[&str], status: i32, complaint: &str) {
    let ended = plot(words).with(status).tells(&[complaint]);
    assert_eq!(ended.text(), "", "{words:?}");
}

#[test]
fn what_cannot_be_drawn_is_complained_about_and_nothing_is_lost() {
    let out = scratch("kept.svg");
    fs::write(&out, "old").expect("a file can be written");
    let out = out.to_str().expect("a path that is text");
    let full = scratch("full.bin");
    fs::write(&full, staircase([64, 200]).encode()).expect("a file can be written");
    let full = full.to_str().expect("a path that is text");
    assert_complaint(&[full, "-o", out], 1, "number 15 (full)");
    assert_complaint(&["no/such/file", "-o", out], 2, "there is no file");
    assert_complaint(&["README.md", "-o", out], 1, "README.md:");
    assert_complaint(&["examples/colours.bin"], 2, "-o OUT.svg is missing");
    assert_complaint(&["-o", out], 2, "FILE is missing");
    let example = "examples/colours.bin";
    for bad in ["docs", "no/such/out.svg", ""] {
        assert_complaint(&[example, "-o", bad], 2, "cannot be written");
    }
    assert_eq!(fs::read_to_string(out).expect("the old file"), "old");
}

/// The picture as it is in dark surroundings, for renderers that do not know of them.
fn darkened(picture: &str) -> String {
    let (before, rest) = picture
        .split_once("@media (prefers-color-scheme: dark) {\n")
        .unwrap();
    let (dark, behind) = rest.split_once("}\n</style>").unwrap();
    format!("{before}{dark}</style>{behind}")
}

/// The renderers that are known, each with the words that make a PNG of a picture.
fn renderers(svg: &str, png: &str) -> [Vec<String>; 3] {
    let words = |words: &[&str]| words.iter().map(ToString::to_string).collect();
    [
        words(&["rsvg-convert", svg, "-o", png]),
        words(&[
            "inkscape",
            svg,
            "--export-type=png",
            &format!("--export-filename={png}"),
        ]),
        words(&["magick", svg, png]),
    ]
}

#[test]
#[cfg_attr(
    not(has_renderer),
    ignore = "no renderer of SVG was installed when this was built"
)]
fn pictures_are_rendered() {
    for (name, problem) in [
        ("two", colours([100, 100])),
        ("three", objects([13, 100, 100])),
    ] {
        let light = picture(name, &problem);
        for (shade, text) in [("dark", darkened(&light)), ("light", light)] {
            let [svg, png] = ["svg", "png"].map(|end| scratch(&format!("{name}_{shade}.{end}")));
            fs::write(&svg, text).expect("a file can be written");
            let _ = fs::remove_file(&png); // of an earlier run, if any
            let known = renderers(svg.to_str().unwrap(), png.to_str().unwrap());
            let run = |words: &Vec<String>| Command::new(&words[0]).args(&words[1..]).output().ok();
            let output = known.iter().find_map(run).expect("a renderer starts");
            let complaint = String::from_utf8_lossy(&output.stderr);
            assert!(output.status.success(), "{complaint}");
            let rendered = fs::read(&png).expect("a rendered picture");
            assert!(rendered.starts_with(b"\x89PNG"));
            assert!(rendered.len() > 5_000, "{} bytes", rendered.len());
        }
    }
}
