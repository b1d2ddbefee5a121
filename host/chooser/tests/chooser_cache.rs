//! `chooser batch --cache`: answers that are kept between runs, and every file that is of no use.

use std::fs;
use std::os::unix::fs::PermissionsExt;
use std::path::{Path, PathBuf};

use chooser::batch_calls::cached_twice;
use chooser::batch_csv::{parse_rows, write_rows, Row, COLUMNS};
use chooser::cache_file::{read_cache, write_cache, FILE_BYTES, MAGIC, STORE_BYTES};
use chooser::junk::{junk_batch_buffers, junk_buffers, Rng};
use frontier::lent::{Buffers, CachedAnswer, CachedCall};
use frontier::limits::SLOT_BYTES;
use frontier::{version, Problem};
use testing::brute;
use testing::cache::{solve_cached, Cache};
use testing::chooser_run::{folder, run_in, Ended};
use testing::examples::{staircase, ten_problems, three, turned};
use testing::layouts::random_layout;
use testing::places::data;

/// The file behind `--cache`.
const FILE: &str = "answers";

/// Writes a problem of the folder.
fn put(folder: &Path, name: &str, bytes: &[u8]) {
    let file = folder.join("in").join(format!("{name}.bin"));
    fs::write(file, bytes).expect("a file can be written");
}

/// A folder with these problems, in a folder of its own in which other files can stand.
fn batch_folder<'a>(name: &str, problems: impl IntoIterator<Item = &'a Problem>) -> PathBuf {
    let folder = folder(&format!("cache_{name}"));
    fs::create_dir(folder.join("in")).expect("a folder can be made");
    for (number, problem) in problems.into_iter().enumerate() {
        put(&folder, &format!("p{number:02}"), &problem.encode());
    }
    folder
}

/// Runs a batch with a cache and a table.
fn batch(folder: &Path, words: &[&str]) -> Ended {
    let always = ["batch", "in", "--cache", FILE, "--csv", "out.csv"];
    run_in(folder, &[&always, words].concat(), &[])
}

/// The rows of the last run's table, in the order of names.
fn rows(folder: &Path) -> Vec<Row> {
    let text = fs::read_to_string(folder.join("out.csv")).expect("a table");
    parse_rows(&text).expect("rows").into_values().collect()
}

/// A run that answers everything and tells nothing on standard error; which problems were hits.
fn hits(folder: &Path, words: &[&str]) -> Vec<bool> {
    let ended = batch(folder, words).with(0);
    assert_eq!(ended.err, "");
    told_hits(folder, &ended)
}

/// Which problems were hits by the table, which agrees with the summary.
fn told_hits(folder: &Path, ended: &Ended) -> Vec<bool> {
    let told = rows(folder).into_iter().map(|row| row.told?.hit);
    let hits: Option<Vec<bool>> = told.collect();
    let hits = hits.expect("each problem has an answer and tells a hit or none");
    let count = hits.iter().filter(|hit| **hit).count();
    let line = format!("\n{count:>12} x  hit in the cache\n");
    assert!(ended.text().contains(&line), "{}", ended.text());
    hits
}

/// Which problems a cache by the prose would hold, in a run of these.
fn due_hits(cache: &mut Cache, problems: &[Problem]) -> Vec<bool> {
    let hit = |problem: &Problem| {
        let mut lent = Buffers::full();
        let Buffers {
            costs,
            choices,
            work,
        } = &mut lent;
        let found = cache.solve(&problem.encode(), costs, choices, work);
        found.hit == 1
    };
    problems.iter().map(hit).collect()
}

#[test]
fn a_second_run_has_its_answers_from_the_first() {
    let mut problems = ten_problems().to_vec();
    let folder = batch_folder("second", &problems);
    assert_eq!(hits(&folder, &[]), [false; 10]);
    let first = rows(&folder);
    fs::rename(folder.join("out.csv"), folder.join("first.csv")).expect("it is there");
    let words = ["--compare", "first.csv", "--jobs", "1", "--twice"];
    assert_eq!(hits(&folder, &words), [true; 10]);
    // Without a cache the answers are the same, and the table has no such column.
    let plain = [
        "batch",
        "in",
        "--csv",
        "plain.csv",
        "--compare",
        "first.csv",
    ];
    let ended = run_in(&folder, &plain, &[]).with(0);
    assert!(ended.text().contains("compared: 10 the same, 0 different"));
    assert!(!ended.text().contains("cache"), "{}", ended.text());
    let plain = fs::read_to_string(folder.join("plain.csv")).expect("a table");
    assert_eq!(plain.lines().next(), Some(COLUMNS));
    // Another layout is the same problem.
    let mut rng = Rng::new(1);
    for (number, problem) in problems.iter_mut().enumerate() {
        *problem = random_layout(&mut rng, problem);
        put(&folder, &format!("p{number:02}"), &problem.encode());
    }
    assert_eq!(hits(&folder, &["--compare", "first.csv"]), [true; 10]);
    for (now, then) in rows(&folder).iter().zip(first) {
        let [now, then] = [now, &then].map(|row| row.told.expect("an answer"));
        assert_eq!((now.count, now.digest), (then.count, then.digest));
    }
}

/// The last 32 problems that were stored, whatever runs they were stored in.
#[test]
fn the_last_32_problems_are_held() {
    let problems: Vec<Problem> = (0..40).map(|ceiling| staircase([ceiling, 200])).collect();
    let folder = batch_folder("last", &problems);
    let mut cache = Cache::new(brute::solve_problem, STORE_BYTES);
    for _ in 0..2 {
        assert_eq!(hits(&folder, &[]), due_hits(&mut cache, &problems));
    }
    for number in 0..8 {
        fs::remove_file(folder.join(format!("in/p{number:02}.bin"))).expect("it is there");
    }
    assert_eq!(hits(&folder, &[]), [true; 32]);
    assert_eq!(due_hits(&mut cache, &problems[8..]), [true; 32]);
    // With one more before them, each gives way just before it is asked for.
    put(&folder, "a", &three([3, 3]).encode());
    let with_one = [&[three([3, 3])], &problems[8..]].concat();
    assert_eq!(hits(&folder, &[]), [false; 33]);
    assert_eq!(due_hits(&mut cache, &with_one), [false; 33]);
}

#[test]
fn what_is_refused_is_not_held() {
    let folder = batch_folder("refused", [&three([3, 3]), &staircase([64, 200])]);
    put(&folder, "p02", b"HD");
    put(&folder, "p03", &vec![b'H'; 70_000]);
    for hit in [false, true] {
        assert_eq!(hits(&folder, &[]), [hit, false, false, false]);
    }
    let numbers = rows(&folder)
        .into_iter()
        .map(|row| row.told.map(|told| told.number));
    let due = [0, 15, 2, 1].map(Some);
    assert_eq!(numbers.collect::<Vec<_>>(), due);
}

/// A problem that takes longer than the limit ends its worker, and what was stored before is held by the next one.
#[test]
fn a_worker_that_is_ended_takes_nothing_with_it() {
    let folder = batch_folder("ended", [&three([3, 3])]);
    let slow = fs::read(data("stress").join("place_m_2.bin")).expect("a problem");
    put(&folder, "p01_slow", &slow);
    put(&folder, "p02", &three([3, 3]).encode());
    let ended = batch(&folder, &["--limit", "0.4"]).with(1);
    assert!(ended.text().contains("p01_slow: given up after 0.4 s\n"));
    let told: Vec<_> = rows(&folder).into_iter().map(|row| row.told).collect();
    let hits: Vec<_> = told
        .iter()
        .map(|told| told.and_then(|told| told.hit))
        .collect();
    assert_eq!(hits, [Some(false), None, Some(true)]);
    // Neither is it lost where every problem is given up.
    let ended = batch(&folder, &["--limit", "0.000001"]).with(1);
    assert!(ended.text().contains("0 answered, 0 refused, 3 without"));
    let table = fs::read_to_string(folder.join("out.csv")).expect("a table");
    assert!(table.starts_with(&format!("{COLUMNS},hit\n")), "{table}");
    fs::remove_file(folder.join("in/p01_slow.bin")).expect("it is there");
    assert_eq!(self::hits(&folder, &[]), [true; 2]);
}

// ---- files of no use

/// The version of the command and of the library that it links.
const THIS: &str = env!("CARGO_PKG_VERSION");

/// Bytes that are no cache of this version, with what is told of each.
fn useless(good: &[u8]) -> Vec<(Vec<u8>, String)> {
    let changed = |place: usize| {
        let mut bytes = good.to_vec();
        bytes[place] ^= 1;
        bytes
    };
    let with_version = |version: u32| write_cache(version, &good[24..]);
    let of_version = |dotted: &str| match dotted {
        "" => "it is of version ".into(),
        _ => format!("it is of version {dotted}, and this is {THIS}"),
    };
    let foreign = "it is no cache of 'chooser batch'";
    let damaged = "it is damaged: the digest of its bytes is ";
    let short = format!("it is damaged: it ends before byte {FILE_BYTES}");
    vec![
        (Vec::new(), "it is empty".into()),
        (b"FRC".to_vec(), foreign.into()),
        (b"name,bytes,number\na,1,2\n".to_vec(), foreign.into()),
        (three([3, 3]).encode(), foreign.into()),
        (changed(0), foreign.into()),
        (changed(7), foreign.into()),
        (with_version(2_002_000), of_version("2.2.0")),
        (with_version(version() + 1_000_000), of_version("")),
        (changed(9), of_version("")),
        (
            changed(12),
            "its slots have 63001 bytes instead of 63000".into(),
        ),
        (changed(16), damaged.into()),
        (changed(23), damaged.into()),
        (changed(24), damaged.into()),
        (changed(24 + SLOT_BYTES + 777), damaged.into()),
        (changed(FILE_BYTES - 1), damaged.into()),
        (good[..FILE_BYTES - 1].to_vec(), short.clone()),
        (good[..10].to_vec(), short.clone()),
        (good[..14].to_vec(), short.clone()),
        (good[..20].to_vec(), short),
        (
            [good, &[0]].concat(),
            format!("it is damaged: it has more than {FILE_BYTES} bytes"),
        ),
    ]
}

/// Such a file is told and not used, and a good one takes its place.
#[test]
fn a_file_that_is_of_no_use_is_told_and_replaced() {
    let folder = batch_folder("useless", [&three([3, 3]), &turned()]);
    assert_eq!(hits(&folder, &[]), [false; 2]);
    let good = fs::read(folder.join(FILE)).expect("it was written");
    assert_eq!((good.len(), &good[..8]), (FILE_BYTES, &MAGIC[..]));
    for (bytes, due) in useless(&good) {
        fs::write(folder.join(FILE), &bytes).expect("a file can be written");
        let begins = format!("chooser: the cache {FILE} is not used: {due}");
        let ends =
            format!("; the run begins with an empty one, which replaces {FILE} at the end\n");
        let ended = batch(&folder, &[]).with(0);
        assert!(ended.err.starts_with(&begins), "{due}: {}", ended.err);
        assert!(ended.err.ends_with(&ends), "{}", ended.err);
        assert_eq!(told_hits(&folder, &ended), [false; 2], "{due}");
        assert!(
            fs::read(folder.join(FILE)).expect("a file") == good,
            "{due}"
        );
    }
    assert_eq!(hits(&folder, &[]), [true; 2]);
    // Nothing is left beside it.
    let names = fs::read_dir(&folder).expect("a folder").count();
    assert_eq!(names, 3, "in, {FILE} and out.csv");
}

/// The file as the format has it: what a run has written is read back, and what it holds is a store.
#[test]
fn the_file_has_a_header_and_a_store() {
    let problems = [three([3, 3]), turned()];
    let folder = batch_folder("header", &problems);
    hits(&folder, &[]);
    let bytes = fs::read(folder.join(FILE)).expect("it was written");
    assert_eq!(&bytes[..8], b"FRCACHE\n");
    assert_eq!(bytes[8..12], version().to_le_bytes());
    assert_eq!(&bytes[12..16], b"\x18\xf6\0\0");
    let mut store = vec![0; STORE_BYTES];
    for problem in &problems {
        junk_buffers().lend_cached(due_call, &problem.encode(), &mut store);
    }
    assert_eq!(read_cache(version(), &bytes), Ok(store.clone()));
    assert!(write_cache(version(), &store) == bytes);
}

/// The cached call by the layout and the brute force.
fn due_call(
    bytes: &[u8],
    costs: &mut [u32],
    choices: &mut [u8],
    work: &mut [u32],
    store: &mut [u8],
) -> CachedAnswer {
    solve_cached(brute::solve_problem, bytes, costs, choices, work, store)
}

#[test]
fn a_cache_that_cannot_be_written_is_told_after_the_run() {
    let folder = batch_folder("unwritten", [&three([3, 3])]);
    let closed = folder.join("closed");
    fs::create_dir(&closed).expect("a folder can be made");
    fs::set_permissions(&closed, fs::Permissions::from_mode(0o555)).expect("it is mine");
    // Nobody makes files in this folder of Linux, also not root, who may write to the other.
    let mut names = vec!["/proc/sys/answers"];
    if fs::write(closed.join("try"), []).is_err() {
        names.push("closed/answers");
    }
    for name in names {
        let words = ["batch", "in", "--cache", name, "--csv", "out.csv"];
        let ended = run_in(&folder, &words, &[]).with(2);
        assert!(ended.text().contains("1 in all: 1 answered"));
        assert!(ended.err.contains("cannot be written"), "{}", ended.err);
        assert_eq!(told_hits(&folder, &ended), [false]);
        assert!(!Path::new(name).exists());
        fs::remove_file(folder.join("out.csv")).expect("a table");
    }
}

#[test]
fn what_cannot_be_run_is_complained_about() {
    let folder = batch_folder("complaints", [&three([3, 3])]);
    fs::write(folder.join("old.csv"), format!("{COLUMNS}\n")).expect("a file can be written");
    let complaint = |words: &[&str], due: &str| {
        let ended = run_in(&folder, &[&["batch", "in"], words].concat(), &[]).with(2);
        assert_eq!(ended.text(), "", "{words:?}");
        assert!(ended.err.contains(due), "{}", ended.err);
    };
    complaint(&["--cache", FILE, "--jobs", "2"], "works with one worker");
    complaint(&["--cache", "-"], "--cache takes a file");
    complaint(&["--cache"], "behind --cache its FILE is due");
    complaint(&["--cache", "no/such/file"], "cannot be written");
    complaint(&["--cache", "in"], "cannot be written");
    complaint(&["--cache", ""], "cannot be written");
    complaint(&["--cache", "new", "--csv", "new"], "name the same file");
    let words = ["--cache", "in/../old.csv", "--compare", "old.csv"];
    complaint(&words, "--cache and --compare name the same file");
    // Reading this file of Linux fails for everybody, also for root.
    complaint(&["--cache", "/proc/self/mem"], "cannot be read");
    assert!(!folder.join(FILE).exists() && !folder.join("new").exists());
    let old = fs::read_to_string(folder.join("old.csv")).expect("a table");
    assert_eq!(old, format!("{COLUMNS}\n"));
}

/// Tables with hits are read, written and compared; the column says 0, 1 or nothing.
#[test]
fn a_table_may_have_hits() {
    let text = format!(
        "{COLUMNS},hit\na,155,0,0,2,7,00000000000000ff,1\nb,1,2,0,0,7,00000000000000ff,0\n\
         c,9,none,,,,,\n"
    );
    let read: Vec<Row> = parse_rows(&text).expect("rows").into_values().collect();
    let hits: Vec<_> = read
        .iter()
        .map(|row| row.told.map(|told| told.hit))
        .collect();
    assert_eq!(hits, [Some(Some(true)), Some(Some(false)), None]);
    assert_eq!(write_rows(&read, true), text);
    let row = "a,155,0,0,2,7,00000000000000ff";
    for (line, complaint) in [
        (format!("{row},2"), "line 2: '2' in the column hit"),
        (format!("{row},"), "line 2: '' in the column hit"),
        (row.into(), "line 2: 7 fields instead of 8"),
        (format!("{row},1,1"), "line 2: 9 fields instead of 8"),
    ] {
        let told = parse_rows(&format!("{COLUMNS},hit\n{line}\n")).expect_err(complaint);
        assert!(told.starts_with(complaint), "{told}");
    }
}

/// A cached call that is wrong in one way, which the second call must show.
fn faulty(kind: u8) -> CachedCall {
    match kind {
        0 => |bytes, costs, choices, work, store| {
            let junk = work[0] as u8; // what is stored depends on what work memory held
            let found = due_call(bytes, costs, choices, work, store);
            store[100] = junk;
            found
        },
        1 => |bytes, costs, choices, work, store| {
            let hit = costs[0] as u8 & 1; // and so does the hit
            let found = due_call(bytes, costs, choices, work, store);
            CachedAnswer { hit, ..found }
        },
        2 => |bytes, costs, choices, work, store| {
            let junk = costs[0];
            let found = due_call(bytes, costs, choices, work, store);
            costs[0] = junk;
            found
        },
        _ => |bytes, costs, choices, work, store| {
            let found = due_call(bytes, costs, choices, work, store);
            work[9] = 1;
            found
        },
    }
}

#[test]
fn the_second_call_shows_what_depends_on_junk() {
    let bytes = three([3, 3]).encode();
    let twice = |call| {
        let (mut lent, mut store) = (junk_batch_buffers(), vec![0; SLOT_BYTES]);
        lent.costs[0] = 0;
        let called = cached_twice(call, &mut lent, &mut store, &mut Rng::new(1), &bytes);
        called.faults.into_iter().next()
    };
    assert_eq!(twice(due_call), None);
    let other = "from other junk the call tells another hit, or stores something else";
    for (kind, complaint) in [
        (0, other),
        (1, other),
        (2, "from other junk the call lists other points"),
        (3, "the call has left other work memory than it must"),
    ] {
        let found = twice(faulty(kind)).expect(complaint).complaint;
        assert!(found.starts_with(complaint), "{found}");
    }
}
