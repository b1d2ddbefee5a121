//! `chooser batch` by calls of several problems: every number of them, each problem against the brute force, one
//! that is too slow or ends its worker, and calls that are wrong.

use std::fs;
use std::path::{Path, PathBuf};
use std::process::{Command, Stdio};
use std::thread;
use std::time::Duration;

use chooser::batch_calls::{call_twice, Fault};
use chooser::batch_csv::{parse_rows, write_rows, Row, Told};
use chooser::digest::list_digest;
use chooser::junk::{junk_batch_buffers, Rng};
use frontier::lent::{frame, solve_batch, Answer, BatchBuffers, BatchCall, Buffers};
use frontier::limits::{MAX_BATCH, MAX_BYTES};
use frontier::refusal::BATCH;
use testing::brute::solve_problem;
use testing::chooser_run::{chooser, folder, run_in, Ended};
use testing::examples::{colours, objects, staircase, ten_problems, three};
use testing::places::data;

/// A problem of each kind in turn, no two of them alike in all: answered, also without a point, and refused.
fn kinds(index: usize) -> Vec<u8> {
    let ceiling = index as u32;
    match index % 7 {
        0 => colours([100, 100 + ceiling]).encode(),
        1 => staircase([ceiling, 200]).encode(),
        2 => ten_problems()[index % 10].encode(),
        3 => vec![b'H'; index],
        4 => staircase([64 + ceiling, 200]).encode(),
        5 => vec![b'H'; MAX_BYTES - 1 + index],
        _ => [&objects([13, 100, 100]).encode()[..], &[0; 3]].concat(),
    }
}

/// A folder with these problems, named p00 and so on, in a folder of its own in which tables can stand.
fn batch_folder(name: &str, problems: &[Vec<u8>]) -> PathBuf {
    let folder = folder(&format!("calls_{name}"));
    fs::create_dir(folder.join("in")).expect("a folder can be made");
    for (index, bytes) in problems.iter().enumerate() {
        let file = folder.join(format!("in/p{index:02}.bin"));
        fs::write(file, bytes).expect("a file can be written");
    }
    folder
}

/// Runs a batch in a folder; it tells nothing on standard error.
fn batch(folder: &Path, words: &[&str], status: i32) -> Ended {
    let ended = run_in(folder, &[&["batch", "in"], words].concat(), &[]).with(status);
    assert_eq!(ended.err, "");
    ended
}

/// Writes the table that is due by the brute force.
fn put_due_table(folder: &Path, problems: &[Vec<u8>]) {
    let rows: Vec<Row> = (0..).zip(problems).map(due_row).collect();
    let table = write_rows(&rows, false);
    fs::write(folder.join("due.csv"), table).expect("a table can be written");
}

fn due_row((index, bytes): (usize, &Vec<u8>)) -> Row {
    let mut lent = Buffers::full();
    let answer = lent.lend(solve_problem, bytes);
    let list = lent.listed(bytes, answer);
    let (costs, choices) = list.map_or((&[][..], &[][..]), |list| (list.costs(), list.choices()));
    Row {
        name: format!("p{index:02}"),
        bytes: bytes.len() as u64,
        told: Some(Told {
            number: answer.number,
            place: answer.place,
            count: answer.count,
            microseconds: 0,
            digest: list_digest(costs, choices),
            hit: None,
        }),
    }
}

/// Which problems went into the calls that are told, in their order; there must be at most ten.
fn told_calls(text: &str) -> Vec<String> {
    let (_, rest) = text.split_once("slowest:\n").expect("slowest calls");
    let is_time = |line: &&str| line.starts_with("    ") && line.contains(" s  ");
    let lines = rest.lines().take_while(is_time);
    let mut calls: Vec<String> = lines
        .map(|line| line.split_once(" s  ").expect("a time").1.into())
        .collect();
    calls.sort();
    calls
}

/// The names of the calls that one worker makes of so many problems.
fn due_calls(problems: usize) -> Vec<String> {
    let call = |first: usize| match problems.min(first + MAX_BATCH) - 1 {
        last if last == first => format!("p{first:02}"),
        last => {
            let count = last - first + 1;
            format!("p{first:02} to p{last:02}, {count} in one call")
        }
    };
    (0..problems).step_by(MAX_BATCH).map(call).collect()
}

#[test]
fn any_number_of_problems_is_answered_as_single_calls_would() {
    for count in [1, 2, 15, 16, 17, 31, 32, 33, 50] {
        let problems: Vec<Vec<u8>> = (0..count).map(kinds).collect();
        let folder = batch_folder(&format!("number_{count}"), &problems);
        put_due_table(&folder, &problems);
        let same = format!("\ncompared: {count} the same, 0 different\n{count} in all: ");
        for words in [&["--jobs", "1"][..], &["--jobs", "3"], &[], &["--twice"]] {
            let words = [words, &["--compare", "due.csv"]].concat();
            let text = batch(&folder, &words, 0).text().to_string();
            assert!(text.contains(&same), "{words:?}: {text}");
        }
        let text = batch(&folder, &["--jobs", "1"], 0).text().to_string();
        assert_eq!(told_calls(&text), due_calls(count));
        // A table is written by single calls, and says the same.
        let words = ["--jobs", "1", "--compare", "due.csv", "--csv", "out.csv"];
        let text = batch(&folder, &words, 0).text().to_string();
        assert!(text.contains(&same), "{text}");
        assert!(!text.contains(" in one call"), "{text}");
        let again = batch(&folder, &["--compare", "out.csv"], 0);
        assert!(again.text().contains(&same), "{}", again.text());
    }
}

#[test]
fn a_difference_within_a_call_is_named() {
    let mut problems: Vec<Vec<u8>> = (0..20).map(kinds).collect();
    let folder = batch_folder("different", &problems);
    problems[7] = colours([100, 0]).encode();
    problems[17] = problems[18].clone();
    put_due_table(&folder, &problems);
    let text = batch(&folder, &["--compare", "due.csv", "--jobs", "1"], 1);
    for part in [
        "\np07: another answer, 2 points with digest ",
        "\np17: another problem, 17 bytes instead of ",
        "\ncompared: 18 the same, 2 different\n",
    ] {
        assert!(text.text().contains(part), "{}", text.text());
    }
}

/// A table as version 3.0.0 has written it.
#[test]
fn a_table_of_an_earlier_version_is_compared_with() {
    let problems = ["colours", "firmware"].map(|name| {
        let examples = data("../../examples").join(format!("{name}.bin"));
        fs::read(examples).expect("an example")
    });
    let folder = batch_folder("earlier", &problems);
    let table = "name,bytes,number,place,count,microseconds,digest\n\
                 p00,155,0,0,2,24,8697f5b79162bc6b\n\
                 p01,187,0,0,12,76,e561e6c546a4d875\n";
    fs::write(folder.join("old.csv"), table).expect("a table can be written");
    for words in [&["--jobs", "1"][..], &["--csv", "new.csv"]] {
        let words = [words, &["--compare", "old.csv"]].concat();
        let ended = batch(&folder, &words, 0);
        assert!(ended.text().contains("compared: 2 the same, 0 different\n"));
    }
    let new = fs::read_to_string(folder.join("new.csv")).expect("a table");
    let mut rows = [&new, table].map(|text| parse_rows(text).expect("rows"));
    for row in rows.iter_mut().flat_map(|rows| rows.values_mut()) {
        row.told.as_mut().expect("an answer").microseconds = 0;
    }
    assert_eq!(rows[0], rows[1]);
}

/// A problem that takes many seconds.
fn slow() -> Vec<u8> {
    fs::read(data("stress").join("place_m_2.bin")).expect("a problem")
}

/// A problem that takes about a tenth of a second.
fn brisk() -> Vec<u8> {
    fs::read(data("nightly").join("026_p2_n20_budget.bin")).expect("a problem")
}

/// Twenty problems, of which these take long.
fn with_slow(indices: &[usize]) -> Vec<Vec<u8>> {
    let mut problems: Vec<Vec<u8>> = (0..20).map(kinds).collect();
    for index in indices {
        problems[*index] = slow();
    }
    problems
}

/// Asserts that of the twenty problems all but so many were answered as they must be.
fn assert_others_answered(text: &str, without: usize) {
    let same = 20 - without;
    let others = format!(
        "compared: {same} the same, 0 different, {without} without an answer in one of the runs\n"
    );
    assert!(text.contains(&others), "{text}");
    let all = format!(", {without} without an answer; ");
    assert!(text.contains(&all), "{text}");
}

#[test]
fn the_problem_that_is_too_slow_is_named_and_the_others_are_answered() {
    let problems = with_slow(&[5, 18]);
    let folder = batch_folder("slow", &problems);
    put_table_without(&folder, &problems, &[5, 18]);
    for more in [&[][..], &["--jobs", "1", "--twice"]] {
        let words = [&["--limit", "0.2", "--compare", "due.csv"], more].concat();
        let text = batch(&folder, &words, 1).text().to_string();
        let lines = "\np05: given up after 0.2 s\np18: given up after 0.2 s\ncompared: ";
        assert!(text.contains(lines), "{text}");
        assert_others_answered(&text, 2);
    }
}

/// The table that is due, where the brute force is not asked about these problems.
fn put_table_without(folder: &Path, problems: &[Vec<u8>], without: &[usize]) {
    let row = |(index, bytes): (usize, &Vec<u8>)| match without.contains(&index) {
        false => due_row((index, bytes)),
        true => Row {
            name: format!("p{index:02}"),
            bytes: bytes.len() as u64,
            told: None,
        },
    };
    let rows: Vec<Row> = (0..).zip(problems).map(row).collect();
    fs::write(folder.join("due.csv"), write_rows(&rows, false)).expect("a table can be written");
}

/// The limit is for a problem: sixteen that take longer together are all answered, each with a time of its own.
#[test]
fn the_limit_is_not_for_problems_together() {
    let folder = batch_folder("together", &vec![brisk(); MAX_BATCH]);
    let ended = batch(&folder, &["--jobs", "1", "--limit", "0.4"], 0);
    let text = ended.text();
    assert!(
        text.contains("\n16 in all: ") && text.contains(", 0 without an answer; "),
        "{text}"
    );
    assert!(!text.contains("in one call"), "{text}");
    assert_eq!(told_calls(text).len(), 10);
}

#[test]
fn every_problem_may_be_too_slow() {
    let problems: Vec<Vec<u8>> = (0..18).map(kinds).collect();
    let folder = batch_folder("hurried", &problems);
    let text = batch(&folder, &["--limit", "0.000001"], 1)
        .text()
        .to_string();
    let due: String = (0..18)
        .map(|index| format!("p{index:02}: given up after 0.000001 s\n"))
        .collect();
    assert!(text.starts_with(&due), "{text}");
    assert!(text.contains("18 in all: 0 answered, 0 refused, 18 without an answer; 0.000000 s"));
}

/// A worker that takes a second of processor time is ended here by the system, before it is too slow for the command.
#[test]
fn the_problem_that_ends_its_worker_is_named_and_the_others_are_answered() {
    let problems = with_slow(&[5]);
    let folder = batch_folder("ended", &problems);
    put_table_without(&folder, &problems, &[5]);
    let ended = Command::new("sh")
        .args(["-c", "ulimit -c 0 && ulimit -t 1 && exec \"$@\"", "sh"])
        .arg(chooser())
        .args(["batch", "in", "--jobs", "1", "--twice"])
        .args(["--compare", "due.csv"])
        .current_dir(&folder)
        .output()
        .expect("a shell runs");
    assert_eq!(ended.status.code(), Some(1));
    let text = String::from_utf8(ended.stdout).expect("text");
    let died = "the process ended without an answer";
    let again = "they were run again singly";
    let lines = format!("\np00 to p15: {died}; {again}\np05: {died}\ncompared: ");
    assert!(text.contains(&lines), "{text}");
    assert!(text.contains("p16 to p19, 4 in one call\n"), "{text}");
    assert_others_answered(&text, 1);
}

/// Whether a process has one of its own started.
fn has_child(process: u32) -> bool {
    let parent = |stat: String| {
        let (_, fields) = stat.rsplit_once(") ")?;
        fields.split(' ').nth(1)?.parse().ok()
    };
    let processes = fs::read_dir("/proc").expect("Linux tells its processes");
    processes
        .filter_map(|entry| fs::read_to_string(entry.ok()?.path().join("stat")).ok())
        .any(|stat| parent(stat) == Some(process))
}

/// A file that is gone when its call is made; the first call, with a slow problem, gives the time to remove it.
#[test]
fn a_file_that_can_no_longer_be_read_is_named_and_the_others_are_answered() {
    let problems = with_slow(&[5]);
    let folder = batch_folder("gone", &problems);
    put_table_without(&folder, &problems, &[5, 17]);
    let process = Command::new(chooser())
        .args(["batch", "in", "--jobs", "1", "--limit", "0.7"])
        .args(["--compare", "due.csv"])
        .current_dir(&folder)
        .stdout(Stdio::piped())
        .spawn()
        .expect("the command starts");
    let is_running = (0..10_000).any(|_| {
        thread::sleep(Duration::from_millis(1));
        has_child(process.id())
    });
    assert!(is_running, "no worker was started");
    fs::remove_file(folder.join("in/p17.bin")).expect("it is there");
    let ended = process.wait_with_output().expect("the command ends");
    let text = String::from_utf8(ended.stdout).expect("text");
    assert_eq!(ended.status.code(), Some(1), "{text}");
    assert!(text.contains("\np05: given up after 0.7 s\np17: the problem file "));
    let call = "p16 to p19, 3 in one call\n";
    assert!(text.contains(call), "{text}");
    assert_others_answered(&text, 2);
}

// ---- calls that are wrong

/// A batch call that is wrong in one way, with a problem of the batch or with all of it.
fn faulty(kind: u8) -> BatchCall {
    match kind {
        0 => |batch, costs, choices, results, work| {
            let junk = work[0]; // a point that depends on what work memory held
            let answer = solve_batch(batch, costs, choices, results, work);
            costs[256] = junk;
            answer
        },
        1 => |batch, costs, choices, results, work| {
            let junk = u32::from(choices[0]); // a place that depends on the junk
            let answer = solve_batch(batch, costs, choices, results, work);
            results[7] = junk;
            answer
        },
        2 => |batch, costs, choices, results, work| {
            let answer = solve_batch(batch, costs, choices, results, work);
            costs[511] ^= 1; // behind the second problem's points
            answer
        },
        3 => |batch, costs, choices, results, work| {
            let answer = solve_batch(batch, costs, choices, results, work);
            choices[3 * 1536 - 1] ^= 1; // in the area of a refused problem
            answer
        },
        4 => |batch, costs, choices, results, work| {
            let answer = solve_batch(batch, costs, choices, results, work);
            results[9] ^= 1; // behind the third and last problem
            answer
        },
        5 => |batch, costs, choices, results, work| {
            let answer = solve_batch(batch, costs, choices, results, work);
            work[8191] = 1;
            answer
        },
        6 => |batch, costs, choices, results, work| {
            let answer = solve_batch(batch, costs, choices, results, work);
            Answer { count: 2, ..answer }
        },
        _ => |_, _, _, _, _| Answer {
            number: BATCH,
            place: 0,
            count: 0,
        },
    }
}

/// What the second call shows of a batch of three, the last of which is refused.
fn faults(call: BatchCall) -> Vec<Fault> {
    let problems = [colours([100, 100]).encode(), three([3, 3]).encode(), vec![]];
    let problems: Vec<&[u8]> = problems.iter().map(Vec::as_slice).collect();
    let batch = frame(&problems);
    let call = |lent: &mut BatchBuffers| lent.lend(call, &batch);
    let (mut lent, mut rng) = (junk_batch_buffers(), Rng::new(1));
    let called = call_twice(call, &mut lent, &mut rng, &problems);
    assert_eq!(called.told.len(), problems.len());
    called.faults
}

#[test]
fn the_checks_show_what_is_wrong_with_a_call() {
    assert_eq!(faults(solve_batch), []);
    let work = "the call has left other work memory than it must";
    for (kind, problem, complaint) in [
        (0, Some(1), "from other junk the call lists other points"),
        (1, Some(2), "from other junk the call answers "),
        (2, Some(1), "the call has changed costs behind the last"),
        (3, Some(2), "the call has changed choices behind the last"),
        (
            4,
            None,
            "the call has changed what is behind the last problem",
        ),
        (5, None, work),
        (6, None, "the call counts 2 problems instead of 3"),
        (7, None, "the call refuses all with number 21 (batch)"),
    ] {
        let found = faults(faulty(kind));
        assert_eq!(found.len(), 1, "{found:?}");
        assert_eq!(found[0].problem, problem, "{found:?}");
        assert!(found[0].complaint.starts_with(complaint), "{found:?}");
    }
}

/// Where all of a batch is refused, work memory is left alone, and that is asked.
#[test]
fn work_memory_is_left_where_every_problem_is_refused() {
    let problems: [&[u8]; 2] = [b"HD", b""];
    let batch = frame(&problems);
    let called = |call: BatchCall| {
        let (mut lent, mut rng) = (junk_batch_buffers(), Rng::new(1));
        let call = |lent: &mut BatchBuffers| lent.lend(call, &batch);
        call_twice(call, &mut lent, &mut rng, &problems)
    };
    let found = called(solve_batch);
    assert_eq!(found.faults, []);
    assert!(found.told.iter().all(|told| told.number == 2));
    let clears: BatchCall = |batch, costs, choices, results, work| {
        let answer = solve_batch(batch, costs, choices, results, work);
        work.fill(0);
        answer
    };
    let found = called(clears).faults;
    assert_eq!(found.len(), 1, "{found:?}");
    assert!(found[0].complaint.contains("other work memory"));
}
