//! What a run of the program `speed` has found: times by family, answers compared, and the table.

use std::time::Duration;

use super::cases::Case;
use super::sides::{Ending, Run};
use super::table::table_text;
use super::toulbar2::least_cost_listed;
use crate::night::difference;
use crate::reading::read_problem;
use frontier::measure::{Form, Measures};

/// Answers that take longer than this are counted.
pub const SLOW: Duration = Duration::from_secs(2);

/// Problems with at most this many variables count as small.
const SMALL: usize = 6;

/// How the names of sparse problems with one objective begin.
const SPARSE: &str = "single_m";

/// What the sides made of one problem; a side that did not run has none.
pub struct Runs {
    pub chooser: Option<Run>,
    pub baseline: Run,
    pub toulbar2: Option<Run>,
    /// What toulbar2 says of its own time.
    pub toulbar2_own: Option<Duration>,
}

/// What one side took for the problems of a family.
#[derive(Clone, Default)]
struct Total {
    problems: usize,
    /// Over two seconds, or given up.
    over: usize,
    /// Without an answer.
    unanswered: usize,
    worst: Duration,
    time: Duration,
    nodes: u64,
}

impl Total {
    fn add(&mut self, run: &Run) {
        let unanswered = !run.is_answered();
        self.problems += 1;
        self.over += usize::from(unanswered || run.time > SLOW);
        self.unanswered += usize::from(unanswered);
        self.worst = self.worst.max(run.time);
        self.time += run.time;
        self.nodes += run.nodes.unwrap_or(0);
    }

    fn join(&mut self, other: &Total) {
        self.problems += other.problems;
        self.over += other.over;
        self.unanswered += other.unanswered;
        self.worst = self.worst.max(other.worst);
        self.time += other.time;
        self.nodes += other.nodes;
    }

    /// Something that is more where a problem was given up.
    fn at_least(&self, text: String) -> String {
        match self.unanswered {
            0 => text,
            _ => format!(">{text}"),
        }
    }

    fn seconds(&self, time: Duration) -> String {
        self.at_least(format!("{:.4}", time.as_secs_f64()))
    }

    fn cells(&self) -> [String; 3] {
        let worst = self.seconds(self.worst);
        [self.over.to_string(), worst, self.seconds(self.time)]
    }
}

/// The times of both sides for problems that at least one of them answered.
#[derive(Clone, Default)]
struct Ratio {
    chooser: Duration,
    baseline: Duration,
    /// A side gave a problem up that the other one answered, so its time is longer than known.
    chooser_longer: bool,
    baseline_longer: bool,
}

impl Ratio {
    fn add(&mut self, chooser: &Run, baseline: &Run) {
        let [one, other] = [chooser, baseline].map(Run::is_answered);
        if one || other {
            self.chooser += chooser.time;
            self.baseline += baseline.time;
            self.chooser_longer |= !one;
            self.baseline_longer |= !other;
        }
    }

    fn join(&mut self, other: &Ratio) {
        self.chooser += other.chooser;
        self.baseline += other.baseline;
        self.chooser_longer |= other.chooser_longer;
        self.baseline_longer |= other.baseline_longer;
    }

    /// The chooser's speed divided by the baseline's.
    fn text(&self) -> String {
        if self.chooser.is_zero() || (self.chooser_longer && self.baseline_longer) {
            return "-".to_string();
        }
        let ratio = self.baseline.as_secs_f64() / self.chooser.as_secs_f64();
        match (self.chooser_longer, self.baseline_longer) {
            (true, _) => format!("<{ratio:.4}"),
            (_, true) => format!(">{ratio:.4}"),
            _ => format!("{ratio:.4}"),
        }
    }
}

/// What the chooser's searches took together.
#[derive(Default)]
struct Searches {
    problems: usize,
    /// So many of them were answered by the first form.
    first_form: usize,
    plans: u64,
    failed: u64,
    opened: u64,
}

impl Searches {
    fn add(&mut self, measures: &Measures) {
        self.problems += 1;
        self.first_form += usize::from(measures.form == Some(Form::First));
        self.plans += measures.plans;
        self.failed += measures.failed;
        self.opened += measures.opened;
    }
}

/// The row of one family, or of all.
#[derive(Clone, Default)]
struct Row {
    name: String,
    chooser: Total,
    baseline: Total,
    toulbar2: Total,
    ratio: Ratio,
}

impl Row {
    fn add(&mut self, runs: &Runs) {
        self.baseline.add(&runs.baseline);
        if let Some(chooser) = &runs.chooser {
            self.chooser.add(chooser);
            self.ratio.add(chooser, &runs.baseline);
        }
        if let Some(toulbar2) = &runs.toulbar2 {
            self.toulbar2.add(toulbar2);
        }
    }

    fn join(&mut self, other: &Row) {
        self.chooser.join(&other.chooser);
        self.baseline.join(&other.baseline);
        self.toulbar2.join(&other.toulbar2);
        self.ratio.join(&other.ratio);
    }
}

/// Which sides have columns.
#[derive(Clone, Copy)]
pub struct Columns {
    pub chooser: bool,
    /// The baseline is the chooser with another library, and not plain Rust.
    pub other: bool,
    pub toulbar2: bool,
}

/// What has come of the problems so far.
pub struct Report {
    columns: Columns,
    rows: Vec<Row>,
    /// What the chooser took for small problems.
    small: Total,
    searches: Searches,
    /// On how many sparse problems the chooser was no slower than toulbar2, and of how many.
    sparse: [usize; 2],
    compared: usize,
    /// What is wrong, a line each.
    pub faults: Vec<String>,
}

impl Report {
    pub fn new(columns: Columns) -> Report {
        Report {
            columns,
            rows: Vec::new(),
            small: Total::default(),
            searches: Searches::default(),
            sparse: [0; 2],
            compared: 0,
            faults: Vec::new(),
        }
    }

    /// Takes up how a problem ended.
    pub fn add(&mut self, case: &Case, runs: &Runs) {
        let number = self.rows.iter().position(|row| row.name == case.family);
        let number = number.unwrap_or_else(|| {
            let name = case.family.clone();
            self.rows.push(Row {
                name,
                ..Row::default()
            });
            self.rows.len() - 1
        });
        self.rows[number].add(runs);
        self.add_small(case, runs);
        let chooser = runs.chooser.as_ref();
        if let Some(measures) = chooser.and_then(|run| run.measures.as_ref()) {
            self.searches.add(measures);
        }
        self.add_sparse(case, runs);
        self.compare(case, runs);
    }

    fn add_small(&mut self, case: &Case, runs: &Runs) {
        let problem = read_problem(&case.bytes).map(|reading| reading.problem);
        let small = problem.is_ok_and(|problem| problem.variables() <= SMALL);
        if let (true, Some(chooser)) = (small, &runs.chooser) {
            self.small.add(chooser);
        }
    }

    fn add_sparse(&mut self, case: &Case, runs: &Runs) {
        if let (Some(chooser), Some(own)) = (&runs.chooser, runs.toulbar2_own) {
            if case.name.starts_with(SPARSE) {
                self.sparse[0] += usize::from(chooser.is_answered() && chooser.time <= own);
                self.sparse[1] += 1;
            }
        }
    }

    /// A line about sparse problems with one objective, if toulbar2 ran on some.
    pub fn sparse_line(&self) -> Option<String> {
        let [faster, problems] = self.sparse;
        (problems > 0).then(|| {
            format!("{SPARSE}: the chooser is no slower than toulbar2's own preprocessing on {faster} of {problems} problems.")
        })
    }

    /// A line about what the chooser's searches took, if it answered some problem.
    pub fn searches_line(&self) -> Option<String> {
        let Searches {
            problems,
            first_form,
            plans,
            failed,
            opened,
        } = self.searches;
        (problems > 0).then(|| {
            format!("Of {problems} problems that the chooser answered, {first_form} were answered by the first form; plans: {plans}, of which {failed} failed their test; opened partial choices: {opened}.")
        })
    }

    /// A line about small problems, if the chooser ran some.
    pub fn small_line(&self) -> Option<String> {
        let Total {
            problems,
            worst,
            time,
            ..
        } = self.small;
        let micros = |time: Duration| time.as_secs_f64() * 1e6;
        let mean = micros(time) / problems as f64;
        let worst = micros(worst);
        (problems > 0).then(|| {
            format!("Up to {SMALL} variables: {problems} problems, the chooser's worst {worst:.1} microseconds, {mean:.1} on average.")
        })
    }

    /// Compares the answers with the expected text, or with each other where none is known.
    fn compare(&mut self, case: &Case, runs: &Runs) {
        let chooser = runs.chooser.as_ref();
        let baseline = match self.columns.other {
            true => "the other library",
            false => "plain Rust",
        };
        let sides = [(baseline, Some(&runs.baseline)), ("the chooser", chooser)];
        let mut known = case.expected.clone();
        for (side, run) in sides {
            let answer = run.and_then(|run| self.answer(case, side, run));
            match (&known, answer) {
                (Some(known), Some(text)) => self.compare_texts(case, side, text, known),
                (None, Some(text)) => known = Some(text.to_string()),
                (_, None) => {}
            }
        }
        let toulbar2 = runs.toulbar2.as_ref();
        let answer = toulbar2.and_then(|run| self.answer(case, "toulbar2", run));
        let cost = known.and_then(|known| least_cost_listed(&known));
        if let (Some(answer), Some(cost)) = (answer, cost) {
            self.compare_texts(case, "toulbar2", answer, &cost);
        }
    }

    /// A side's answer, if it has one. That a process died is wrong.
    fn answer<'a>(&mut self, case: &Case, side: &str, run: &'a Run) -> Option<&'a str> {
        match &run.ending {
            Ending::Answered(text) => return Some(text),
            Ending::GivenUp => {}
            Ending::Died => {
                let name = &case.name;
                let fault = format!("{name}: {side}: the process ended without an answer");
                self.faults.push(fault);
            }
        }
        None
    }

    fn compare_texts(&mut self, case: &Case, side: &str, text: &str, known: &str) {
        self.compared += 1;
        if text != known {
            let difference = difference(text, known);
            self.faults
                .push(format!("{}: {side}: {difference}", case.name));
        }
    }

    /// The table with a row for each family and one for all of them.
    pub fn table(&self) -> String {
        let mut all = Row {
            name: "all".to_string(),
            ..Row::default()
        };
        self.rows.iter().for_each(|row| all.join(row));
        let rows = self.rows.iter().chain([&all]);
        let rows: Vec<Vec<String>> = rows.map(|row| self.cells(row)).collect();
        table_text(&self.header(), &rows)
    }

    fn header(&self) -> Vec<String> {
        let mut header = vec!["Family", "Problems"];
        if self.columns.chooser {
            header.extend(["Chooser over", "worst", "total"]);
        }
        header.extend(match self.columns.other {
            true => vec!["Other over", "worst", "total"],
            false => vec!["Plain over", "worst", "total", "nodes"],
        });
        if self.columns.chooser {
            header.push("Ratio");
        }
        if self.columns.toulbar2 {
            header.extend(["toulbar2 on", "over", "worst", "total"]);
        }
        header.into_iter().map(String::from).collect()
    }

    fn cells(&self, row: &Row) -> Vec<String> {
        let mut cells = vec![row.name.clone(), row.baseline.problems.to_string()];
        if self.columns.chooser {
            cells.extend(row.chooser.cells());
        }
        cells.extend(row.baseline.cells());
        if !self.columns.other {
            cells.push(row.baseline.at_least(row.baseline.nodes.to_string()));
        }
        if self.columns.chooser {
            cells.push(row.ratio.text());
        }
        if self.columns.toulbar2 {
            cells.push(row.toulbar2.problems.to_string());
            cells.extend(row.toulbar2.cells());
        }
        cells
    }

    /// The last line: how many answers were compared.
    pub fn summary(&self) -> String {
        let problems: usize = self.rows.iter().map(|row| row.baseline.problems).sum();
        format!(
            "{problems} problems, {} answers compared, {} faults",
            self.compared,
            self.faults.len()
        )
    }
}
