//! `chooser plot`: the frontier of a problem as a picture.

use std::ffi::{OsStr, OsString};
use std::path::Path;

use super::refused::{Call, Question};
use super::source::Source;
use super::waiting::while_waiting;
use super::{check_target, print_out, sort_words, write_file, Failure, Outcome, STANDARD_STREAM};
use crate::plot::{draw, Picture, Plotted};
use crate::text::Names;
use frontier::limits::MAX_POINTS;
use frontier::{Chooser, Point, Problem, Refusal};

pub const HELP: &str = "\
usage: chooser plot FILE -o OUT.svg

Draws the frontier of the problem in FILE ('-': standard input; binary, text or
WCSP text) into the file OUT.svg ('-': standard output), for any web browser:
with two costs as stairs, with three or four as a matrix of pairs, with one on a
scale. Rest the pointer on a point for its costs and its choice. The picture
follows the browser's light or dark setting. The same problem under the same
file name always gives the same picture, byte by byte.

The exit status is 0 for a picture, 1 where the problem is refused, and 2 where
the words are wrong or a file cannot be read or written. An error leaves an
OUT.svg that is there already as it was.

Example:
    chooser plot examples/firmware.txt -o firmware.svg
";

/// The option with the picture's file.
const OUT: &str = "-o";

pub fn run(words: &[OsString]) -> Result<Outcome, Failure> {
    let asked = sort_words(words, &[(OUT, "OUT.svg")])?;
    let [file] = asked.operands(["FILE"])?;
    let missing = || Failure::misuse(format!("{OUT} OUT.svg is missing: the picture's file"));
    let out = asked.value(OUT).ok_or_else(missing)?;
    let printed = out == STANDARD_STREAM;
    if !printed {
        check_target(out)?;
    }
    let source = Source::load(file)?;
    let picture = match picture_of(&source, title_of(file)) {
        Ok(picture) => picture,
        Err(refusal) => {
            let (source, room) = (&source, MAX_POINTS);
            let call = Call::Solve { room };
            return Question { source, call }.refuse(refusal, false);
        }
    };
    if printed {
        print_out(&draw(&picture))?;
    } else {
        write_file(out, draw(&picture).as_bytes())?;
        let (shown, count) = (Path::new(out).display(), picture.points.len());
        let points = if count == 1 { "point" } else { "points" };
        print_out(&format!("{shown}: {count} {points}\n"))?;
    }
    Ok(Outcome::Answered)
}

/// The picture's title: the file's name without its folder.
fn title_of(file: &OsStr) -> String {
    match Path::new(file).file_name() {
        Some(name) if file != STANDARD_STREAM => name.to_string_lossy().into(),
        _ => "frontier".into(),
    }
}

/// Solves the problem, and says what is to be drawn.
fn picture_of(source: &Source, title: String) -> Result<Picture, Refusal> {
    let mut chooser = Chooser::new();
    let frontier = while_waiting(|| chooser.solve(&source.bytes))?;
    let problem = Problem::decode(&source.bytes)?;
    let names = source.names(&problem);
    Ok(Picture {
        title,
        points: frontier
            .points()
            .map(|point| plotted(&names, point))
            .collect(),
        objectives: objectives(&problem, &names),
    })
}

fn objectives(problem: &Problem, names: &Names) -> Vec<(String, u32)> {
    let ceilings = problem.ceilings.iter().copied();
    names.costs.iter().cloned().zip(ceilings).collect()
}

fn plotted(names: &Names, point: Point) -> Plotted {
    let chosen = |(variable, &value): (usize, &u8)| {
        let module = names.modules[variable].name.clone();
        (module, names.variant(variable, value).into())
    };
    Plotted {
        costs: point.costs.to_vec(),
        choice: point.choice.iter().enumerate().map(chosen).collect(),
    }
}
