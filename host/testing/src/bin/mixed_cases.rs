//! Runs mixed cases of the calls over the C interface and compares each with the brute force. It is
//! a program of its own so that memcheck can watch it; see `.ci/memcheck`.

use std::env;
use std::process::ExitCode;

use frontier::lent::{
    read_text, write_batch, write_bound, write_cached, write_canonical, write_cut, write_points,
    write_solve, write_text, Answer, CachedAnswer, CachedNumbers, CutNumbers, Halves, Keyed, Least,
    PointRecord,
};
use frontier::limits::MAX_OBJECTIVES;
use testing::mixed::Mixed;

const USAGE: &str = "usage: mixed_cases [N]
Runs the mixed cases with seeds 0 to N - 1 (N: a number from 1 on; default 1000).";

const DEFAULT_CASES: u64 = 1000;

/// A line of progress comes once in this many cases.
const PROGRESS: u64 = 200;

/// The plain call on a copy of the problem that has exactly its length on the heap, and with junk
/// where it writes its place and count, so that memcheck sees every access beside them. The buffers
/// are such copies already.
fn solve_on_heap(
    problem: &[u8],
    costs: &mut [u32],
    choices: &mut [u8],
    work: &mut [u32],
) -> Answer {
    let problem: Box<[u8]> = problem.into();
    let (mut place, mut count) = (Box::new(0xa5a5_a5a5), Box::new(0xa5a5_a5a5));
    let number = write_solve(&problem, costs, choices, work, &mut place, &mut count);
    Answer {
        number,
        place: *place,
        count: *count,
    }
}

/// The cut call on copies that have exactly their lengths on the heap, and with junk where it
/// writes, for the same reason.
fn cut_on_heap(
    problem: &[u8],
    sides: &[u8],
    costs: &mut [u32],
    choices: &mut [u8],
    work: &mut [u32],
) -> Halves {
    let (problem, sides): (Box<[u8]>, Box<[u8]>) = (problem.into(), sides.into());
    let [mut place, mut count, mut first, mut second] = [0xa5a5_a5a5; 4].map(Box::new);
    let number = write_cut(
        &problem,
        &sides,
        costs,
        choices,
        work,
        CutNumbers {
            place: &mut place,
            count: &mut count,
            first: &mut first,
            second: &mut second,
        },
    );
    Halves::from_numbers(number, [*place, *count, *first, *second])
}

/// The bound call on copies that have exactly their lengths on the heap, and with junk where it
/// writes, for the same reason.
fn bound_on_heap(problem: &[u8], prefix: &[u8]) -> Least {
    let (problem, prefix): (Box<[u8]>, Box<[u8]>) = (problem.into(), prefix.into());
    let mut least = Box::new([0xa5a5_a5a5_a5a5_a5a5; MAX_OBJECTIVES]);
    let mut place = Box::new(0xa5a5_a5a5);
    let number = write_bound(&problem, &prefix, &mut least, &mut place);
    Least {
        number,
        place: *place,
        least: *least,
    }
}

/// The call for point records on a copy that has exactly its length on the heap, and with junk where
/// it writes its place and count, for the same reason.
fn points_on_heap(problem: &[u8], points: &mut [PointRecord], work: &mut [u32]) -> Answer {
    let problem: Box<[u8]> = problem.into();
    let (mut place, mut count) = (Box::new(0xa5a5_a5a5), Box::new(0xa5a5_a5a5));
    let number = write_points(&problem, points, work, &mut place, &mut count);
    Answer {
        number,
        place: *place,
        count: *count,
    }
}

/// A converting call on a copy that has exactly its length on the heap, and with junk where it writes its
/// place and count, for the same reason.
fn converted_on_heap(
    call: fn(&[u8], &mut [u8], &mut u32, &mut u32) -> u8,
    form: &[u8],
    made: &mut [u8],
) -> Answer {
    let form: Box<[u8]> = form.into();
    let (mut place, mut count) = (Box::new(0xa5a5_a5a5), Box::new(0xa5a5_a5a5));
    let number = call(&form, made, &mut place, &mut count);
    Answer {
        number,
        place: *place,
        count: *count,
    }
}

/// The canonical call on a copy that has exactly its length on the heap, and with junk where it writes its
/// numbers, for the same reason.
fn canonical_on_heap(problem: &[u8], form: &mut [u8]) -> Keyed {
    let problem: Box<[u8]> = problem.into();
    let (mut place, mut count) = (Box::new(0xa5a5_a5a5), Box::new(0xa5a5_a5a5));
    let mut key = Box::new(0xa5a5_a5a5_a5a5_a5a5);
    let number = write_canonical(&problem, form, &mut place, &mut count, &mut key);
    let answer = Answer {
        number,
        place: *place,
        count: *count,
    };
    Keyed { answer, key: *key }
}

/// The cached call on a copy that has exactly its length on the heap, and with junk where it writes its
/// numbers, for the same reason. The store is such a copy already.
fn cached_on_heap(
    problem: &[u8],
    costs: &mut [u32],
    choices: &mut [u8],
    work: &mut [u32],
    store: &mut [u8],
) -> CachedAnswer {
    let problem: Box<[u8]> = problem.into();
    let (mut place, mut count) = (Box::new(0xa5a5_a5a5), Box::new(0xa5a5_a5a5));
    let mut hit = Box::new(0xa5);
    let numbers = CachedNumbers {
        place: &mut place,
        count: &mut count,
        hit: &mut hit,
    };
    let number = write_cached(&problem, costs, choices, work, store, numbers);
    let answer = Answer {
        number,
        place: *place,
        count: *count,
    };
    CachedAnswer { answer, hit: *hit }
}

/// The batch call on a copy that has exactly its length on the heap, and with junk where it writes its place
/// and count, for the same reason.
fn batch_on_heap(
    batch: &[u8],
    costs: &mut [u32],
    choices: &mut [u8],
    results: &mut [u32],
    work: &mut [u32],
) -> Answer {
    let batch: Box<[u8]> = batch.into();
    let (mut place, mut count) = (Box::new(0xa5a5_a5a5), Box::new(0xa5a5_a5a5));
    let number = write_batch(
        &batch, costs, choices, results, work, &mut place, &mut count,
    );
    Answer {
        number,
        place: *place,
        count: *count,
    }
}

/// The number of cases that the arguments ask for, or what is wrong with them.
fn asked_cases(arguments: &[String]) -> Result<u64, String> {
    match arguments {
        [] => Ok(DEFAULT_CASES),
        [number] => match number.parse() {
            Ok(cases) if cases > 0 => Ok(cases),
            _ => Err(format!("'{number}' is no number of cases")),
        },
        _ => Err(format!("{} arguments instead of one", arguments.len())),
    }
}

/// Runs the cases from seed 0 on; the first difference ends the run.
fn run_cases(cases: u64) -> Result<(), String> {
    for seed in 0..cases {
        let case = Mixed::new(seed);
        case.compare_bounds(bound_on_heap)?;
        case.compare_solve(solve_on_heap)?;
        case.compare_cut(cut_on_heap)?;
        case.compare_points(points_on_heap)?;
        case.compare_texts(|problem, text| converted_on_heap(write_text, problem, text))?;
        case.compare_reads(|text, problem| converted_on_heap(read_text, text, problem))?;
        case.compare_canonical(canonical_on_heap)?;
        case.compare_cached(cached_on_heap)?;
        case.compare_batch(batch_on_heap)?;
        let done = seed + 1;
        if done % PROGRESS == 0 && done < cases {
            println!("{done} of {cases} cases done");
        }
    }
    println!("{cases} cases agree");
    Ok(())
}

fn main() -> ExitCode {
    let arguments: Vec<String> = env::args().skip(1).collect();
    let cases = match asked_cases(&arguments) {
        Ok(cases) => cases,
        Err(complaint) => {
            eprintln!("mixed_cases: {complaint}\n{USAGE}");
            return ExitCode::from(2);
        }
    };
    match run_cases(cases) {
        Ok(()) => ExitCode::SUCCESS,
        Err(difference) => {
            eprintln!("mixed_cases: {difference}");
            ExitCode::FAILURE
        }
    }
}
