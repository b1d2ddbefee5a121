//! Batches as a Rust programmer makes them with the package `frontier`: each problem against the brute force, with any
//! room, between single calls, and too many.

use frontier::limits::{LEAST_WORK, MAX_BATCH, MAX_BYTES, MAX_POINTS};
use frontier::{Chooser, Frontier, Refusal};
use testing::examples::{stairs_of, ten_problems};
use testing::mixed::Mixed;
use testing::owned::{frontier_of, Listed};

/// The points of a frontier, or why there is none.
type Due = Result<Vec<Listed>, Refusal>;

fn owned(frontier: Frontier) -> Vec<Listed> {
    frontier.into_iter().map(Listed::from).collect()
}

/// What a chooser lists of a batch.
fn listed(chooser: &mut Chooser, problems: &[impl AsRef<[u8]>]) -> Result<Vec<Due>, Refusal> {
    let found = chooser.solve_batch(problems)?;
    Ok(found.into_iter().map(|found| found.map(owned)).collect())
}

/// Good and damaged problems that the brute force can go through, with what is due for each.
fn mixed_problems() -> Vec<(Vec<u8>, Due)> {
    let cases = (905_000..906_000).map(Mixed::new);
    let searched = cases.filter(|case| case.lent.work.len() >= LEAST_WORK);
    searched
        .map(|case| (case.bytes.clone(), frontier_of(&case.bytes)))
        .collect()
}

#[test]
fn one_chooser_answers_batches_of_every_size_and_single_problems_between() {
    let problems = mixed_problems();
    let (mut chooser, mut rest, mut size) = (Chooser::new(), &problems[..], 0);
    while rest.len() >= size {
        let (batch, left) = rest.split_at(size);
        let (bytes, due): (Vec<&[u8]>, Vec<Due>) = batch
            .iter()
            .map(|(bytes, due)| (&bytes[..], due.clone()))
            .unzip();
        assert_eq!(listed(&mut chooser, &bytes), Ok(due));
        if let Some((bytes, due)) = batch.first() {
            assert_eq!(chooser.solve(bytes).map(owned), *due);
        }
        (rest, size) = (left, (size + 1) % (MAX_BATCH + 1));
    }
    let refused = problems.iter().filter(|(_, due)| due.is_err()).count();
    assert!(refused > 100 && problems.len() - refused > 100);
}

#[test]
fn room_is_as_asked_for() {
    let problems = ten_problems().map(|problem| problem.encode());
    for room in (0..20).chain([MAX_POINTS, usize::MAX]) {
        let due = problems.iter().map(|bytes| {
            let frontier = frontier_of(bytes).expect("an answer");
            let fits = frontier.len() <= room;
            fits.then_some(frontier).ok_or(Refusal::Full)
        });
        let mut chooser = Chooser::with_room(room);
        assert_eq!(listed(&mut chooser, &problems), Ok(due.collect()));
    }
    let long = [stairs_of(64).encode(), stairs_of(65).encode()];
    let found = listed(&mut Chooser::new(), &long).expect("a batch");
    let points = found.iter().map(|found| found.as_ref().map(Vec::len));
    let due = [Ok(64), Err(&Refusal::Full)];
    assert_eq!(points.collect::<Vec<_>>(), due);
}

/// A problem that is too long has its own refusal, however long it is; too many problems are refused together.
#[test]
fn what_is_too_long_and_too_much() {
    let mut chooser = Chooser::new();
    let longest = vec![b'H'; MAX_BYTES];
    let longer = [&longest[..], b"H"].concat();
    let far_longer = longer.repeat(100);
    let due = vec![
        Err(Refusal::StrayMark(0)),
        Err(Refusal::Oversize),
        Err(Refusal::Oversize),
    ];
    let found = listed(&mut chooser, &[&longest, &longer, &far_longer]);
    assert_eq!(found, Ok(due));
    let problem = ten_problems()[0].encode();
    for count in [MAX_BATCH + 1, 100] {
        let found = listed(&mut chooser, &vec![&problem; count]);
        assert_eq!(found, Err(Refusal::Batch));
    }
    let due = frontier_of(&problem);
    let found = listed(&mut chooser, &[&problem; MAX_BATCH]);
    assert_eq!(found, Ok(vec![due; MAX_BATCH]));
}
