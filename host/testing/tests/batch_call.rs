//! The batch call of the static library against frames that are read here by the prose and plain calls in turn, element
//! by element: batches of every count, damaged frames, areas of every length that matters, and what is told first. And
//! readings of the rules that are wrong, each of which the comparison must find.

use std::collections::{BTreeMap, BTreeSet};
use std::ops::Range;
use std::thread;

use chooser::junk::{junk_areas, lengths_of, Rng};
use frontier::lent::{self, frame, write_batch, Answer, BatchBuffers};
use frontier::limits::{CHOICES_LEN, COSTS_LEN, FRAME_BYTES, LEAST_WORK};
use frontier::limits::{MAX_BATCH, MAX_BYTES, MAX_POINTS, RESULT_LEN};
use frontier::refusal::{BATCH, FULL, LEFTOVER, OVERSIZE, WORK};
use frontier::{Problem, Refusal};
use testing::batch::{compare_batch, exact_lengths, first_frame, frame_starts};
use testing::batch::{mixed_bytes, problems_in, put_length, Left};
use testing::batch::{CHOICES, COSTS, HEAD, MOST, RESULTS};
use testing::brute;
use testing::checker::misbatched::{
    each_misframing_batcher, each_misjudging_batcher, each_misplacing_batcher, Batcher,
};
use testing::examples::{brimful, colours, lone, objects, stairs_of, ten_problems, three, turned};
use testing::fence::{assert_fences, fenced, inside};
use testing::guarded::at_both_ends;
use testing::layouts::random_layout;
use testing::mixed::{compare_seeds, Mixed};
use testing::owned::{frontier_of, Listed};
use testing::stored::nightly;

/// The call with junk where it writes its place and count.
fn call(
    batch: &[u8],
    costs: &mut [u32],
    choices: &mut [u8],
    results: &mut [u32],
    work: &mut [u32],
) -> Answer {
    let (mut place, mut count) = (0xa5a5_a5a5, 0xa5a5_a5a5);
    let number = write_batch(batch, costs, choices, results, work, &mut place, &mut count);
    Answer {
        number,
        place,
        count,
    }
}

/// Problems as one batch.
fn framed<P: AsRef<[u8]>>(problems: &[P]) -> Vec<u8> {
    let problems: Vec<&[u8]> = problems.iter().map(AsRef::as_ref).collect();
    frame(&problems)
}

/// Asserts that the call does what plain calls of the library in turn do; what it answers and leaves.
fn checked(batch: &[u8], lent: &BatchBuffers) -> Left {
    let left = compare_batch(lent::solve_problem, batch, lent, call);
    left.unwrap_or_else(|difference| panic!("{difference}"))
}

/// Asserts that the call is refused so, and leaves all it was lent as it was.
fn assert_untouched(batch: &[u8], lent: &BatchBuffers, due: Refusal) {
    let left = checked(batch, lent);
    assert_eq!(left.answer, due.into(), "lengths {:?}", lengths_of(lent));
    assert!(left.lent == *lent, "after {due:?}");
}

/// The results of each problem: number, place, count.
fn results_of(left: &Left) -> Vec<[u32; 3]> {
    let results = left.lent.results.chunks_exact(RESULTS);
    let results = results.map(|three| [three[0], three[1], three[2]]);
    results.take(left.answer.count as usize).collect()
}

#[test]
fn names_are_the_numbers_of_the_reference() {
    assert_eq!((MAX_BATCH, FRAME_BYTES), (MOST, HEAD));
    let areas = (COSTS_LEN, CHOICES_LEN, RESULT_LEN);
    assert_eq!(areas, (COSTS, CHOICES, RESULTS));
}

/// Frames, areas and results, written down here by hand: One, no bytes, Three with a byte too few, and Turned.
#[test]
fn a_batch_and_its_areas_by_hand() {
    let batch = [
        &b"BP\x0d\0\0\0HD\x01\x01\0\0\x01\0\0\0DO\x01BP\0\0\0\0BP\x32\0\0\0"[..],
        b"HD\x01\x02\x02\0\x03\0\0\0\x03\0\0\0DO\x03CF\0\x01\0\0\0\0\0\x01\0\0\0\x02\0\0\0",
        b"CF\x01\x01\0\x02\0\0\0\x01\0\0\0\0\0\0BP\x50\0\0\0",
        b"HD\x02\x02\x02\0\x09\0\0\0\x09\0\0\0DO\x02DO\x03",
        b"CF\0\x02\x01\0\x04\0\0\0\x01\0\0\0\x03\0\0\0\x05\0\0\0\x02\0\0\0\0\0\0\0",
        b"CF\x01\x02\0\x01\0\0\0\0\x03\0\0\0\x01\0\0\0\x02\0\0\0\x06\0\0\0\x05\0\0\0",
    ]
    .concat();
    let lent = junk_areas(&mut Rng::new(20), [1_300, 7_000, 15, 8_200]);
    let mut due = lent.clone();
    due.costs[0] = 0;
    due.choices[0] = 0;
    due.costs[768..776].copy_from_slice(&[0, 5, 1, 2, 2, 1, 4, 0]);
    due.choices[4_608..4_616].copy_from_slice(&[1, 2, 1, 0, 0, 2, 0, 0]);
    due.results[..12].copy_from_slice(&[0, 0, 1, 2, 0, 0, 2, 34, 0, 0, 0, 4]);
    due.work.fill(0);
    let left = checked(&batch, &lent);
    assert_eq!(left.answer, Answer::accepted(4));
    assert!(left.lent == due, "{:?}", results_of(&left));
}

// ---- against single calls

/// How often each number was met in the results of batches of each count.
type Met = BTreeMap<usize, BTreeMap<u32, usize>>;

/// Batches of every count from 0 to 17 with these seeds: problems of every kind, right frames, all areas or more.
fn every_count(seeds: Range<u64>) -> Met {
    let mut met = Met::new();
    for seed in seeds {
        for count in 0..=MOST + 1 {
            let mut rng = Rng::new(seed << 8 | count as u64);
            let problems: Vec<Vec<u8>> = (0..count).map(|_| mixed_bytes(&mut rng)).collect();
            let mut lengths = exact_lengths(count + rng.below(3));
            lengths[3] += rng.pick(&[0, 0, 1, 300]);
            let left = checked(&framed(&problems), &junk_areas(&mut rng, lengths));
            let due = match count > MOST {
                true => Refusal::Batch.into(),
                false => Answer::accepted(count),
            };
            assert_eq!(left.answer, due);
            let met = met.entry(count).or_default();
            for [number, _, _] in results_of(&left) {
                *met.entry(number).or_default() += 1;
            }
        }
    }
    met
}

#[test]
fn batches_of_every_count() {
    let met = every_count(0..120);
    for count in 1..=MOST {
        let numbers = &met[&count];
        assert!(numbers[&0] > 40, "{count}: {numbers:?}");
        assert!(numbers.len() > 4, "{count}: {numbers:?}");
    }
    let all: BTreeSet<u32> = met.values().flat_map(BTreeMap::keys).copied().collect();
    assert_eq!(all, (0..=11).chain([u32::from(FULL)]).collect());
    assert!(met[&0].is_empty() && met[&17].is_empty());
}

/// The mixed cases with these seeds, whose problems the brute force solves; how often each number was met.
fn compare_mixed(seeds: Range<u64>) -> BTreeMap<u8, usize> {
    let mut met = BTreeMap::new();
    for case in seeds.map(Mixed::new) {
        let left = case.compare_batch(call);
        let left = left.unwrap_or_else(|difference| panic!("{difference}"));
        *met.entry(left.answer.number).or_default() += 1;
    }
    met
}

#[test]
fn mixed_cases_0_to_5_000() {
    let met = compare_mixed(0..5_000);
    assert_eq!(met.len(), 3, "{met:?}");
    assert!(met[&0] > 2_000 && met[&BATCH] > 800 && met[&WORK] > 300);
}

#[test]
fn mixed_cases_5_000_to_10_000() {
    assert_eq!(compare_mixed(5_000..10_000).len(), 3);
}

/// Each in its areas as if it were alone, wherever it stands and whatever stands beside it.
#[test]
fn a_problem_is_answered_alike_at_every_place() {
    for problem in ten_problems() {
        let bytes = problem.encode();
        let due: Vec<Listed> = frontier_of(&bytes).expect("an answer");
        for k in 0..MOST {
            let mut problems = vec![&b"HD"[..]; MOST];
            problems[k] = &bytes;
            let lent = junk_areas(&mut Rng::new(k as u64), exact_lengths(MOST));
            let left = checked(&framed(&problems), &lent);
            let listed = left.lent.listed(k, &bytes).expect("an answer");
            let listed: Vec<Listed> = listed.points().map(Listed::from).collect();
            assert_eq!(listed, due, "problem {k}");
            assert_eq!(left.lent.answer(k), Answer::accepted(due.len()));
        }
    }
}

/// The largest batch: sixteen times 60,000 bytes, and a byte more in one of them.
#[test]
fn sixteen_of_the_largest_problems() {
    let largest = brimful().encode();
    assert_eq!(largest.len(), MAX_BYTES);
    let mut problems = vec![largest.clone(); MOST];
    problems[11].push(0);
    let lent = junk_areas(&mut Rng::new(1), exact_lengths(MOST));
    let left = checked(&framed(&problems), &lent);
    assert_eq!(left.answer, Answer::accepted(MOST));
    let (one, over) = (left.lent.answer(0), left.lent.answer(11));
    assert_eq!((one.number, one.count > 0), (0, true));
    assert_eq!(over, Refusal::Oversize.into());
}

/// Problems of the night, sixteen at a time.
#[test]
fn problems_of_a_night() {
    let mut rng = Rng::new(3);
    let night = nightly();
    let smaller = night.iter().filter(|s| s.problem.variables() < 14);
    let smaller: Vec<_> = smaller.take(96).collect();
    for stored in smaller.chunks(MOST) {
        let layouts = stored.iter().map(|s| random_layout(&mut rng, &s.problem));
        let problems: Vec<Vec<u8>> = layouts.map(|layout| layout.encode()).collect();
        let lent = junk_areas(&mut Rng::new(4), exact_lengths(problems.len()));
        let left = checked(&framed(&problems), &lent);
        for (k, stored) in stored.iter().enumerate() {
            let (list, size) = stored.frontier();
            let due = match size > MAX_POINTS {
                true => Refusal::Full.into(),
                false => Answer::accepted(list.len()),
            };
            assert_eq!(left.lent.answer(k), due, "{}", stored.name);
        }
    }
}

/// What a batch does is what two batches do one after the other, the second on the areas behind those of the first.
#[test]
fn a_batch_is_two_batches_in_turn() {
    let mut rng = Rng::new(5);
    for _ in 0..200 {
        let problems: Vec<Vec<u8>> = (0..6).map(|_| mixed_bytes(&mut rng)).collect();
        let lent = junk_areas(&mut rng, exact_lengths(7));
        let whole = checked(&framed(&problems), &lent).lent;
        for k in 0..=6 {
            let mut parts = lent.clone();
            let first = parts.lend(call, &framed(&problems[..k]));
            let BatchBuffers {
                costs,
                choices,
                results,
                work,
            } = &mut parts;
            let (costs, choices) = (&mut costs[COSTS * k..], &mut choices[CHOICES * k..]);
            let results = &mut results[RESULTS * k..];
            let second = call(&framed(&problems[k..]), costs, choices, results, work);
            assert_eq!((first.count, second.count), (k as u32, 6 - k as u32));
            assert!(parts == whole, "in parts of {k} and {}", 6 - k);
        }
    }
}

/// The same problems in another order have their areas in that order.
#[test]
fn the_order_of_problems_is_that_of_the_areas() {
    let mut rng = Rng::new(6);
    for _ in 0..200 {
        let problems: Vec<Vec<u8>> = (0..5).map(|_| mixed_bytes(&mut rng)).collect();
        let mut order: Vec<usize> = (0..5).collect();
        rng.shuffle(&mut order);
        let lent = BatchBuffers::new(5);
        let straight = checked(&framed(&problems), &lent);
        let shuffled: Vec<&Vec<u8>> = order.iter().map(|&k| &problems[k]).collect();
        let turned = checked(&framed(&shuffled), &lent);
        for (at, &k) in order.iter().enumerate() {
            assert_eq!(areas(&turned.lent, at), areas(&straight.lent, k));
        }
        assert_eq!(turned.lent.work, straight.lent.work);
    }
}

/// The areas of problem `k`.
fn areas(lent: &BatchBuffers, k: usize) -> (&[u32], &[u8], &[u32]) {
    (
        &lent.costs[COSTS * k..][..COSTS],
        &lent.choices[CHOICES * k..][..CHOICES],
        &lent.results[RESULTS * k..][..RESULTS],
    )
}

// ---- frames

/// Three problems of different lengths, one of them empty: 13, 0 and 51 bytes.
fn three_problems() -> [Vec<u8>; 3] {
    [lone(1, 1).encode(), Vec::new(), three([3, 3]).encode()]
}

/// Asserts what is told of the frames of a few problems, which have areas with junk in them. Number 21 leaves all as it
/// was, and is told before a short work buffer.
fn assert_framing(batch: &[u8]) -> Answer {
    let lent = junk_areas(&mut Rng::new(batch.len() as u64), exact_lengths(4));
    let left = checked(batch, &lent);
    if left.answer.number == BATCH {
        assert_untouched(batch, &lent, Refusal::Batch);
        let mut short = lent;
        short.work.clear();
        assert_untouched(batch, &short, Refusal::Batch);
    }
    left.answer
}

/// Every value of every byte of every head. Right framing is left only where a longer length takes in whole frames.
#[test]
fn every_byte_of_every_head_changed() {
    let batch = framed(&three_problems());
    let starts = frame_starts(&batch);
    assert_eq!((&starts[..], batch.len()), (&[0, 19, 25][..], 82));
    let mut accepted = Vec::new();
    for place in starts.iter().flat_map(|&start| start..start + HEAD) {
        for value in (0..=u8::MAX).filter(|&value| value != batch[place]) {
            let mut changed = batch.clone();
            changed[place] = value;
            let answer = assert_framing(&changed);
            if answer.number == 0 {
                accepted.push((place, value, answer.count));
            }
        }
    }
    assert_eq!(accepted, [(2, 19, 2), (2, 76, 1), (21, 57, 2)]);
}

#[test]
fn every_truncation_and_a_byte_more() {
    let batch = framed(&three_problems());
    let whole: BTreeMap<usize, usize> = [(0, 0), (19, 1), (25, 2), (batch.len(), 3)].into();
    for end in 0..=batch.len() {
        let due = match whole.get(&end) {
            Some(&count) => Answer::accepted(count),
            None => Refusal::Batch.into(),
        };
        assert_eq!(assert_framing(&batch[..end]), due, "cut at {end}");
    }
    for more in [0, b'B', b'P', b'H', 255] {
        let longer = [&batch[..], &[more]].concat();
        assert_eq!(assert_framing(&longer), Refusal::Batch.into());
        assert_eq!(assert_framing(&[more]), Refusal::Batch.into());
    }
    // A head alone, whose problem is empty, and one that lacks a byte.
    let head = framed(&[b""]);
    let longer = [&batch[..], &head].concat();
    assert_eq!(assert_framing(&longer), Answer::accepted(4));
    assert_eq!(
        assert_framing(&longer[..longer.len() - 1]),
        Refusal::Batch.into()
    );
}

/// Every length in the head of the last frame around the bytes that follow it, and lengths whose sum with a place would
/// not fit 32 bits.
#[test]
fn a_length_is_compared_with_the_bytes_left() {
    for last in [0, 1, 38, 300, MAX_BYTES, MAX_BYTES + 1] {
        let problems = [lone(1, 1).encode(), vec![7; last]];
        let batch = framed(&problems);
        let start = batch.len() - HEAD - last;
        let ends = [1 << 31, (1 << 32) - 1, 1 << 16, 1 << 24, 256];
        let wraps = (0..40).map(|less| (1 << 32) - 1 - less);
        let near = (0..=last + 9).filter(|&length| length < 9 || length + 9 > last);
        let fixed = [MAX_BYTES - 1, MAX_BYTES, MAX_BYTES + 1, 65_535, 65_536];
        for length in near.chain(fixed).chain(ends).chain(wraps) {
            let mut changed = batch.clone();
            put_length(&mut changed, start, length);
            let due = match length == last {
                true => Answer::accepted(2),
                false => Refusal::Batch.into(),
            };
            assert_eq!(assert_framing(&changed), due, "{length} for {last}");
        }
    }
}

/// A length above 60,000 is right framing, and number 1 of that problem alone.
#[test]
fn a_problem_of_60_001_bytes_is_a_refusal_of_its_own() {
    let good = three([3, 3]).encode();
    let lent = junk_areas(&mut Rng::new(7), exact_lengths(3));
    for (length, due) in [
        (MAX_BYTES, 3),
        (MAX_BYTES + 1, OVERSIZE),
        (70_000, OVERSIZE),
    ] {
        let problems = [&good[..], &vec![0; length], &good];
        let left = checked(&framed(&problems), &lent);
        assert_eq!(left.answer, Answer::accepted(3));
        let due = [[0, 0, 3], [due.into(), 0, 0], [0, 0, 3]];
        assert_eq!(results_of(&left), due);
    }
}

/// Bytes inside of a problem are no frames, whatever they look like.
#[test]
fn a_batch_in_a_batch_is_a_problem_that_is_refused() {
    let inner = framed(&three_problems());
    let outer = framed(&[inner, three([3, 3]).encode()]);
    let lent = junk_areas(&mut Rng::new(8), exact_lengths(2));
    let left = checked(&outer, &lent);
    assert_eq!(results_of(&left), [[3, 0, 0], [0, 0, 3]]);
}

/// Heads one after the other, right ones and others that nearly are.
#[test]
fn strings_of_what_may_be_heads() {
    let mut rng = Rng::new(9);
    let (mut accepted, lent) = (0, junk_areas(&mut Rng::new(9), exact_lengths(3)));
    for _ in 0..20_000 {
        let mut bytes = Vec::new();
        for _ in 0..1 + rng.below(3) {
            let head = rng.pick(&[&b"BP"[..], b"BP", b"BP", b"PB", b"B"]);
            bytes.extend(head);
            bytes.extend(
                (0..rng.pick(&[4, 4, 4, 3, 5])).map(|_| rng.pick(b"\0\0\0\0\0\0\0\x01\x06")),
            );
        }
        let answer = checked(&bytes, &lent).answer;
        accepted += usize::from(answer.number == 0);
        assert_eq!(answer.number == BATCH, problems_in(&bytes).is_none());
    }
    assert!(accepted > 1_000, "{accepted}");
}

// ---- areas

/// Asserts what is told of a batch of so many problems with buffers of these lengths.
fn assert_areas(count: usize, lengths: [usize; 4]) {
    let batch = framed(&vec![lone(1, 1).encode(); count]);
    let lent = junk_areas(&mut Rng::new(10), lengths);
    let need = exact_lengths(count);
    let missing = (0..3).any(|i| lengths[i] < need[i]);
    match (missing, lengths[3] < LEAST_WORK) {
        (true, _) => assert_untouched(&batch, &lent, Refusal::Batch),
        (false, true) => assert_untouched(&batch, &lent, Refusal::Work),
        _ => assert_eq!(checked(&batch, &lent).answer, Answer::accepted(count)),
    }
}

/// One buffer after the other with every length around every border of areas, up to that of one area more than there
/// are problems.
#[test]
fn every_length_around_the_borders_of_areas() {
    for count in 0..=4 {
        for (buffer, area) in [COSTS, CHOICES, RESULTS].into_iter().enumerate() {
            let borders = (0..=count + 1).map(|k| k * area);
            let around = borders.flat_map(|border| border.saturating_sub(3)..border + 4);
            for length in around.collect::<BTreeSet<usize>>() {
                for work in [LEAST_WORK, LEAST_WORK - 1] {
                    let mut lengths = exact_lengths(count);
                    lengths[buffer] = length;
                    lengths[3] = work;
                    assert_areas(count, lengths);
                }
            }
        }
    }
}

/// All lengths of results, whose areas are short.
#[test]
fn every_length_of_results_for_every_count() {
    for count in 0..=MOST + 1 {
        for results in 0..=RESULTS * (MOST + 2) {
            let mut lengths = exact_lengths(MOST + 2);
            lengths[2] = results;
            let batch = framed(&vec![b""; count]);
            let lent = junk_areas(&mut Rng::new(11), lengths);
            match count > MOST || results < RESULTS * count {
                true => assert_untouched(&batch, &lent, Refusal::Batch),
                false => {
                    let left = checked(&batch, &lent);
                    assert_eq!(results_of(&left), vec![[2, 0, 0]; count]);
                }
            }
        }
    }
}

/// The need, one less and one more, for all three at once.
#[test]
fn all_lengths_one_less_the_need_and_one_more() {
    for count in [1, 2, 7, 15, 16] {
        let need = exact_lengths(count);
        for change in 0..27 {
            let mut lengths = need;
            for (i, length) in lengths.iter_mut().take(3).enumerate() {
                *length = *length + change / 3_usize.pow(i as u32) % 3 - 1;
            }
            assert_areas(count, lengths);
        }
        for buffer in 0..3 {
            let mut lengths = need;
            lengths[buffer] = 0;
            assert_areas(count, lengths);
        }
    }
}

/// Work memory around 8,192 numbers, and far more.
#[test]
fn work_buffers_around_8192_numbers() {
    for count in [0, 1, 3] {
        for work in [0, 1, LEAST_WORK - 1, LEAST_WORK, LEAST_WORK + 1, 70_000] {
            let mut lengths = exact_lengths(count);
            lengths[3] = work;
            assert_areas(count, lengths);
        }
    }
}

/// Nothing behind the last problem's areas is touched, however many areas more there are.
#[test]
fn behind_the_last_areas_nothing_changes() {
    let mut rng = Rng::new(12);
    for count in 0..=MOST {
        let problems: Vec<Vec<u8>> = (0..count).map(|_| mixed_bytes(&mut rng)).collect();
        let lent = junk_areas(&mut rng, exact_lengths(MOST + 4));
        let left = checked(&framed(&problems), &lent).lent;
        assert_eq!(left.costs[COSTS * count..], lent.costs[COSTS * count..]);
        let choices = CHOICES * count;
        assert_eq!(left.choices[choices..], lent.choices[choices..]);
        let results = RESULTS * count;
        assert_eq!(left.results[results..], lent.results[results..]);
    }
}

// ---- order of refusals

#[test]
fn the_whole_is_judged_before_its_problems() {
    let (good, bad) = (three([3, 3]).encode(), vec![0; 5]);
    for problems in [
        vec![],
        vec![&good],
        vec![&bad],
        vec![&bad, &good],
        vec![&good, &bad],
    ] {
        let batch = framed(&problems);
        let broken = [&batch[..], b"B"].concat();
        let many = framed(&[&good; MOST + 1]);
        let need = exact_lengths(problems.len());
        for work in [0, 1, LEAST_WORK - 1] {
            let short = junk_areas(&mut Rng::new(13), [need[0], need[1], need[2], work]);
            // 12 of the whole before 1 to 11 of a problem, and also without problems.
            assert_untouched(&batch, &short, Refusal::Work);
            // 21 before 12, for each of its reasons.
            assert_untouched(&broken, &short, Refusal::Batch);
            let roomy = junk_areas(&mut Rng::new(13), [99_999, 99_999, 99_999, work]);
            assert_untouched(&many, &roomy, Refusal::Batch);
            for buffer in (0..3).filter(|_| !problems.is_empty()) {
                let mut lengths = [need[0], need[1], need[2], work];
                lengths[buffer] -= 1;
                let lacking = junk_areas(&mut Rng::new(13), lengths);
                assert_untouched(&batch, &lacking, Refusal::Batch);
            }
        }
        // And wrong framing at the end before what is refused of the first problem.
        let lent = junk_areas(&mut Rng::new(13), exact_lengths(MOST));
        assert_untouched(&broken, &lent, Refusal::Batch);
    }
}

#[test]
fn an_empty_batch_changes_nothing() {
    for lengths in [exact_lengths(0), exact_lengths(2), [1, 0, 7, 9_000]] {
        let lent = junk_areas(&mut Rng::new(14), lengths);
        let left = checked(b"", &lent);
        assert_eq!(left.answer, Answer::accepted(0));
        assert!(left.lent == lent);
        let mut short = lent;
        short.work.truncate(LEAST_WORK - 1);
        assert_untouched(b"", &short, Refusal::Work);
    }
}

// ---- refused problems

/// A problem for each number of refusal of a problem, 1 to 11 and 15, with the place that is due.
fn refused_problems() -> Vec<(Vec<u8>, Refusal)> {
    let good = turned().encode();
    let with = |place: usize, value: u8| {
        let mut changed = good.clone();
        changed[place] = value;
        changed
    };
    let over = [&good[..], &[0]].concat();
    vec![
        (vec![7; MAX_BYTES + 1], Refusal::Oversize),
        (good[..79].to_vec(), Refusal::CutShort(50)),
        (with(50, b'D'), Refusal::StrayMark(50)),
        (with(2, 25), Refusal::Variables(0)),
        (with(3, 5), Refusal::Objectives(0)),
        (with(5, 9), Refusal::Tables(0)),
        (with(19, 9), Refusal::Domain(17)),
        (with(52, 2), Refusal::Owner(50)),
        (with(23, 4), Refusal::Arity(20)),
        (with(24, 0), Refusal::Scope(20)),
        (over, Refusal::Leftover(80)),
        (stairs_of(65).encode(), Refusal::Full),
    ]
}

/// The results of a problem that is refused so.
fn told(refusal: Refusal) -> [u32; 3] {
    [refusal.number().into(), refusal.place(), 0]
}

#[test]
fn a_refused_problem_is_told_at_every_place_and_the_others_are_answered() {
    let good = objects([13, 100, 100]).encode();
    let numbers: Vec<u8> = refused_problems().iter().map(|(_, r)| r.number()).collect();
    assert_eq!(
        numbers,
        (OVERSIZE..=LEFTOVER).chain([FULL]).collect::<Vec<u8>>()
    );
    for (bad, refusal) in refused_problems() {
        for k in 0..5 {
            let mut problems = vec![&good; 5];
            problems[k] = &bad;
            let lent = junk_areas(&mut Rng::new(15), exact_lengths(6));
            let left = checked(&framed(&problems), &lent);
            let mut due = [[0, 0, 3]; 5];
            due[k] = told(refusal);
            assert_eq!(results_of(&left), due);
            // Nothing stands in the areas of costs and choices of the refused one.
            let (costs, choices, _) = areas(&left.lent, k);
            let (costs_before, choices_before, _) = areas(&lent, k);
            assert_eq!((costs, choices), (costs_before, choices_before));
            assert_eq!(left.lent.listed(k, &bad), Err(refusal));
            assert!(left.lent.work.iter().all(|&number| number == 0));
        }
    }
}

/// Work memory is unchanged where no problem is searched, and else zero, also by 15 alone, wherever that one stands.
#[test]
fn work_memory_is_cleared_if_a_problem_is_searched() {
    let refused: Vec<_> = refused_problems();
    let (full, faulty) = refused.split_last().expect("problems");
    let bad: Vec<&Vec<u8>> = faulty.iter().map(|(bytes, _)| bytes).collect();
    let lent = junk_areas(&mut Rng::new(16), exact_lengths(12));
    let left = checked(&framed(&bad), &lent);
    let due: Vec<[u32; 3]> = faulty.iter().map(|&(_, refusal)| told(refusal)).collect();
    assert_eq!(results_of(&left), due);
    assert_eq!(left.lent.work, lent.work);
    assert_eq!(
        (left.lent.costs, left.lent.choices),
        (lent.costs.clone(), lent.choices.clone())
    );
    let empty = stairs_of(0).encode();
    for searched in [&full.0, &lone(1, 1).encode(), &empty] {
        for k in [0, 5, 11] {
            let mut problems = bad.clone();
            problems.insert(k, searched);
            let left = checked(&framed(&problems), &lent);
            assert_eq!(left.lent.work, vec![0; lent.work.len()]);
        }
    }
}

/// 64 points fill an area of costs with four objectives and one of choices with 24 variables.
#[test]
fn areas_have_room_for_64_points_of_any_problem() {
    let mut wide = stairs_of(64);
    wide.ceilings.extend([1, 1]);
    wide.domains.resize(24, 1);
    let mut long = wide.clone();
    long.ceilings[0] += 1;
    let problems = [&wide, &long, &wide].map(Problem::encode);
    let lent = junk_areas(&mut Rng::new(17), exact_lengths(3));
    let left = checked(&framed(&problems), &lent);
    assert_eq!(results_of(&left), [[0, 0, 64], [15, 0, 0], [0, 0, 64]]);
    let (first, last) = (areas(&left.lent, 0), areas(&left.lent, 2));
    assert_eq!((first.0, first.1), (last.0, last.1));
}

// ---- memory

#[test]
fn empty_slices() {
    let own: Box<[u8]> = Box::new([]);
    let some = framed(&[b"HD"]);
    for empty in [&[], &own[..], &some[..0]] {
        let answer = lent::solve_batch(empty, &mut [], &mut [], &mut [], &mut []);
        assert_eq!(answer, Refusal::Work.into());
        let mut work = vec![5; LEAST_WORK];
        let answer = lent::solve_batch(empty, &mut [], &mut [], &mut [], &mut work);
        assert_eq!(answer, Answer::accepted(0));
        assert_eq!(work, vec![5; LEAST_WORK]);
    }
    let answer = lent::solve_batch(&some, &mut [], &mut [], &mut [], &mut []);
    assert_eq!(answer, Refusal::Batch.into());
}

/// Batches and buffers for every way to end.
fn different_ends() -> Vec<(Vec<u8>, BatchBuffers)> {
    let good = three_problems();
    let mut rng = Rng::new(18);
    let mut lent = |count: usize| junk_areas(&mut rng, exact_lengths(count));
    let mut short = lent(3);
    short.work.pop();
    let mut ends = vec![
        (framed(&good), lent(3)),
        (framed(&good), lent(5)),
        (framed(&good), lent(2)),
        (framed(&good), short),
        (Vec::new(), lent(0)),
        (Vec::new(), lent(1)),
        (b"BP".to_vec(), lent(1)),
        (framed(&[&good[0]; MOST + 1]), lent(MOST + 1)),
    ];
    let refused = refused_problems();
    let refused: Vec<&Vec<u8>> = refused.iter().map(|(bytes, _)| bytes).collect();
    ends.push((framed(&refused), lent(12)));
    ends
}

#[test]
fn junk_in_place_and_count_is_overwritten() {
    for (batch, lent) in different_ends() {
        let expected = checked(&batch, &lent).answer;
        for junk in [0, 1, 0x8000_0000, u32::MAX] {
            let (mut lent, mut place, mut count) = (lent.clone(), junk, !junk);
            let (costs, choices) = (&mut lent.costs, &mut lent.choices);
            let (results, work) = (&mut lent.results, &mut lent.work);
            let number = write_batch(
                &batch, costs, choices, results, work, &mut place, &mut count,
            );
            let answer = Answer {
                number,
                place,
                count,
            };
            assert_eq!(answer, expected, "junk {junk:#x}");
        }
    }
}

/// What the buffers held before changes nothing of what is answered and written.
#[test]
fn other_junk_gives_the_same_answers() {
    for (batch, lent) in different_ends() {
        let expected = results_of(&checked(&batch, &lent));
        for byte in [0, 1, 0x55, 0xff] {
            let number = u32::from_le_bytes([byte; 4]);
            let mut filled = lent.clone();
            for numbers in [&mut filled.costs, &mut filled.results, &mut filled.work] {
                numbers.fill(number);
            }
            filled.choices.fill(byte);
            assert_eq!(results_of(&checked(&batch, &filled)), expected);
        }
    }
}

#[test]
fn nothing_beside_the_buffers_is_written() {
    const WORD: u32 = 0x0123_4567;
    const BYTE: u8 = 0xab;
    for (batch, lent) in different_ends() {
        let before = batch.clone();
        let mut costs = fenced(&lent.costs, WORD);
        let mut choices = fenced(&lent.choices, BYTE);
        let mut results = fenced(&lent.results, WORD);
        let mut work = fenced(&lent.work, WORD);
        let (mut places, mut counts) = ([WORD; 3], [WORD; 3]);
        write_batch(
            &batch,
            inside(&mut costs),
            inside(&mut choices),
            inside(&mut results),
            inside(&mut work),
            &mut places[1],
            &mut counts[1],
        );
        assert_fences(&costs, WORD);
        assert_fences(&choices, BYTE);
        assert_fences(&results, WORD);
        assert_fences(&work, WORD);
        assert_eq!([places[0], places[2], counts[0], counts[2]], [WORD; 4]);
        assert_eq!(batch, before);
    }
}

/// Every buffer between closed pages, against the upper one and against the lower.
#[test]
fn nothing_is_touched_beside_a_buffer() {
    at_both_ends(|guarded| {
        let call = |batch: &[u8],
                    costs: &mut [u32],
                    choices: &mut [u8],
                    results: &mut [u32],
                    work: &mut [u32]| {
            let mut guarded = guarded.borrow_mut();
            guarded.batch(batch, costs, choices, results, work)
        };
        compare_seeds(30_000..31_500, |case| case.compare_batch(call).map(|_| ()));
        for (batch, lent) in different_ends() {
            let compared = compare_batch(brute::solve_problem, &batch, &lent, call);
            assert_eq!(compared.map(|_| ()), Ok(()));
        }
        // Every truncation, so that the bytes of a frame that is cut short end at the page.
        let batch = framed(&three_problems());
        let lent = junk_areas(&mut Rng::new(19), exact_lengths(3));
        for end in 0..=batch.len() {
            let compared = compare_batch(brute::solve_problem, &batch[..end], &lent, call);
            assert_eq!(compared.map(|_| ()), Ok(()));
        }
    });
}

/// Frames stand at any address, since problems have odd lengths, and so do the choices.
#[test]
fn any_address_will_do() {
    let batch = framed(&[colours([100, 100]).encode(), three([3, 3]).encode()]);
    let expected = checked(&batch, &BatchBuffers::new(2)).lent;
    for shift in 0..8 {
        let shifted = [&vec![0xff; shift][..], &batch].concat();
        let mut lent = BatchBuffers::new(2);
        lent.choices.resize(lent.choices.len() + shift, 0);
        let (costs, choices) = (&mut lent.costs, &mut lent.choices[shift..]);
        let answer = call(
            &shifted[shift..],
            costs,
            choices,
            &mut lent.results,
            &mut lent.work,
        );
        assert_eq!(answer, Answer::accepted(2), "shift {shift}");
        assert_eq!(*choices, expected.choices, "shift {shift}");
        assert_eq!(lent.costs, expected.costs, "shift {shift}");
        assert_eq!(lent.results, expected.results, "shift {shift}");
    }
}

#[test]
fn calls_side_by_side_do_not_disturb_each_other() {
    let run = |first: u64| move || compare_mixed(first..first + 200);
    let threads = [0, 100, 200, 300].map(|first| thread::spawn(run(first)));
    for side in threads {
        side.join().expect("a difference is told above");
    }
}

// ---- from Rust

#[test]
fn problems_are_framed_and_their_answers_read_back() {
    let problems = three_problems();
    let batch = framed(&problems);
    assert_eq!(batch[..7], *b"BP\x0d\0\0\0H");
    assert_eq!(
        problems_in(&batch),
        Some(problems.iter().map(|p| &p[..]).collect())
    );
    assert_eq!(
        first_frame(&batch).map(|(problem, _)| problem),
        Some(&problems[0][..])
    );
    let mut lent = BatchBuffers::new(3);
    assert_eq!(lengths_of(&lent), exact_lengths(3));
    assert_eq!(lent.lend(lent::solve_batch, &batch), Answer::accepted(3));
    assert_eq!(lent.answer(1), Refusal::CutShort(0).into());
    assert_eq!(lent.listed(1, &problems[1]), Err(Refusal::CutShort(0)));
    let listed = lent.listed(2, &problems[2]).expect("an answer");
    assert_eq!(listed.costs(), [0, 2, 1, 1, 2, 0]);
    assert_eq!(listed.choices(), [0, 1, 2]);
    assert!(frame(&[]).is_empty());
}

// ---- wrong readings

/// How many mixed cases are enough to find a wrong reading.
const FEW: u64 = 1_000;

/// Asserts that the comparison finds that a call reads the rules otherwise.
fn assert_found(name: &str, call: Batcher) {
    let found = (0..FEW).any(|seed| Mixed::new(seed).compare_batch(call).is_err());
    assert!(found, "{name} is not found");
}

#[test]
fn wrong_refusals_of_the_whole_are_found() {
    each_misjudging_batcher(assert_found);
}

#[test]
fn wrong_readings_of_frames_are_found() {
    each_misframing_batcher(assert_found);
}

#[test]
fn wrong_readings_of_areas_are_found() {
    each_misplacing_batcher(assert_found);
}
