//! What the cut call of the static library writes and what it leaves alone, for every way to end.

use chooser::junk::{junk, Rng};
use frontier::lent::{self, write_cut, Buffers, CutNumbers, Halves};
use frontier::limits::{LEAST_WORK, MAX_BYTES};
use frontier::refusal::{CUT_SHORT, FULL, SIDES, WORK};
use frontier::Refusal;
use testing::brute::solve_cut;
use testing::examples::{colours, pair, pair_with_constant, stairs_of};
use testing::fence::{assert_fences, fenced, inside};
use testing::mixed::compare_cut;

#[test]
fn empty_slices() {
    let number_of = |bytes: &[u8], sides: &[u8], work: &mut [u32]| {
        let halves = lent::solve_cut(bytes, sides, &mut [], &mut [], work);
        let refusal = Refusal::new(halves.answer.number, 0).expect("a refusal");
        assert_eq!(halves, refusal.into());
        refusal.number()
    };
    let bytes = pair([9, 9]).encode();
    let own: Box<[u8]> = Box::new([]);
    let mut work = vec![5; LEAST_WORK];
    for empty in [&[], &own[..], &bytes[..0]] {
        assert_eq!(number_of(empty, empty, &mut []), CUT_SHORT);
        assert_eq!(number_of(&bytes, empty, &mut []), WORK);
        assert_eq!(number_of(&bytes, empty, &mut work), SIDES);
    }
    assert_eq!(number_of(&bytes, &[0, 1], &mut work), FULL);
}

/// A problem's bytes, a side list and the buffers that are lent.
type Lent = (Vec<u8>, Vec<u8>, Buffers);

/// Every way to end: answered with and without points, refused with a place and without one, by the
/// problem, the work buffer, the side list, a linked record, a half and the room.
fn different_ends() -> Vec<Lent> {
    let good = pair([9, 9]).encode();
    let leftover = [&good[..], &[0]].concat();
    let mut rng = Rng::new(1);
    let mut lent = |bytes: &[u8], sides: &[u8], points: usize, work: usize| {
        let buffers = junk(&mut rng, 2 * points, sides.len() * points, work);
        (bytes.to_vec(), sides.to_vec(), buffers)
    };
    vec![
        lent(&good, &[0, 1], 3, LEAST_WORK),
        lent(&good, &[1, 0], 9, LEAST_WORK + 5),
        lent(&good, &[0, 0], 3, LEAST_WORK),
        lent(&good, &[0, 1], 2, LEAST_WORK),
        lent(&good, &[0, 1], 3, LEAST_WORK - 1),
        lent(&good, &[0, 2], 3, LEAST_WORK),
        lent(&good[..good.len() - 1], &[0, 1], 3, LEAST_WORK),
        lent(&leftover, &[0, 1], 3, LEAST_WORK),
        lent(&pair([0, 0]).encode(), &[0, 1], 3, LEAST_WORK),
        lent(&colours([100, 100]).encode(), &[0, 0, 1], 3, LEAST_WORK),
        lent(&[], &[], 0, 0),
        lent(&[0; MAX_BYTES + 1], &[0], 1, LEAST_WORK),
        lent(&stairs_of(64).encode(), &[0, 1, 0, 1], 70, LEAST_WORK),
        lent(&stairs_of(65).encode(), &[0, 0, 0, 1], 70, LEAST_WORK),
    ]
}

#[test]
fn different_ends_agree() {
    for (bytes, sides, lent) in different_ends() {
        let compared = compare_cut(&bytes, &sides, &lent, lent::solve_cut);
        assert_eq!(compared, Ok(()));
    }
}

/// The call as C has it, with junk where it writes place, count and half sizes.
fn cut_over_junk(bytes: &[u8], sides: &[u8], mut lent: Buffers, junk: u32) -> Halves {
    let [mut place, mut count, mut first, mut second] = [junk, !junk, junk ^ 5, !junk ^ 5];
    let number = write_cut(
        bytes,
        sides,
        &mut lent.costs,
        &mut lent.choices,
        &mut lent.work,
        CutNumbers {
            place: &mut place,
            count: &mut count,
            first: &mut first,
            second: &mut second,
        },
    );
    Halves::from_numbers(number, [place, count, first, second])
}

#[test]
fn junk_in_place_count_and_sizes_is_overwritten() {
    for (bytes, sides, lent) in different_ends() {
        let expected = lent.clone().lend_cut(solve_cut, &bytes, &sides);
        for junk in [0, 1, 0x8000_0000, u32::MAX] {
            let halves = cut_over_junk(&bytes, &sides, lent.clone(), junk);
            assert_eq!(halves, expected, "sides {sides:?}, junk {junk:#x}");
        }
    }
}

#[test]
fn nothing_beside_the_buffers_is_written() {
    const WORD: u32 = 0x0123_4567;
    const BYTE: u8 = 0xab;
    for (bytes, sides, lent) in different_ends() {
        let before = (bytes.clone(), sides.clone());
        let mut costs = fenced(&lent.costs, WORD);
        let mut choices = fenced(&lent.choices, BYTE);
        let mut work = fenced(&lent.work, WORD);
        let [mut place, mut count, mut first, mut second] = [[WORD; 3]; 4];
        write_cut(
            &bytes,
            &sides,
            inside(&mut costs),
            inside(&mut choices),
            inside(&mut work),
            CutNumbers {
                place: &mut place[1],
                count: &mut count[1],
                first: &mut first[1],
                second: &mut second[1],
            },
        );
        assert_fences(&costs, WORD);
        assert_fences(&choices, BYTE);
        assert_fences(&work, WORD);
        let beside = [place, count, first, second].map(|out| [out[0], out[2]]);
        assert_eq!(beside, [[WORD; 2]; 4]);
        assert_eq!((bytes, sides), before);
    }
}

/// The numbers of a problem stand at any address, since records have odd lengths, and so do the
/// sides and the choices.
#[test]
fn any_address_will_do() {
    let (bytes, sides) = (pair_with_constant([9, 9]).encode(), [0, 1]);
    let mut expected = Buffers::full();
    let halves = expected.lend_cut(solve_cut, &bytes, &sides);
    for shift in 0..8 {
        let shifted = |bytes: &[u8]| [&vec![0xff; shift][..], bytes].concat();
        let (bytes, sides) = (shifted(&bytes), shifted(&sides));
        let (bytes, sides) = (&bytes[shift..], &sides[shift..]);
        let mut lent = Buffers::full();
        lent.choices.resize(lent.choices.len() + shift, 0);
        let (costs, choices) = (&mut lent.costs, &mut lent.choices[shift..]);
        let answer = lent::solve_cut(bytes, sides, costs, choices, &mut lent.work);
        assert_eq!(answer, halves, "shift {shift}");
        assert_eq!(*choices, expected.choices, "shift {shift}");
        assert_eq!(*costs, expected.costs, "shift {shift}");
    }
}
