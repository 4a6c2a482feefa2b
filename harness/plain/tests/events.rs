//! The event maker by itself, and the root.

mod common;
use common::{floats, numbers, text};

type Samples = [[f64; 3]];
type Points = [(f64, u32)];

fn item(length: f64, samples: &Samples, points: &Points, places: u32) -> Vec<u8> {
    let mut out = Vec::new();
    floats(&mut out, &[length]);
    numbers(&mut out, &[samples.len() as u32]);
    samples.iter().for_each(|s| floats(&mut out, s));
    numbers(&mut out, &[points.len() as u32]);
    for &(offset, link) in points {
        floats(&mut out, &[offset]);
        numbers(&mut out, &[link]);
    }
    numbers(&mut out, &[places]);
    out
}

fn answer(length: f64, samples: &Samples, points: &Points, places: u32) -> String {
    text(plain::events(&item(length, samples, points, places)))
}

const WORKED: [[f64; 3]; 3] = [[0.0, 10.0, 0.0], [4.0, 18.0, 4.0], [8.0, 34.0, 4.0]];
const PATH: [(f64, u32); 3] = [(0.0, 1), (12.0, 2), (112.0, 0)];

#[test]
fn leg_2_of_the_worked_book() {
    assert_eq!(answer(10.0, &WORKED, &PATH, 2), "events 2\nA 2 4 4028 4\nC 2 4014 4036 401\n");
    assert_eq!(answer(10.0, &WORKED, &PATH, 1), "refused 12\n");
}

/// "back + length = front (Arrive)": back point 10 and length 10, front point 20.
#[test]
fn back_and_length_on_the_front_is_an_arrive() {
    let points = [(0.0, 1), (10.0, 2), (20.0, 3), (100.0, 0)];
    let expected = "events 2\nA 3 4014 4034 4\nC 2 4014 4034 4\n";
    assert_eq!(answer(10.0, &[[0.0, 10.0, 2.0], [5.0, 20.0, 2.0]], &points, 9), expected);
}

/// "back index becoming 1 (nothing emitted)": the tail passes point 0 at offset 10;
/// no speed and no time are worked out there, though they would be no numbers.
#[test]
fn back_index_1_emits_nothing() {
    let samples = [[0.0, 5.0, 0.0], [5.0, 10.0, 0.0]];
    assert_eq!(answer(10.0, &samples, &[(0.0, 1), (50.0, 0)], 0), "events 0\n");
    assert_eq!(answer(10.0, &samples, &[(0.0, 1), (8.0, 2), (50.0, 0)], 9), "refused 11\n");
}

/// Document 02, Ask 1: "An event whose d and v + speed are both zero is to take the
/// sample's own time." The front stands on point 12, reached at speed 2 and at speed 0.
#[test]
fn the_front_stands_on_a_point() {
    for speed in [2.0, 0.0] {
        let samples = [[0.0, 10.0, speed], [2.0, 12.0, 0.0]];
        assert_eq!(answer(10.0, &samples, &PATH, 1), "events 1\nA 2 4 4028 0\n");
        assert_eq!(answer(10.0, &samples, &PATH, 0), "refused 12\n");
    }
}

/// The back stands on point 12, the front on 22. The Arrive before it is the worked book's.
#[test]
fn the_back_stands_on_a_point() {
    let samples = [WORKED[0], WORKED[1], [6.0, 22.0, 0.0]];
    assert_eq!(answer(10.0, &samples, &PATH, 9), "events 2\nA 2 4 4028 4\nC 2 4018 4036 0\n");
}

/// Back point 10 and length 10, front point 20: the Arrive first, both at 10 s.
#[test]
fn front_and_back_stand_on_points() {
    let points = [(0.0, 1), (10.0, 2), (20.0, 3), (100.0, 0)];
    let expected = "events 2\nA 3 4024 4034 0\nC 2 4024 4034 0\n";
    assert_eq!(answer(10.0, &[[0.0, 10.0, 2.0], [10.0, 20.0, 0.0]], &points, 9), expected);
}

/// On point 12 from 2 s to 62 s, with the back on it at 70 s: of the standing samples the
/// first counts. As the leg's first sample one gives nothing.
#[test]
fn standing_twice() {
    let samples = [[0.0, 10.0, 2.0], [2.0, 12.0, 0.0], [62.0, 12.0, 0.0], [70.0, 22.0, 0.0], [71.0, 22.0, 0.0]];
    assert_eq!(answer(10.0, &samples, &PATH, 9), "events 2\nA 2 4 4028 0\nC 2 40518 4036 0\n");
    assert_eq!(answer(10.0, &samples[1..], &PATH, 9), "events 1\nC 2 40518 4036 0\n");
    assert_eq!(answer(10.0, &samples[3..], &PATH, 9), "events 0\n");
}

/// v·v is 0 and v isn't: v + speed is v, and the quotient is 0.
#[test]
fn a_speed_whose_square_is_zero() {
    for small in [1e-200, f64::from_bits(1)] {
        for before in [2.0, small, 0.0] {
            let samples = [[0.0, 10.0, before], [2.0, 12.0, small]];
            assert_eq!(answer(10.0, &samples, &PATH, 9), "events 1\nA 2 4 4028 0\n");
        }
    }
}

/// (v − v′)/(t − t′) overflows, and the speed is no number. With a smaller v′ it doesn't.
#[test]
fn a_stop_in_no_time() {
    let least = f64::from_bits(1);
    assert_eq!(answer(10.0, &[[0.0, 10.0, 2.0], [least, 12.0, 0.0]], &PATH, 9), "refused 11\n");
    let slower = [[0.0, 10.0, 1e-20], [least, 12.0, 0.0]];
    assert_eq!(answer(10.0, &slower, &PATH, 9), "events 1\nA 2 0000000000000001 4028 0\n");
}

/// v = v′ = 0 with d above 0. A unit in the last place before the point there is no event.
#[test]
fn standing_behind_a_point() {
    let at = |offset: f64, speed| answer(10.0, &[[0.0, 10.0, speed], [2.0, offset, 0.0]], &PATH, 9);
    assert_eq!(at(14.0, 0.0), "refused 11\n");
    assert_eq!(at(12f64.next_up(), 0.0), "refused 11\n");
    // d = 2^-48, speed = root(1 · d) = 2^-24, time = 2 - d/speed = 2 - 2^-24.
    assert_eq!(at(12f64.next_up(), 2.0), "events 1\nA 2 3ffffffff 4028 3e7\n");
    assert_eq!(at(12f64.next_down(), 0.0), "events 0\n");
    assert_eq!(at(12f64.next_down(), 2.0), "events 0\n");
}

#[test]
fn refusals() {
    assert_eq!(answer(10.0, &[], &PATH, 9), "refused 3\n");
    assert_eq!(answer(10.0, &WORKED, &[], 9), "refused 3\n");
    assert_eq!(answer(-0.0, &WORKED, &PATH, 9), "refused 4\n");
    assert_eq!(answer(10.0, &WORKED, &[(0.0, 1), (12.0, 2), (11.0, 0)], 9), "refused 7\n");
    assert_eq!(answer(10.0, &[WORKED[1], WORKED[1]], &PATH, 9), "refused 7\n");
    assert_eq!(answer(10.0, &[[0.0, 112.0, 0.0]], &PATH, 9), "refused 11\n");
    assert_eq!(answer(10.0, &[[0.0, 112.0, 0.0]], &PATH[..2], 9), "refused 11\n");
}

#[test]
fn roots() {
    let bits = |x: f64| x.to_bits();
    assert_eq!(plain::root(bits(0.0)), 0);
    assert_eq!(plain::root(bits(-0.0)), bits(-0.0));
    assert_eq!(plain::root(bits(4.0)), bits(2.0));
    assert_eq!(plain::root(bits(2.0)), 0x3ff6_a09e_667f_3bcd);
    assert_eq!(plain::root(bits(f64::INFINITY)), bits(f64::INFINITY));
    for none in [-1.0, f64::NEG_INFINITY, f64::NAN, -f64::NAN] {
        assert_eq!(plain::root(bits(none)), 0x7ff8_0000_0000_0000);
    }
}

/// The machine's own root rounds correctly too: both agree, below normal numbers and
/// beside powers of two as well.
#[test]
fn roots_against_the_machine() {
    let mut state = 1u64;
    let same = |bits: u64| {
        let x = f64::from_bits(bits & !(1 << 63));
        if x.is_finite() {
            assert_eq!(plain::root(x.to_bits()), x.sqrt().to_bits(), "{x:e}");
        }
    };
    for _ in 0..1_000_000 {
        state = state.wrapping_mul(6364136223846793005).wrapping_add(1442695040888963407);
        let bits = state ^ state >> 29;
        same(bits);
        same(bits >> (12 + bits % 52));
    }
    for exponent in 0..2047u64 {
        for near in 0..64 {
            same((exponent << 52) + near);
            same((exponent << 52).wrapping_sub(near));
        }
    }
}
