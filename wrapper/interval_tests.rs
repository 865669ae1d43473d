//! Intervals: ends of every result, wrong and different ends in every function, integrals, evaluations, mirrors, command 0x14.
use super::*;

const fn ends(lower: i32, upper: i32) -> Interval {
    Interval::new(lower, upper)
}

const WIDEST: Interval = ends(-LIMIT, LIMIT);
/// The integral of 1 is within its limits on each.
const GOOD: [Interval; 7] = [
    Interval::STANDARD,
    ends(0, 1),
    ends(LIMIT - 1, LIMIT),
    ends(-7, -2),
    ends(0, 10 * S),
    ends(-LIMIT, 0),
    ends(0, LIMIT),
];
const BAD: [Interval; 8] = [
    ends(0, 0),
    ends(S, S),
    ends(1, 0),
    ends(S, -S),
    ends(-LIMIT - 1, LIMIT),
    ends(-LIMIT, LIMIT + 1),
    ends(i32::MIN, i32::MAX),
    ends(i32::MAX, i32::MIN),
];

/// What each function of two models answers for f and g of value 1: the interval, or the refusal.
fn of_two(f: &Model, g: &Model) -> Result<Interval, Refusal> {
    let one = Candidate::constant(S);
    let proposal = [*one.numbers(), *one.numbers()].concat();
    let sum = f.add(g).map(|m| m.interval());
    let others = [
        f.subtract(g).map(|m| m.interval()),
        f.multiply(g, 0).map(|m| m.interval()),
        quotient(f, g, &one, &one).map(|found| found.model.interval()),
        quotient_of_two(f, g, &proposal, &[]).map(|found| found.model().interval()),
        make_quotient(f, g).map(|_| f.interval()),
    ];
    assert_eq!(others, [sum; 5]);
    sum
}

/// The same of the functions of one model.
fn of_one(f: &Model) -> Result<Interval, Refusal> {
    let (one, half) = (Candidate::constant(S), Candidate::constant(HALF));
    let integral = f.integrate().map(|m| m.interval());
    let others = [
        f.evaluate(f.interval().lower).map(|_| f.interval()),
        root(f, &one, &half).map(|found| found.model.interval()),
        tight_root(f, &one, &half).map(|found| found.model.interval()),
        make_reciprocal(f).map(|_| f.interval()),
    ];
    assert_eq!(others, [integral; 4]);
    integral
}

#[test]
fn ends_of_results() {
    let one = Model::constant(S);
    assert_eq!((one.interval(), Model::ZERO.interval()), (Interval::STANDARD, Interval::STANDARD));
    assert_eq!(one.numbers()[RADIUS..], [0, -S, S]);
    for interval in GOOD {
        let f = one.on(interval);
        assert_eq!((of_two(&f, &f), of_one(&f)), (Ok(interval), Ok(interval)));
        assert_eq!(f.on(Interval::STANDARD), one);
    }
    let made = Model::from_series(&series(1, &[(1, S)])).unwrap();
    assert_eq!(made.interval(), Interval::STANDARD);
}

/// `BadEnds` of each operand, behind `BadModel` of the same and before that of the next.
#[test]
fn bad_ends() {
    let (one, bad) = (Model::constant(S), Model::constant(LIMIT + 1));
    for interval in BAD {
        let f = one.on(interval);
        for (f, g) in [(&f, &one), (&one, &f), (&f, &f), (&f, &bad)] {
            assert_eq!(of_two(f, g), Err(Refusal::BadEnds));
        }
        assert_eq!(of_one(&f), Err(Refusal::BadEnds));
        assert_eq!(of_two(&bad, &f), Err(Refusal::BadModel));
        assert_eq!(of_two(&bad.on(interval), &one), Err(Refusal::BadModel));
        assert_eq!(of_one(&bad.on(interval)), Err(Refusal::BadModel));
    }
}

/// What a refused call leaves in a lent area is refused as an operand.
#[test]
fn areas_after_refusals() {
    let (most, mut out) = (Model::constant(LIMIT), [MARK; MODEL_SIZE]);
    assert_eq!(areas::add(&most.0, &most.0, &mut out), Err(Refusal::LargeResult));
    assert_eq!(out, [0; MODEL_SIZE]);
    assert_eq!(of_one(&Model::from_numbers(out)), Err(Refusal::BadEnds));
}

/// Behind `BadModel` of all models, before all else; the same extent elsewhere is another interval.
#[test]
fn different_intervals() {
    let (one, bad) = (Model::constant(S), Candidate::constant(LIMIT + 1));
    let (unit, zero) = (Candidate::constant(S), Candidate::constant(0));
    for other in [ends(-S, S + 1), ends(-S + 1, S), ends(0, 2 * S), WIDEST] {
        let g = one.on(other);
        let different = Err(Refusal::DifferentIntervals);
        assert_eq!((of_two(&one, &g), of_two(&g, &one)), (different, different));
        assert_eq!(one.multiply(&g, 33), Err(Refusal::DifferentIntervals));
        assert_eq!(quotient(&one, &g, &unit, &zero), Err(Refusal::DifferentIntervals));
        assert_eq!(quotient(&one, &g, &bad, &zero), Err(Refusal::BadModel));
        assert_eq!(quotient(&one, &g, &zero, &bad), Err(Refusal::BadModel));
        assert_eq!(make_quotient(&one, &Model::ZERO.on(other)), Err(Refusal::DifferentIntervals));
        assert_eq!(quotient_of_two(&one, &g, &[], &[]), Err(Refusal::ShortArea));
    }
    assert_eq!(quotient_of_two(&one, &one.on(ends(0, 0)), &[], &[]), Err(Refusal::ShortArea));
}

/// From the lower end: numerators times (u − l)/(4·S·k), the radius rounded up, and coefficients up to 2^36.
#[test]
fn integrals() {
    let on = |m: Model, lower, upper| m.on(ends(lower, upper));
    let constant = |e| model(&[S], e);
    assert_eq!(on(constant(0), 0, S).integrate(), Ok(on(model(&[HALF, HALF], 1), 0, S)));
    assert_eq!(on(constant(3), 0, S).integrate(), Ok(on(model(&[HALF, HALF], 4), 0, S)));
    // Half a unit goes to the even number.
    assert_eq!(on(constant(1), 0, 1).integrate(), Ok(on(model(&[0, 0], 2), 0, 1)));
    assert_eq!(on(constant(1), 0, 3).integrate(), Ok(on(model(&[2, 2], 2), 0, 3)));
    let curve = model(&[7, -S, 5 * S, 9], 2);
    assert_eq!(on(curve, -S, 3 * S).integrate().unwrap().radius(), 8 + 4);
    assert_eq!(curve.integrate().unwrap().radius(), 4 + 4);
    assert_eq!(Model::constant(LIMIT).on(WIDEST).integrate(), Err(Refusal::LargeResult));
    assert_eq!(model(&[0], LIMIT).on(WIDEST).integrate(), Err(Refusal::LargeResult));
}

/// Bounds of T_1, which has the value of the point where it is taken.
fn line_at(interval: Interval, p: i32) -> Result<(i64, i64), Refusal> {
    term(1, S).on(interval).evaluate(p).map(|bounds| (bounds.low, bounds.high))
}

/// Exact points, rounded ones, ties, and points outside.
#[test]
fn evaluations() {
    let three = ends(0, 3);
    let s = S as i64;
    assert_eq!((line_at(three, 0), line_at(three, 3)), (Ok((-s, -s)), Ok((s, s))));
    assert_eq!(line_at(three, 1), Ok((-349526, -349524)));
    assert_eq!(line_at(three, 2), Ok((349524, 349526)));
    for p in [-1, 4, -S, S, i32::MIN, i32::MAX] {
        assert_eq!(line_at(three, p), Err(Refusal::PointOutside));
    }
    // p/256 is rounded, a tie to the even number.
    for (p, low, high) in [(256, 1, 1), (128, -1, 1), (384, 1, 3), (-384, -3, -1), (129, 0, 2)] {
        assert_eq!(line_at(WIDEST, p), Ok((low, high)));
    }
    assert_eq!((line_at(WIDEST, -LIMIT), line_at(WIDEST, LIMIT)), (Ok((-s, -s)), Ok((s, s))));
    assert_eq!(line_at(WIDEST, LIMIT + 1), Err(Refusal::PointOutside));
    // A constant has the same value wherever the point is taken.
    let constant = model(&[S], 2).on(three).evaluate(1);
    assert_eq!(constant, Ok(Bounds { low: s - 2, high: s + 2 }));
}

/// l + u − p for p and the odd coefficients negated: the same bounds.
#[test]
fn mirrored_points() {
    let curve = model(&[S, -S, 7, LIMIT / 2, 1, 9 * S], 3);
    for (lower, upper) in [(0, 3), (-7, 1000), (-LIMIT, LIMIT), (LIMIT - 5, LIMIT), (-S, 3 * S)] {
        let m = curve.on(ends(lower, upper));
        for p in [lower, lower + 1, lower + (upper - lower) / 3, upper - 1, upper] {
            assert!(m.evaluate(p).is_ok());
            assert_eq!(mirrored(&m).evaluate(lower + upper - p), m.evaluate(p));
        }
    }
}

// ---- Jobs ----

fn load_on(c: i32, radius: u32, interval: Interval) -> Vec<u8> {
    let Interval { lower, upper } = interval;
    let last = [radius.to_le_bytes(), lower.to_le_bytes(), upper.to_le_bytes()].concat();
    [&[0x14], &block(0, &[c])[..], &last].concat()
}

/// Results on different intervals side by side; only the operands of a command must agree.
#[test]
fn jobs_on_intervals() {
    let (early, late) = (ends(-7, -2), ends(-2, S));
    let loads = [load_on(4 * S, 5, early), load_on(S, 0, late), load(S, 0)].concat();
    let root = root_of(0, 2 * S, S / 4);
    let checked = check(&job(&[&loads, &root, &[0x11, 0, 3], &[0x13, 1, 1, 0]])).unwrap();
    let found: Vec<Interval> = checked.results().map(|result| result.interval()).collect();
    assert_eq!(found, [early, late, Interval::STANDARD, early, early, late]);
    assert_eq!(checked.result(0), Some(model(&[4 * S], 5).on(early)));
    assert_eq!(checked.result(2), Some(Model::constant(S)));
    for names in [[0x11, 0, 1], [0x12, 2, 0]] {
        assert_eq!(refused(&job(&[&loads, &names])), (19, 4));
    }
    assert_eq!(refused(&job(&[&loads, &[0x13, 1, 2, 255]])), (19, 4));
    assert_eq!(refused(&job(&[&loads, &[0x13, 1, 2, 33]])), (9, 4));
    let quotient_of = |h: i32| [&[0x20, 0, 2], &block(0, &[h])[..], &block(0, &[0])].concat();
    assert_eq!(refused(&job(&[&loads, &quotient_of(S)])), (19, 4));
    assert_eq!(refused(&job(&[&loads, &quotient_of(LIMIT + 1)])), (2, 4));
}

/// 18 and 2 at the load, and 10 inside its ends.
#[test]
fn refusals_of_loads() {
    for interval in GOOD.into_iter().chain([WIDEST]) {
        let checked = check(&job(&[&load_on(S, 1, interval)])).unwrap();
        assert_eq!(checked.result(0), Some(model(&[S], 1).on(interval)));
    }
    for interval in BAD {
        assert_eq!(refused(&job(&[&load_on(S, 1, interval)])), (18, 1));
        assert_eq!(refused(&job(&[&load_on(LIMIT + 1, 1, interval)])), (2, 1));
        assert_eq!(refused(&job(&[&load_on(S, u32::MAX, interval)])), (2, 1));
    }
    let whole = job(&[&load_on(S, 1, WIDEST)]);
    for length in [whole.len() - 2, whole.len() - 9, whole.len() - 10] {
        assert_eq!(refused(&whole[..length]), (10, 1));
    }
    assert_eq!(refused(&whole[..whole.len() - 1]), (10, 2));
}

#[test]
fn texts_of_refusals() {
    let said = |refusal: Refusal| format!("{refusal}");
    assert_eq!(said(Refusal::BadEnds), "refused 18: wrong ends of a model");
    assert_eq!(said(Refusal::DifferentIntervals), "refused 19: operands on different intervals");
    assert_eq!(said(Refusal::PointOutside), "refused 4: point outside the interval");
}
