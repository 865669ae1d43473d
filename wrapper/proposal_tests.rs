//! Proposals made on the mill: the exact case, both outcomes, the ordinary test of what is made, every refusal, every length.
use super::*;
use std::vec;
use std::vec::Vec;

/// S, and c times T_k.
fn one_and(k: usize, c: i32) -> Model {
    let mut coefficients = [0; COEFFICIENTS];
    coefficients[0] = S;
    coefficients[k] = c;
    Model::new(k as i32, coefficients, 0)
}

/// The bits of a list: -0.0 is not +0.0.
fn bits(list: &[f64]) -> Vec<u64> {
    list.iter().map(|x| x.to_bits()).collect()
}

/// Powers of two from 2^12 to 2^28: settled with +0.0, and nothing is rounded.
#[test]
fn exact_reciprocals() {
    for j in 12..=28 {
        for sign in [1, -1] {
            let made = make_reciprocal(&Model::constant(sign << j)).unwrap();
            let mut expected = [0.0; COEFFICIENTS];
            expected[0] = sign as f64 * f64::powi(2.0, 20 - j);
            assert_eq!(bits(&made.record.coefficients), bits(&expected));
            assert_eq!(made.record.change.to_bits(), 0);
            assert_eq!(made.outcome, Outcome::Settled(0.0));
            let mut units = [0; COEFFICIENTS];
            units[0] = sign << (40 - j);
            assert_eq!(made.w, Candidate::new(32, units));
        }
    }
}

/// A change of exactly 2^-24 settles; the change is the last round's.
#[test]
fn changes() {
    let change = |c| make_reciprocal(&model(&[1 << 22, c], 0)).unwrap().outcome;
    assert_eq!(change(1), Outcome::Settled(f64::powi(2.0, -24)));
    assert_eq!(change(2), Outcome::Settled(f64::powi(2.0, -45)));
}

/// What is made for a divisor away from zero passes its test, with a small radius; values and units agree.
#[test]
fn made_and_tested() {
    for (f, g) in [
        (model(&[3 * S, -S], 0), model(&[2 * S, S], 0)),
        (model(&[S, 5, 7 * S], 3), model(&[-4 * S, S, S / 2, -S / 3], 1)),
        (term(5, S), one_and(3, S / 3)),
    ] {
        let made = make_quotient(&f, &g).unwrap();
        assert!(matches!(made.outcome, Outcome::Settled(_)));
        assert!(made.outcome.change() <= f64::powi(2.0, -24));
        assert_eq!(made.outcome.change(), made.record.reciprocal.change);
        assert_eq!(to_units(&made.record.coefficients), Ok(made.h));
        assert_eq!(to_units(&made.record.reciprocal.coefficients), Ok(made.w));
        let alone = make_reciprocal(&g).unwrap();
        assert_eq!(
            (alone.record, alone.outcome, alone.w),
            (made.record.reciprocal, made.outcome, made.w)
        );
        let tested = quotient(&f, &g, &made.h, &made.w).unwrap();
        assert!(tested.model.radius() < 400, "radius {}", tested.model.radius());
    }
}

/// Given up, with lists that pass the test; settled, with lists that fail it, since 1 + T_31 vanishes at -1.
#[test]
fn outcomes_vouch_for_nothing() {
    let one = Model::constant(S);
    let slow = one_and(1, 15 * S / 16);
    let made = make_reciprocal(&slow).unwrap();
    assert!(matches!(made.outcome, Outcome::GivenUp(change) if change > f64::powi(2.0, -24)));
    assert!(quotient(&one, &slow, &made.w, &made.w).is_ok());
    let vanishing = one_and(31, S);
    let made = make_reciprocal(&vanishing).unwrap();
    assert_eq!(made.outcome, Outcome::Settled(f64::powi(2.0, -31)));
    assert_eq!(quotient(&one, &vanishing, &made.w, &made.w), Err(Refusal::NotContracting));
}

#[test]
fn refusals_of_makers() {
    let (one, most) = (Model::constant(S), Model::constant(LIMIT));
    let (bad, wide) = (Model::constant(LIMIT + 1), model(&[S], LIMIT + 1));
    let diverging = one_and(1, 1248179);
    for g in [bad, wide] {
        assert_eq!(make_reciprocal(&g), Err(Refusal::BadModel));
        assert_eq!(make_quotient(&one, &g), Err(Refusal::BadModel));
        assert_eq!(make_quotient(&g, &Model::ZERO), Err(Refusal::BadModel));
    }
    for g in [Model::ZERO, term(7, S), model(&[1, S], 0)] {
        assert_eq!(make_reciprocal(&g), Err(Refusal::NotFinite));
        assert_eq!(make_quotient(&one, &g), Err(Refusal::NotFinite));
    }
    for g in [Model::constant(4095), diverging] {
        assert_eq!(make_reciprocal(&g), Err(Refusal::LargeProposal));
        assert_eq!(make_quotient(&one, &g), Err(Refusal::LargeProposal));
    }
    // f·w is not finite, which comes before the weight of w; each list has its own weight.
    assert_eq!(make_quotient(&most, &diverging), Err(Refusal::NotFinite));
    assert_eq!(make_quotient(&most, &Model::constant(S / 2)), Err(Refusal::LargeProposal));
    assert!(make_quotient(&model(&[S, 5], 0), &Model::constant(1 << 13)).is_ok());
}

#[test]
fn values_in_units() {
    let unit = 1.0 / S as f64;
    let of = |value: f64| {
        let mut values = [0.0; VALUES_SIZE];
        values[32] = value;
        to_units(&values).map(|made| (made.degree(), made.coefficients()[32]))
    };
    for (n, whole) in [(0.5, 0), (1.5, 2), (2.5, 2), (3.5, 4), (2.25, 2), (2.75, 3)] {
        assert_eq!(of(n * unit), Ok((32, whole)));
        assert_eq!(of(-n * unit), Ok((32, -whole)));
    }
    assert_eq!(of(-0.0), Ok((32, 0)));
    assert_eq!(of(f64::MIN_POSITIVE / 2.0), Ok((32, 0)));
    for limit in [256.0, -256.0, 256.0 + unit / 2.0] {
        assert_eq!(of(limit).unwrap().1.abs(), LIMIT);
    }
    for large in [256.0 + unit, -256.0 - unit, 512.0, f64::MAX, f64::MIN] {
        assert_eq!(of(large), Err(Refusal::LargeProposal));
    }
    for value in
        [f64::INFINITY, f64::NEG_INFINITY, f64::NAN, -f64::NAN, f64::from_bits(0x7ff0000000000001)]
    {
        assert_eq!(of(value), Err(Refusal::NotFinite));
        let mut values = [f64::MAX; VALUES_SIZE];
        values[5] = value;
        assert_eq!(to_units(&values), Err(Refusal::NotFinite));
    }
}

// ---- Areas ----

const REAL: f64 = -77.5;

/// A call of the maker of quotients over f, g, record, h, w and outcome of these lengths.
fn call_quotient(f: &Model, g: &Model, lengths: [usize; 6], otherwise: Result<(), Refusal>) {
    let [f_len, g_len, record_len, h_len, w_len, outcome_len] = lengths;
    let (mut record, mut outcome) = (vec![REAL; record_len], vec![9u32; outcome_len]);
    let (mut h, mut w) = (vec![MARK; h_len], vec![MARK; w_len]);
    let found = areas::make_quotient(
        &held(f, f_len),
        &held(g, g_len),
        &mut record,
        &mut h,
        &mut w,
        &mut outcome,
    );
    let short = lengths.iter().zip(QUOTIENT_SIZES).any(|(length, size)| *length < size);
    let expected = if short { Err(Refusal::ShortArea) } else { otherwise };
    assert_eq!(found, expected, "lengths {lengths:?}");
    if expected.is_err() {
        assert_eq!(
            bits(&record),
            bits(&zeroed(REAL, record_len, QUOTIENT_RECORD_SIZE)),
            "lengths {lengths:?}"
        );
        assert_eq!(h, zeroed(MARK, h_len, CANDIDATE_SIZE), "lengths {lengths:?}");
        assert_eq!(w, zeroed(MARK, w_len, CANDIDATE_SIZE), "lengths {lengths:?}");
        assert_eq!(outcome, zeroed(9, outcome_len, OUTCOME_SIZE), "lengths {lengths:?}");
    } else {
        assert_eq!((record[0], h[0], w[0], outcome[0]), (0.25, 32, 32, 1));
        assert!(record[QUOTIENT_RECORD_SIZE..].iter().all(|x| *x == REAL));
        assert!(h[CANDIDATE_SIZE..].iter().chain(&w[CANDIDATE_SIZE..]).all(|x| *x == MARK));
        assert!(outcome[OUTCOME_SIZE..].iter().all(|x| *x == 9));
    }
}

const QUOTIENT_SIZES: [usize; 6] =
    [MODEL_SIZE, MODEL_SIZE, QUOTIENT_RECORD_SIZE, CANDIDATE_SIZE, CANDIDATE_SIZE, OUTCOME_SIZE];

#[test]
fn areas_of_quotients() {
    let (one, four) = (Model::constant(S), Model::constant(4 * S));
    for (g, otherwise) in [(four, Ok(())), (Model::ZERO, Err(Refusal::NotFinite))] {
        for i in 0..6 {
            for j in 0..6 {
                for first in lengths(QUOTIENT_SIZES[i]) {
                    for second in lengths(QUOTIENT_SIZES[j]) {
                        let mut told = QUOTIENT_SIZES;
                        told[i] = first;
                        told[j] = second;
                        call_quotient(&one, &g, told, otherwise);
                    }
                }
            }
        }
    }
}

#[test]
fn areas_of_reciprocals_and_units() {
    let (good, bad) = (Model::constant(2 * S), Model::constant(1));
    for g_len in lengths(MODEL_SIZE) {
        for record_len in lengths(RECIPROCAL_RECORD_SIZE) {
            for w_len in lengths(CANDIDATE_SIZE) {
                for outcome_len in lengths(OUTCOME_SIZE) {
                    let short = g_len < MODEL_SIZE
                        || record_len < RECIPROCAL_RECORD_SIZE
                        || w_len < CANDIDATE_SIZE
                        || outcome_len < OUTCOME_SIZE;
                    for (g, otherwise) in [(good, Ok(())), (bad, Err(Refusal::LargeProposal))] {
                        let expected = if short { Err(Refusal::ShortArea) } else { otherwise };
                        let (mut record, mut w) = (vec![REAL; record_len], vec![MARK; w_len]);
                        let mut outcome = vec![9u32; outcome_len];
                        let found = areas::make_reciprocal(
                            &held(&g, g_len),
                            &mut record,
                            &mut w,
                            &mut outcome,
                        );
                        assert_eq!(found, expected);
                        if expected.is_err() {
                            assert_eq!(
                                bits(&record),
                                bits(&zeroed(REAL, record_len, RECIPROCAL_RECORD_SIZE))
                            );
                            assert_eq!(w, zeroed(MARK, w_len, CANDIDATE_SIZE));
                            assert_eq!(outcome, zeroed(9, outcome_len, OUTCOME_SIZE));
                        } else {
                            assert_eq!((record[0], w[0], w[1], outcome[0]), (0.5, 32, HALF, 1));
                        }
                    }
                }
            }
        }
    }
    for values_len in lengths(VALUES_SIZE) {
        for units_len in lengths(CANDIDATE_SIZE) {
            let mut units = vec![MARK; units_len];
            let found = areas::to_units(&vec![f64::NAN; values_len], &mut units);
            let short = values_len < VALUES_SIZE || units_len < CANDIDATE_SIZE;
            assert_eq!(found, Err(if short { Refusal::ShortArea } else { Refusal::NotFinite }));
            assert_eq!(units, zeroed(MARK, units_len, CANDIDATE_SIZE));
        }
    }
}
