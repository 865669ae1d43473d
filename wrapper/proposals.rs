//! Proposals made on the mill: helpers for 1/g and candidates for f/g, in `f64`, for the ordinary test to judge.
use crate::areas;
use crate::{Candidate, Model, Refusal};
use crate::{
    CANDIDATE_SIZE, COEFFICIENTS, OUTCOME_SIZE, QUOTIENT_RECORD_SIZE, RECIPROCAL_RECORD_SIZE,
};

/// How the rounds of a maker ended, with the change of the last round.
#[derive(Clone, Copy, Debug, PartialEq)]
pub enum Outcome {
    /// The change is at most 2^-24. The proposal may still fail its test.
    Settled(f64),
    /// 12 rounds were not enough. The proposal may still pass its test.
    GivenUp(f64),
}

impl Outcome {
    /// The largest absolute difference of a coefficient before and after the last round.
    pub fn change(self) -> f64 {
        match self {
            Outcome::Settled(change) | Outcome::GivenUp(change) => change,
        }
    }

    /// What the library's answer says.
    fn of(answered: u32, change: f64) -> Outcome {
        match answered {
            0 => Outcome::GivenUp(change),
            1 => Outcome::Settled(change),
            _ => panic!("not this version of libferruntzo.a: its outcome is {answered}"),
        }
    }
}

/// What the rounds for 1/g keep: w as values (coefficients in units over S), and the last change.
#[derive(Clone, Copy, Debug, PartialEq)]
pub struct ReciprocalRecord {
    /// w_0 to w_32, each finite.
    pub coefficients: [f64; COEFFICIENTS],
    /// The change of the last round, that of the outcome.
    pub change: f64,
}

/// What a maker of quotients keeps.
#[derive(Clone, Copy, Debug, PartialEq)]
pub struct QuotientRecord {
    /// f times w, as values, each finite.
    pub coefficients: [f64; COEFFICIENTS],
    /// w and the last change.
    pub reciprocal: ReciprocalRecord,
}

/// A helper made for 1/g. Nothing is known of it before [`quotient`](crate::quotient) accepts it.
#[derive(Clone, Copy, Debug, PartialEq)]
pub struct MadeReciprocal {
    /// The values.
    pub record: ReciprocalRecord,
    /// How the rounds ended.
    pub outcome: Outcome,
    /// w in units, of degree 32.
    pub w: Candidate,
}

/// A candidate and a helper made for f/g. Nothing is known of them before
/// [`quotient`](crate::quotient) accepts them.
#[derive(Clone, Copy, Debug, PartialEq)]
pub struct MadeQuotient {
    /// The values.
    pub record: QuotientRecord,
    /// How the rounds ended.
    pub outcome: Outcome,
    /// h in units, of degree 32.
    pub h: Candidate,
    /// w in units, of degree 32.
    pub w: Candidate,
}

/// The record in 34 numbers: w, the change.
fn reciprocal_record(numbers: &[f64]) -> ReciprocalRecord {
    let coefficients = *numbers.first_chunk().expect("34 numbers");
    ReciprocalRecord { coefficients, change: numbers[COEFFICIENTS] }
}

/// Makes a helper w for 1/g: w starts as the constant 1/g_0 and becomes w·(2 − g·w), for at most 12
/// rounds, until it has settled. Every bit is fixed: include/ferruntzo.h says by which order.
///
/// Refusals, in order: `BadModel`, `BadEnds`, `NotFinite` (g_0 is zero, or a value is not finite),
/// `LargeProposal` (the weight of w in units).
pub fn make_reciprocal(g: &Model) -> Result<MadeReciprocal, Refusal> {
    let mut record = [0.0; RECIPROCAL_RECORD_SIZE];
    let mut w = [0; CANDIDATE_SIZE];
    let mut outcome = [0; OUTCOME_SIZE];
    areas::make_reciprocal(g.numbers(), &mut record, &mut w, &mut outcome)?;
    let record = reciprocal_record(&record);
    let outcome = Outcome::of(outcome[0], record.change);
    Ok(MadeReciprocal { record, outcome, w: Candidate::from_numbers(w) })
}

/// Makes a candidate h for f/g with its helper w: w as [`make_reciprocal`] makes it, and h = f·w.
///
/// Refusals, in order: of f and of g `BadModel`, `BadEnds`; `DifferentIntervals`, `NotFinite` (g_0 is
/// zero, or a value of w or of f·w is not finite), `LargeProposal` (the weight of h or of w in units).
///
/// ```
/// use ferruntzo::{make_quotient, quotient, Model, Outcome, S};
///
/// // 1/4: the constant 4 is a power of two, so that nothing is rounded.
/// let (f, g) = (Model::constant(S), Model::constant(4 * S));
/// let made = make_quotient(&f, &g).unwrap();
/// assert_eq!(made.outcome, Outcome::Settled(0.0));
/// // Only the test vouches for it.
/// let tested = quotient(&f, &g, &made.h, &made.w).unwrap();
/// assert_eq!((tested.model.coefficients()[0], tested.model.radius()), (S / 4, 0));
/// ```
pub fn make_quotient(f: &Model, g: &Model) -> Result<MadeQuotient, Refusal> {
    let mut record = [0.0; QUOTIENT_RECORD_SIZE];
    let (mut h, mut w) = ([0; CANDIDATE_SIZE], [0; CANDIDATE_SIZE]);
    let mut outcome = [0; OUTCOME_SIZE];
    areas::make_quotient(f.numbers(), g.numbers(), &mut record, &mut h, &mut w, &mut outcome)?;
    let reciprocal = reciprocal_record(&record[COEFFICIENTS..]);
    let coefficients = *record.first_chunk().expect("67 numbers");
    Ok(MadeQuotient {
        record: QuotientRecord { coefficients, reciprocal },
        outcome: Outcome::of(outcome[0], reciprocal.change),
        h: Candidate::from_numbers(h),
        w: Candidate::from_numbers(w),
    })
}

/// The candidate of degree 32 whose coefficients are these values in units: the nearest whole number
/// to value times S, a tie to the even one.
///
/// Refusals, in order: `NotFinite`, `LargeProposal`.
pub fn to_units(values: &[f64; COEFFICIENTS]) -> Result<Candidate, Refusal> {
    let mut units = [0; CANDIDATE_SIZE];
    areas::to_units(values, &mut units).map(|()| Candidate::from_numbers(units))
}

/// The makers over the caller's own areas; [`crate::areas`] has them too.
#[rustfmt::skip]
pub(crate) mod lent {
    use crate::{accepted, raw, Refusal};

    /// A helper for 1/g; `g` has 37 numbers, `record` 34 (w, the change), `w` 34, `outcome` 1
    /// (1 settled, 0 given up).
    ///
    /// After every refusal each of the three is zero in its size, unless it is itself too short.
    pub fn make_reciprocal(
        g: &[i32],
        record: &mut [f64],
        w: &mut [i32],
        outcome: &mut [u32],
    ) -> Result<(), Refusal> {
        // SAFETY: here and below, as in `areas::add`.
        accepted(unsafe {
            raw::ferruntzo_make_reciprocal(
                g.as_ptr(), g.len(), record.as_mut_ptr(), record.len(),
                w.as_mut_ptr(), w.len(), outcome.as_mut_ptr(), outcome.len(),
            )
        })
    }

    /// A candidate and a helper for f/g; `f` and `g` have 37 numbers, `record` 67 (f times w, then w
    /// and the change), `h` and `w` 34, `outcome` 1 (1 settled, 0 given up).
    ///
    /// After every refusal each of the four is zero in its size, unless it is itself too short.
    pub fn make_quotient(
        f: &[i32],
        g: &[i32],
        record: &mut [f64],
        h: &mut [i32],
        w: &mut [i32],
        outcome: &mut [u32],
    ) -> Result<(), Refusal> {
        // SAFETY: as in `areas::add`.
        accepted(unsafe {
            raw::ferruntzo_make_quotient(
                f.as_ptr(), f.len(), g.as_ptr(), g.len(), record.as_mut_ptr(), record.len(),
                h.as_mut_ptr(), h.len(), w.as_mut_ptr(), w.len(),
                outcome.as_mut_ptr(), outcome.len(),
            )
        })
    }

    /// Values in units; `values` has 33 numbers, `units` 34.
    pub fn to_units(values: &[f64], units: &mut [i32]) -> Result<(), Refusal> {
        // SAFETY: as in `areas::add`.
        accepted(unsafe {
            raw::ferruntzo_to_units(values.as_ptr(), values.len(), units.as_mut_ptr(), units.len())
        })
    }
}
