//! A safe wrapper over the Ferruntzo library (`libferruntzo.a`, see `include/ferruntzo.h`).
//!
//! ```text
//! scripts/build_library
//! rustc --edition 2021 -L target/staticlib --crate-type rlib wrapper/ferruntzo.rs
//! rustc --edition 2021 -L target/staticlib -L . --extern ferruntzo program.rs
//! ```
//!
//! The typed functions ([`Model::add`], [`Model::from_series`], [`quotient`], [`quotient_of_two`],
//! [`make_quotient`], [`check`], [`check_service`], [`convert_edition`], ...) lend the library areas of
//! the right size.
//! The functions in [`areas`] take the caller's own slices of every length.
//! The crate needs `core` alone, allocates nothing and has no state. Every x and every value of which
//! something is said below is a fraction.
//!
//! ```
//! use ferruntzo::{check, root, Candidate, Model, S};
//!
//! // The square root of 4: the solver proposes h = 2 with the helper w = 1/(2h) = 1/4.
//! let found = root(&Model::constant(4 * S), &Candidate::constant(2 * S), &Candidate::constant(S / 4));
//! assert_eq!(found.unwrap().model.radius(), 0);
//!
//! // The empty job is refused with number 10 at command 0.
//! let refused = check(&[]).unwrap_err();
//! assert_eq!((refused.refusal.number(), refused.command), (10, 0));
//! ```
#![no_std]
#![deny(missing_docs, unsafe_op_in_unsafe_fn)]

#[cfg(test)]
extern crate std;

use core::fmt;

mod editions;
mod proposals;
mod reports;
pub use editions::convert_edition;
pub use proposals::{
    make_quotient, make_reciprocal, to_units, MadeQuotient, MadeReciprocal, Outcome,
    QuotientRecord, ReciprocalRecord,
};
pub use reports::{check_service, check_workshop, ServiceRecord, WorkshopRecord};

/// One unit is 1/S.
pub const S: i32 = 1 << 20;
/// The largest weight, radius and size of an end of a model, and the largest N of a test.
pub const LIMIT: i32 = 1 << 28;
/// The largest degree.
pub const MAX_DEGREE: usize = 32;
/// Coefficients of a model or candidate.
pub const COEFFICIENTS: usize = 33;
/// Results of a job at most.
pub const MAX_RESULTS: usize = 32;
/// The kept degree of a product that leaves the choice open: the larger degree of the two factors.
/// Before version 5.0.0 it stood for 32.
pub const DEFAULT_KEPT: u32 = 255;

/// Numbers in a model area: degree, coefficients, radius, lower end, upper end.
pub const MODEL_SIZE: usize = 37;
/// Numbers in a candidate area: degree, coefficients.
pub const CANDIDATE_SIZE: usize = 34;
/// Numbers of a proposal for a quotient: degree, coefficients of h, then of w.
pub const PROPOSAL_SIZE: usize = 68;
/// Numbers in a series area: degree, coefficients of x^0 to x^32.
pub const SERIES_SIZE: usize = 34;
/// Numbers in the area for bounds: low, high.
pub const BOUNDS_SIZE: usize = 2;
/// Numbers in the scratch area of a test.
pub const SCRATCH_SIZE: usize = 16;
/// Numbers of a test: m, N, b.
pub const NUMBERS_SIZE: usize = 3;
/// Numbers in the work area of a job: 32 models.
pub const WORK_SIZE: usize = 1184;
/// Numbers in the answer of a job: count (of a conversion the length), command.
pub const ANSWER_SIZE: usize = 2;
/// Bytes of a workshop's report record: number, degree, radius.
pub const WORKSHOP_RECORD: usize = 6;
/// Bytes of a service's report record: number, degree, m, N, b, radius.
pub const SERVICE_RECORD: usize = 18;
/// Bytes of the room of a workshop's report: 32 records.
pub const WORKSHOP_ROOM: usize = 192;
/// Bytes of the room of a service's report: 32 records.
pub const SERVICE_ROOM: usize = 576;
/// Bytes of the longest job that can be accepted or converted.
pub const MAX_JOB_BYTES: usize = 8488;
/// Numbers in the answer of two proposals: chosen, radius.
pub const SELECTION_SIZE: usize = 2;
/// Numbers in an area of values: those of T_0 to T_32.
pub const VALUES_SIZE: usize = 33;
/// Numbers in the record of a maker of reciprocals: w, the change.
pub const RECIPROCAL_RECORD_SIZE: usize = 34;
/// Numbers in the record of a maker of quotients: f times w, then those of the reciprocal.
pub const QUOTIENT_RECORD_SIZE: usize = 67;
/// Numbers in the outcome of a maker.
pub const OUTCOME_SIZE: usize = 1;

const RADIUS: usize = 34;
const LOWER: usize = 35;
const UPPER: usize = 36;

/// The version of the library that is linked: its three numbers.
pub fn version() -> (u32, u32, u32) {
    // SAFETY: it takes nothing.
    let number = unsafe { raw::ferruntzo_version() };
    (number >> 16, number >> 8 & 255, number & 255)
}

/// The numbered refusals of document 01, and numbers 14 to 20 of document 02.
#[derive(Clone, Copy, Debug, PartialEq, Eq, Hash)]
#[repr(u32)]
pub enum Refusal {
    /// An area, or a proposal, is shorter than needed.
    ShortArea = 1,
    /// A model's or candidate's degree, weight or radius, or a nonzero coefficient beyond its degree.
    BadModel = 2,
    /// The result's weight or radius is above 2^28, or its degree above 32.
    LargeResult = 3,
    /// The point p is not from the model's lower end to its upper end.
    PointOutside = 4,
    /// m ≥ S: the helper is too far from the inverse.
    NotContracting = 5,
    /// N > 2^28.
    LargeResidual = 6,
    /// The coefficients of a root's helper have a sum of 0 or below.
    HelperNotPositive = 7,
    /// Root test: (S − m)² < 8·b·M.
    NegativeDiscriminant = 8,
    /// Unknown command, edition or kept degree; edition not first, or again.
    BadValue = 9,
    /// The job ends inside a command or without an end.
    JobEnds = 10,
    /// Bytes follow the end of the job.
    BytesAfterEnd = 11,
    /// A command names a result that is not there yet.
    NotAResult = 12,
    /// A 33rd result.
    TooManyResults = 13,
    /// A series' degree or weight, or a nonzero coefficient beyond its degree.
    BadSeries = 14,
    /// The divisor's first coefficient is zero, or a value is not finite.
    NotFinite = 15,
    /// The weight of a list turned into units is above 2^28.
    LargeProposal = 16,
    /// Tighter root test: no whole r from 0 to S has 2·M·r² + b·S² ≤ (S − m)·S·r.
    NoRadius = 17,
    /// A model's ends: the lower is not below the upper, or one is not from −2^28 to 2^28.
    BadEnds = 18,
    /// Two operands are on different intervals.
    DifferentIntervals = 19,
    /// The output of a conversion is shorter than the job.
    ShortOutput = 20,
}

impl Refusal {
    /// All refusals, by rising number.
    pub const ALL: [Refusal; 20] = [
        Refusal::ShortArea,
        Refusal::BadModel,
        Refusal::LargeResult,
        Refusal::PointOutside,
        Refusal::NotContracting,
        Refusal::LargeResidual,
        Refusal::HelperNotPositive,
        Refusal::NegativeDiscriminant,
        Refusal::BadValue,
        Refusal::JobEnds,
        Refusal::BytesAfterEnd,
        Refusal::NotAResult,
        Refusal::TooManyResults,
        Refusal::BadSeries,
        Refusal::NotFinite,
        Refusal::LargeProposal,
        Refusal::NoRadius,
        Refusal::BadEnds,
        Refusal::DifferentIntervals,
        Refusal::ShortOutput,
    ];

    /// Its number, 1 to 20.
    pub fn number(self) -> u32 {
        self as u32
    }

    /// The refusal with this number, if there is one.
    pub fn from_number(number: u32) -> Option<Refusal> {
        Refusal::ALL.into_iter().find(|refusal| refusal.number() == number)
    }
}

impl fmt::Display for Refusal {
    fn fmt(&self, f: &mut fmt::Formatter<'_>) -> fmt::Result {
        let reason = match self {
            Refusal::ShortArea => "an area or a proposal is too short",
            Refusal::BadModel => "bad model or candidate",
            Refusal::LargeResult => "result too large",
            Refusal::PointOutside => "point outside the interval",
            Refusal::NotContracting => "helper too far from the inverse",
            Refusal::LargeResidual => "residual too large",
            Refusal::HelperNotPositive => "helper not positive",
            Refusal::NegativeDiscriminant => "negative discriminant of this root",
            Refusal::BadValue => "unknown command or value",
            Refusal::JobEnds => "the job ends early",
            Refusal::BytesAfterEnd => "bytes after the end",
            Refusal::NotAResult => "not yet a result",
            Refusal::TooManyResults => "more than 32 results",
            Refusal::BadSeries => "bad series",
            Refusal::NotFinite => "a divisor begins with zero, or a value is not finite",
            Refusal::LargeProposal => "proposal too large",
            Refusal::NoRadius => "no radius satisfies the tighter root test",
            Refusal::BadEnds => "wrong ends of a model",
            Refusal::DifferentIntervals => "operands on different intervals",
            Refusal::ShortOutput => "the output is too short",
        };
        write!(f, "refused {}: {}", self.number(), reason)
    }
}

impl core::error::Error for Refusal {}

/// The library's answer as a `Result`.
fn accepted(number: u32) -> Result<(), Refusal> {
    match Refusal::from_number(number) {
        Some(refusal) => Err(refusal),
        None if number == 0 => Ok(()),
        None => panic!("not this version of libferruntzo.a: it answered {number}"),
    }
}

/// The ends of a model's interval, in units: every fraction x from lower/S to upper/S.
#[derive(Clone, Copy, Debug, PartialEq, Eq, Hash)]
pub struct Interval {
    /// The lower end l.
    pub lower: i32,
    /// The upper end u.
    pub upper: i32,
}

impl Interval {
    /// From −S to S: x goes from −1 to 1.
    pub const STANDARD: Interval = Interval::new(-S, S);

    /// The interval with these ends.
    pub const fn new(lower: i32, upper: i32) -> Interval {
        Interval { lower, upper }
    }
}

/// A polynomial in the Chebyshev basis with an error radius on an interval: degree, coefficients of
/// T_0 to T_32 in units of 1/[`S`], radius and ends in units. T_k is taken at
/// (2·S·x − l − u)/(u − l), which goes from −1 to 1. Any numbers may be put in; the library refuses
/// bad ones.
///
/// The coefficients of products, integrals and models of series, and inside an evaluation the point
/// where T_k is taken and the T_k, are rounded to the nearest whole number, a tie to the even one, so
/// that a mirrored curve has mirrored answers: include/ferruntzo.h says which.
#[derive(Clone, Copy, Debug, PartialEq, Eq)]
#[repr(transparent)]
pub struct Model([i32; MODEL_SIZE]);

impl Model {
    /// All zero, the ends too: an area for the library to write to. As an operand it is refused.
    const BLANK: Model = Model([0; MODEL_SIZE]);

    /// The constant 0 with radius 0, on the standard interval.
    pub const ZERO: Model = Model::BLANK.on(Interval::STANDARD);

    /// A model of this degree, these coefficients and this radius, on the standard interval.
    pub fn new(degree: i32, coefficients: [i32; COEFFICIENTS], radius: i32) -> Model {
        Candidate::new(degree, coefficients).with_radius(radius)
    }

    /// The constant c, in units, with radius 0, on the standard interval.
    pub fn constant(c: i32) -> Model {
        Candidate::constant(c).with_radius(0)
    }

    /// The model with the same degree, coefficients and radius on this interval.
    ///
    /// ```
    /// use ferruntzo::{Interval, Model, S};
    ///
    /// // A speed of 3 for ten seconds: a distance of 30, within a unit.
    /// let speed = Model::constant(3 * S).on(Interval::new(0, 10 * S));
    /// let distance = speed.integrate().unwrap().evaluate(10 * S).unwrap();
    /// assert_eq!((distance.low, distance.high), (30 * S as i64 - 1, 30 * S as i64 + 1));
    /// ```
    pub const fn on(&self, interval: Interval) -> Model {
        let mut numbers = self.0;
        numbers[LOWER] = interval.lower;
        numbers[UPPER] = interval.upper;
        Model(numbers)
    }

    /// The model of a power series, of the same degree, on the standard interval; it allows the exact
    /// value of the series at every x from −1 to 1.
    ///
    /// Refusals, in order: `BadSeries`, `LargeResult` (rounding can take a weight near 2^28 above it).
    pub fn from_series(series: &Series) -> Result<Model, Refusal> {
        let mut out = Model::BLANK;
        areas::from_series(&series.0, &mut out.0).map(|()| out)
    }

    /// The model in these 37 numbers: degree, coefficients, radius, lower end, upper end.
    pub fn from_numbers(numbers: [i32; MODEL_SIZE]) -> Model {
        Model(numbers)
    }

    /// The 37 numbers: degree, coefficients, radius, lower end, upper end.
    pub fn numbers(&self) -> &[i32; MODEL_SIZE] {
        &self.0
    }

    /// The degree.
    pub fn degree(&self) -> i32 {
        self.0[0]
    }

    /// The 33 coefficients, in units.
    pub fn coefficients(&self) -> &[i32] {
        &self.0[1..RADIUS]
    }

    /// The radius, in units.
    pub fn radius(&self) -> i32 {
        self.0[RADIUS]
    }

    /// The ends of its interval.
    pub fn interval(&self) -> Interval {
        Interval::new(self.0[LOWER], self.0[UPPER])
    }

    /// The sum, on the interval of both.
    ///
    /// Refusals, in order: of each model `BadModel`, `BadEnds`; `DifferentIntervals`, `LargeResult`.
    pub fn add(&self, other: &Model) -> Result<Model, Refusal> {
        let mut out = Model::BLANK;
        areas::add(&self.0, &other.0, &mut out.0).map(|()| out)
    }

    /// The difference, on the interval of both.
    ///
    /// Refusals, in order: of each model `BadModel`, `BadEnds`; `DifferentIntervals`, `LargeResult`.
    pub fn subtract(&self, other: &Model) -> Result<Model, Refusal> {
        let mut out = Model::BLANK;
        areas::subtract(&self.0, &other.0, &mut out.0).map(|()| out)
    }

    /// The product, on the interval of both, cut to the kept degree: 0 to 32, or [`DEFAULT_KEPT`] for the
    /// larger degree of the two. What is dropped is paid for in the radius. Before version 5.0.0
    /// `DEFAULT_KEPT` stood for 32: state 32 for the former results.
    ///
    /// Refusals, in order: of each model `BadModel`, `BadEnds`; `DifferentIntervals`, `BadValue` (the
    /// kept degree), `LargeResult`.
    pub fn multiply(&self, other: &Model, kept: u32) -> Result<Model, Refusal> {
        let mut out = Model::BLANK;
        areas::multiply(&self.0, &other.0, kept, &mut out.0).map(|()| out)
    }

    /// The integral from l/S. Its radius bounds the exact primitive of every list of coefficients
    /// within e units of this model's in total. Of any values that the model allows, left-end value
    /// times width summed over k ≥ 1 equal strips from l/S to x differs from the integral's
    /// polynomial at x by at most its radius plus L·(u − l)/(S·k) units, where L is the sum of
    /// |a_k|·k², at every x of the interval.
    ///
    /// Refusals, in order: `BadModel`, `BadEnds`, `LargeResult` (degree 32 always).
    pub fn integrate(&self) -> Result<Model, Refusal> {
        let mut out = Model::BLANK;
        areas::integrate(&self.0, &mut out.0).map(|()| out)
    }

    /// Bounds in units of every value that the model allows at p/S, p from l to u.
    ///
    /// Refusals, in order: `BadModel`, `BadEnds`, `PointOutside`.
    pub fn evaluate(&self, p: i32) -> Result<Bounds, Refusal> {
        let mut bounds = [0; BOUNDS_SIZE];
        areas::evaluate(&self.0, p, &mut bounds)?;
        Ok(Bounds { low: bounds[0], high: bounds[1] })
    }
}

/// A proposed answer or a helper: a model without a radius and ends. It is on the interval of the
/// models that it is proposed for.
#[derive(Clone, Copy, Debug, PartialEq, Eq)]
#[repr(transparent)]
pub struct Candidate([i32; CANDIDATE_SIZE]);

impl Candidate {
    /// A candidate of this degree and these coefficients.
    pub fn new(degree: i32, coefficients: [i32; COEFFICIENTS]) -> Candidate {
        let mut numbers = [0; CANDIDATE_SIZE];
        numbers[0] = degree;
        numbers[1..].copy_from_slice(&coefficients);
        Candidate(numbers)
    }

    /// The constant c, in units.
    pub fn constant(c: i32) -> Candidate {
        let mut coefficients = [0; COEFFICIENTS];
        coefficients[0] = c;
        Candidate::new(0, coefficients)
    }

    /// The candidate in these 34 numbers: degree, coefficients.
    pub fn from_numbers(numbers: [i32; CANDIDATE_SIZE]) -> Candidate {
        Candidate(numbers)
    }

    /// The 34 numbers: degree, coefficients.
    pub fn numbers(&self) -> &[i32; CANDIDATE_SIZE] {
        &self.0
    }

    /// The degree.
    pub fn degree(&self) -> i32 {
        self.0[0]
    }

    /// The 33 coefficients, in units.
    pub fn coefficients(&self) -> &[i32] {
        &self.0[1..]
    }

    /// The model with these coefficients and this radius, on the standard interval.
    pub fn with_radius(&self, radius: i32) -> Model {
        let mut model = Model::ZERO;
        model.0[..RADIUS].copy_from_slice(&self.0);
        model.0[RADIUS] = radius;
        model
    }
}

/// A power series: degree, coefficients of x^0 to x^32 in units of 1/[`S`].
#[derive(Clone, Copy, Debug, PartialEq, Eq)]
#[repr(transparent)]
pub struct Series([i32; SERIES_SIZE]);

impl Series {
    /// A series of this degree and these coefficients.
    pub fn new(degree: i32, coefficients: [i32; COEFFICIENTS]) -> Series {
        let mut numbers = [0; SERIES_SIZE];
        numbers[0] = degree;
        numbers[1..].copy_from_slice(&coefficients);
        Series(numbers)
    }

    /// The series in these 34 numbers: degree, coefficients.
    pub fn from_numbers(numbers: [i32; SERIES_SIZE]) -> Series {
        Series(numbers)
    }

    /// The 34 numbers: degree, coefficients.
    pub fn numbers(&self) -> &[i32; SERIES_SIZE] {
        &self.0
    }

    /// The degree.
    pub fn degree(&self) -> i32 {
        self.0[0]
    }

    /// The 33 coefficients, in units.
    pub fn coefficients(&self) -> &[i32] {
        &self.0[1..]
    }
}

/// Bounds of an evaluation, in units.
#[derive(Clone, Copy, Debug, PartialEq, Eq)]
pub struct Bounds {
    /// No allowed value is below this.
    pub low: i64,
    /// No allowed value is above this.
    pub high: i64,
}

/// An accepted candidate: the model with its radius, and document 01's m, N and b.
#[derive(Clone, Copy, Debug, PartialEq, Eq)]
pub struct Certificate {
    /// The candidate with the radius that the test gives, on the interval of f.
    pub model: Model,
    /// m: how far helper times divisor (or twice helper times root) is from 1, in units.
    pub m: u64,
    /// N: the residual, in units.
    pub n: u64,
    /// b: helper's weight times residual, in units.
    pub b: u64,
}

/// The former name of [`Certificate`].
pub type Certified = Certificate;

/// Tests the candidate h for f/g, with the helper w near 1/g, on the interval of f and g.
///
/// Refusals, in order: of f and of g `BadModel`, `BadEnds`; `BadModel` of h or w,
/// `DifferentIntervals`, `NotContracting`, `LargeResidual`, `LargeResult`.
pub fn quotient(
    f: &Model,
    g: &Model,
    h: &Candidate,
    w: &Candidate,
) -> Result<Certificate, Refusal> {
    let mut scratch = [0; SCRATCH_SIZE];
    let mut model = Model::BLANK;
    let mut numbers = [0; NUMBERS_SIZE];
    areas::quotient(&f.0, &g.0, &h.0, &w.0, &mut scratch, &mut model.0, &mut numbers)?;
    let [m, n, b] = numbers;
    Ok(Certificate { model, m, n, b })
}

/// Which of two proposals is chosen.
#[derive(Clone, Copy, Debug, PartialEq, Eq, Hash)]
#[repr(u32)]
pub enum Chosen {
    /// The first.
    First = 1,
    /// The second.
    Second = 2,
}

/// The tighter of two proposals for a quotient.
#[derive(Clone, Copy, Debug, PartialEq, Eq)]
pub struct Selection<'a> {
    /// Which proposal.
    pub chosen: Chosen,
    /// The degree of its h.
    pub degree: i32,
    /// The coefficients of its h, in units: a part of the caller's proposal.
    pub coefficients: &'a [i32; COEFFICIENTS],
    /// The radius that the test gives, in units.
    pub radius: i32,
    /// The interval of f and g.
    pub interval: Interval,
}

impl Selection<'_> {
    /// The model with this degree, these coefficients and this radius on this interval.
    pub fn model(&self) -> Model {
        Model::new(self.degree, *self.coefficients, self.radius).on(self.interval)
    }
}

/// Tests two proposals for f/g, each 68 numbers: degree and coefficients of h, then of w. The one
/// with the smaller radius is chosen, the first if the radii are equal; if just one passes, that
/// one. Numbers behind the 68 play no part.
///
/// At every x of the interval of f and g no value that g allows is zero, and each value of f over one
/// of g is allowed by the coefficients of the selection with its radius.
///
/// Refusals, if neither passes: what the first fails with, in order `ShortArea` (fewer than 68
/// numbers), then those of [`quotient`].
///
/// ```
/// use ferruntzo::{quotient_of_two, Chosen, Model, CANDIDATE_SIZE, PROPOSAL_SIZE, S};
///
/// // 1/2 with the helper w = 1/2: the first proposal is three units off, the second is exact.
/// let mut first = [0; PROPOSAL_SIZE];
/// first[1] = S / 2 + 3;
/// first[CANDIDATE_SIZE + 1] = S / 2;
/// let mut second = first;
/// second[1] = S / 2;
/// let (f, g) = (Model::constant(S), Model::constant(2 * S));
/// let tighter = quotient_of_two(&f, &g, &first, &second).unwrap();
/// assert_eq!((tighter.chosen, tighter.radius), (Chosen::Second, 0));
/// assert_eq!(tighter.coefficients.as_ptr(), second[1..].as_ptr());
/// ```
pub fn quotient_of_two<'a>(
    f: &Model,
    g: &Model,
    first: &'a [i32],
    second: &'a [i32],
) -> Result<Selection<'a>, Refusal> {
    let mut scratch = [0; SCRATCH_SIZE];
    let mut answer = [0; SELECTION_SIZE];
    let (tested, part) =
        areas::quotient_of_two(&f.0, &g.0, first, second, &mut scratch, &mut answer);
    tested?;
    let (chosen, proposal) = chosen_of(answer[0], first, second);
    let coefficients = part.first_chunk().expect("a part of 33 numbers");
    // An accepted radius is at most 2^28.
    let radius = answer[1] as i32;
    Ok(Selection { chosen, degree: proposal[0], coefficients, radius, interval: f.interval() })
}

/// The proposal that the library's answer names.
fn chosen_of<'a>(number: u32, first: &'a [i32], second: &'a [i32]) -> (Chosen, &'a [i32]) {
    match number {
        1 => (Chosen::First, first),
        2 => (Chosen::Second, second),
        _ => panic!("not this version of libferruntzo.a: it chose {number}"),
    }
}

/// Tests the candidate h for the square root of f, with the helper w near 1/(2h), on the interval of f.
///
/// Accepted: at every x of the interval every value v that f allows is above 0. Its root is allowed by
/// the model where it is a fraction; otherwise it lies within the radius, which is said of its square:
/// with c the value of the model's polynomial and r its radius over S, c + r ≥ 0, v ≤ (c + r)², and
/// c − r ≤ 0 or (c − r)² ≤ v.
///
/// Refusals, in order: of f `BadModel`, `BadEnds`; `BadModel` of h or w, `HelperNotPositive`,
/// `NotContracting`, `LargeResidual`, `NegativeDiscriminant`.
pub fn root(f: &Model, h: &Candidate, w: &Candidate) -> Result<Certificate, Refusal> {
    let mut scratch = [0; SCRATCH_SIZE];
    let mut model = Model::BLANK;
    let mut numbers = [0; NUMBERS_SIZE];
    areas::root(&f.0, &h.0, &w.0, &mut scratch, &mut model.0, &mut numbers)?;
    let [m, n, b] = numbers;
    Ok(Certificate { model, m, n, b })
}

/// The tighter root test: [`root`] up to N and b, with the least whole radius r from 0 to S for
/// which 2·M·r² + b·S² ≤ (S − m)·S·r, where M is the weight of w. Where it accepts, `root`
/// accepts too, with a radius that is never smaller; it can refuse what `root` accepts. What is
/// accepted is vouched for as by `root`, with this radius.
///
/// Refusals, in order: of f `BadModel`, `BadEnds`; `BadModel` of h or w, `HelperNotPositive`,
/// `NotContracting`, `LargeResidual`, `NoRadius`.
///
/// ```
/// use ferruntzo::{root, tight_root, Candidate, Model, S};
///
/// // The square root of 4, a hundredth off: half the radius of the root test and a little more.
/// let (f, h) = (Model::constant(4 * S), Candidate::constant(2 * S + S / 100));
/// let w = Candidate::constant(S / 4);
/// let (former, tighter) = (root(&f, &h, &w).unwrap(), tight_root(&f, &h, &w).unwrap());
/// assert_eq!((former.model.radius(), tighter.model.radius()), (21130, 10619));
/// ```
pub fn tight_root(f: &Model, h: &Candidate, w: &Candidate) -> Result<Certificate, Refusal> {
    let mut scratch = [0; SCRATCH_SIZE];
    let mut model = Model::BLANK;
    let mut numbers = [0; NUMBERS_SIZE];
    areas::tight_root(&f.0, &h.0, &w.0, &mut scratch, &mut model.0, &mut numbers)?;
    let [m, n, b] = numbers;
    Ok(Certificate { model, m, n, b })
}

/// An accepted job: its results, 0 to 32 of them.
#[derive(Clone, Debug, PartialEq, Eq)]
pub struct CheckedJob {
    work: [i32; WORK_SIZE],
    count: usize,
}

impl CheckedJob {
    /// How many results there are.
    pub fn count(&self) -> usize {
        self.count
    }

    /// Result i, or `None` from the count on.
    pub fn result(&self, i: usize) -> Option<Model> {
        if i >= self.count {
            return None;
        }
        let mut model = Model::BLANK;
        model.0.copy_from_slice(&self.work[MODEL_SIZE * i..MODEL_SIZE * (i + 1)]);
        Some(model)
    }

    /// All results, in order.
    pub fn results(&self) -> impl Iterator<Item = Model> + '_ {
        (0..self.count).filter_map(|i| self.result(i))
    }
}

/// A refused job: the refusal, and the number of its command, counted from 0.
#[derive(Clone, Copy, Debug, PartialEq, Eq)]
pub struct RefusedJob {
    /// Why.
    pub refusal: Refusal,
    /// Which command; the edition is command 0.
    pub command: u32,
}

impl fmt::Display for RefusedJob {
    fn fmt(&self, f: &mut fmt::Formatter<'_>) -> fmt::Result {
        write!(f, "{} (command {})", self.refusal, self.command)
    }
}

impl core::error::Error for RefusedJob {}

/// Checks a job (docs/FORMAT.md) of either edition, of any bytes and any length.
pub fn check(job: &[u8]) -> Result<CheckedJob, RefusedJob> {
    checked(|work, scratch, answer| areas::check(job, work, scratch, answer))
}

/// What a check answers that is lent work, scratch and answer.
fn checked(
    call: impl FnOnce(&mut [i32], &mut [i64], &mut [u32]) -> Result<(), Refusal>,
) -> Result<CheckedJob, RefusedJob> {
    let mut work = [0; WORK_SIZE];
    let mut scratch = [0; SCRATCH_SIZE];
    let mut answer = [0; ANSWER_SIZE];
    match call(&mut work, &mut scratch, &mut answer) {
        Ok(()) => Ok(CheckedJob { work, count: answer[0] as usize }),
        Err(refusal) => Err(RefusedJob { refusal, command: answer[1] }),
    }
}

/// The library's functions over the caller's own areas, of every length.
///
/// `Err(Refusal::ShortArea)`: an area is shorter than its size. What a written area holds
/// afterwards depends on its own length: one that is itself too short is not touched; `out`,
/// `bounds` and `numbers` are zero in their sizes after every refusal, `ShortArea` included; the
/// `scratch` of a test is zero in its 16 numbers after every call. [`areas::quotient_of_two`],
/// [`areas::check`], [`areas::check_workshop`], [`areas::convert_edition`] and the makers say what holds
/// of their areas. Numbers behind the sizes stay.
#[rustfmt::skip]
pub mod areas {
    use super::{accepted, chosen_of, raw, Refusal, CANDIDATE_SIZE};

    pub use super::editions::lent::convert_edition;
    pub use super::proposals::lent::{make_quotient, make_reciprocal, to_units};
    pub use super::reports::lent::{check_service, check_workshop};

    /// a + b; `a`, `b` and `out` have 37 numbers.
    pub fn add(a: &[i32], b: &[i32], out: &mut [i32]) -> Result<(), Refusal> {
        // SAFETY: here and below, each pointer and length come from one live slice, and the borrow
        // checker keeps every written area apart from all others of the call.
        accepted(unsafe {
            raw::ferruntzo_add(a.as_ptr(), a.len(), b.as_ptr(), b.len(), out.as_mut_ptr(), out.len())
        })
    }

    /// a − b; `a`, `b` and `out` have 37 numbers.
    pub fn subtract(a: &[i32], b: &[i32], out: &mut [i32]) -> Result<(), Refusal> {
        // SAFETY: as in `add`.
        accepted(unsafe {
            raw::ferruntzo_subtract(a.as_ptr(), a.len(), b.as_ptr(), b.len(), out.as_mut_ptr(), out.len())
        })
    }

    /// a·b cut to the kept degree; `a`, `b` and `out` have 37 numbers.
    pub fn multiply(a: &[i32], b: &[i32], kept: u32, out: &mut [i32]) -> Result<(), Refusal> {
        // SAFETY: as in `add`.
        accepted(unsafe {
            raw::ferruntzo_multiply(
                a.as_ptr(), a.len(), b.as_ptr(), b.len(), kept, out.as_mut_ptr(), out.len(),
            )
        })
    }

    /// The integral of a from its lower end; `a` and `out` have 37 numbers.
    pub fn integrate(a: &[i32], out: &mut [i32]) -> Result<(), Refusal> {
        // SAFETY: as in `add`.
        accepted(unsafe {
            raw::ferruntzo_integrate(a.as_ptr(), a.len(), out.as_mut_ptr(), out.len())
        })
    }

    /// The model of a power series; `series` has 34 numbers, `out` 37.
    pub fn from_series(series: &[i32], out: &mut [i32]) -> Result<(), Refusal> {
        // SAFETY: as in `add`.
        accepted(unsafe {
            raw::ferruntzo_from_series(series.as_ptr(), series.len(), out.as_mut_ptr(), out.len())
        })
    }

    /// Bounds at p/S; `a` has 37 numbers, `bounds` 2: low, high.
    pub fn evaluate(a: &[i32], p: i32, bounds: &mut [i64]) -> Result<(), Refusal> {
        // SAFETY: as in `add`.
        accepted(unsafe {
            raw::ferruntzo_evaluate(a.as_ptr(), a.len(), p, bounds.as_mut_ptr(), bounds.len())
        })
    }

    /// The quotient test; `f` and `g` have 37 numbers, `h` and `w` 34, `scratch` 16, `out` 37,
    /// `numbers` 3: m, N, b.
    pub fn quotient(
        f: &[i32],
        g: &[i32],
        h: &[i32],
        w: &[i32],
        scratch: &mut [i64],
        out: &mut [i32],
        numbers: &mut [u64],
    ) -> Result<(), Refusal> {
        // SAFETY: as in `add`.
        accepted(unsafe {
            raw::ferruntzo_quotient(
                f.as_ptr(), f.len(), g.as_ptr(), g.len(), h.as_ptr(), h.len(), w.as_ptr(), w.len(),
                scratch.as_mut_ptr(), scratch.len(), out.as_mut_ptr(), out.len(),
                numbers.as_mut_ptr(), numbers.len(),
            )
        })
    }

    /// The quotient tests of two proposals, and the part that is chosen: the 33 coefficients of h in
    /// the tighter proposal, or an empty part of `first` when refused. `f` and `g` have 37 numbers,
    /// `scratch` 16, `answer` 2: chosen (1 or 2), radius.
    ///
    /// A proposal of fewer than 68 numbers fails with `ShortArea` by itself. `answer` is 0 and 0
    /// after every refusal, and the 16 numbers of `scratch` zero after every call, unless they are too short.
    pub fn quotient_of_two<'a>(
        f: &[i32],
        g: &[i32],
        first: &'a [i32],
        second: &'a [i32],
        scratch: &mut [i64],
        answer: &mut [u32],
    ) -> (Result<(), Refusal>, &'a [i32]) {
        // SAFETY: as in `add`.
        let tested = accepted(unsafe {
            raw::ferruntzo_quotient_of_two(
                f.as_ptr(), f.len(), g.as_ptr(), g.len(),
                first.as_ptr(), first.len(), second.as_ptr(), second.len(),
                scratch.as_mut_ptr(), scratch.len(), answer.as_mut_ptr(), answer.len(),
            )
        });
        let part = match tested {
            Ok(()) => &chosen_of(answer[0], first, second).1[1..CANDIDATE_SIZE],
            Err(_) => &first[..0],
        };
        (tested, part)
    }

    /// The root test; `f` has 37 numbers, `h` and `w` 34, `scratch` 16, `out` 37, `numbers` 3: m, N, b.
    pub fn root(
        f: &[i32],
        h: &[i32],
        w: &[i32],
        scratch: &mut [i64],
        out: &mut [i32],
        numbers: &mut [u64],
    ) -> Result<(), Refusal> {
        // SAFETY: as in `add`.
        accepted(unsafe {
            raw::ferruntzo_root(
                f.as_ptr(), f.len(), h.as_ptr(), h.len(), w.as_ptr(), w.len(),
                scratch.as_mut_ptr(), scratch.len(), out.as_mut_ptr(), out.len(),
                numbers.as_mut_ptr(), numbers.len(),
            )
        })
    }

    /// The tighter root test, over the areas of [`root`].
    pub fn tight_root(
        f: &[i32],
        h: &[i32],
        w: &[i32],
        scratch: &mut [i64],
        out: &mut [i32],
        numbers: &mut [u64],
    ) -> Result<(), Refusal> {
        // SAFETY: as in `add`.
        accepted(unsafe {
            raw::ferruntzo_tight_root(
                f.as_ptr(), f.len(), h.as_ptr(), h.len(), w.as_ptr(), w.len(),
                scratch.as_mut_ptr(), scratch.len(), out.as_mut_ptr(), out.len(),
                numbers.as_mut_ptr(), numbers.len(),
            )
        })
    }

    /// The check of a job; `work` has 1184 numbers, `scratch` 16, `answer` 2: count, command.
    ///
    /// `ShortArea` leaves `work` and `scratch` as they were, and an `answer` of 2 or more numbers at
    /// 0 and 0. After every other call the 16 numbers of `scratch` are zero, and those of `work` if the job is refused.
    pub fn check(
        job: &[u8],
        work: &mut [i32],
        scratch: &mut [i64],
        answer: &mut [u32],
    ) -> Result<(), Refusal> {
        // SAFETY: as in `add`.
        accepted(unsafe {
            raw::ferruntzo_check(
                job.as_ptr(), job.len(), work.as_mut_ptr(), work.len(),
                scratch.as_mut_ptr(), scratch.len(), answer.as_mut_ptr(), answer.len(),
            )
        })
    }
}

/// The declarations of `include/ferruntzo.h`.
#[rustfmt::skip]
mod raw {
    #[link(name = "ferruntzo", kind = "static")]
    extern "C" {
        pub fn ferruntzo_version() -> u32;
        pub fn ferruntzo_add(
            a: *const i32, a_len: usize, b: *const i32, b_len: usize, out: *mut i32, out_len: usize,
        ) -> u32;
        pub fn ferruntzo_subtract(
            a: *const i32, a_len: usize, b: *const i32, b_len: usize, out: *mut i32, out_len: usize,
        ) -> u32;
        pub fn ferruntzo_multiply(
            a: *const i32, a_len: usize, b: *const i32, b_len: usize, kept: u32,
            out: *mut i32, out_len: usize,
        ) -> u32;
        pub fn ferruntzo_integrate(
            a: *const i32, a_len: usize, out: *mut i32, out_len: usize,
        ) -> u32;
        pub fn ferruntzo_from_series(
            series: *const i32, series_len: usize, out: *mut i32, out_len: usize,
        ) -> u32;
        pub fn ferruntzo_evaluate(
            a: *const i32, a_len: usize, p: i32, bounds: *mut i64, bounds_len: usize,
        ) -> u32;
        pub fn ferruntzo_quotient(
            f: *const i32, f_len: usize, g: *const i32, g_len: usize,
            h: *const i32, h_len: usize, w: *const i32, w_len: usize,
            scratch: *mut i64, scratch_len: usize, out: *mut i32, out_len: usize,
            numbers: *mut u64, numbers_len: usize,
        ) -> u32;
        pub fn ferruntzo_quotient_of_two(
            f: *const i32, f_len: usize, g: *const i32, g_len: usize,
            first: *const i32, first_len: usize, second: *const i32, second_len: usize,
            scratch: *mut i64, scratch_len: usize, answer: *mut u32, answer_len: usize,
        ) -> u32;
        pub fn ferruntzo_root(
            f: *const i32, f_len: usize, h: *const i32, h_len: usize, w: *const i32, w_len: usize,
            scratch: *mut i64, scratch_len: usize, out: *mut i32, out_len: usize,
            numbers: *mut u64, numbers_len: usize,
        ) -> u32;
        pub fn ferruntzo_tight_root(
            f: *const i32, f_len: usize, h: *const i32, h_len: usize, w: *const i32, w_len: usize,
            scratch: *mut i64, scratch_len: usize, out: *mut i32, out_len: usize,
            numbers: *mut u64, numbers_len: usize,
        ) -> u32;
        pub fn ferruntzo_check(
            job: *const u8, job_len: usize, work: *mut i32, work_len: usize,
            scratch: *mut i64, scratch_len: usize, answer: *mut u32, answer_len: usize,
        ) -> u32;
        pub fn ferruntzo_check_workshop(
            job: *const u8, job_len: usize, work: *mut i32, work_len: usize,
            scratch: *mut i64, scratch_len: usize, room: *mut u8, room_len: usize,
            answer: *mut u32, answer_len: usize,
        ) -> u32;
        pub fn ferruntzo_check_service(
            job: *const u8, job_len: usize, work: *mut i32, work_len: usize,
            scratch: *mut i64, scratch_len: usize, room: *mut u8, room_len: usize,
            answer: *mut u32, answer_len: usize,
        ) -> u32;
        pub fn ferruntzo_convert_edition(
            job: *const u8, job_len: usize, out: *mut u8, out_len: usize,
            answer: *mut u32, answer_len: usize,
        ) -> u32;
        pub fn ferruntzo_make_reciprocal(
            g: *const i32, g_len: usize, record: *mut f64, record_len: usize,
            w: *mut i32, w_len: usize, outcome: *mut u32, outcome_len: usize,
        ) -> u32;
        pub fn ferruntzo_make_quotient(
            f: *const i32, f_len: usize, g: *const i32, g_len: usize,
            record: *mut f64, record_len: usize, h: *mut i32, h_len: usize,
            w: *mut i32, w_len: usize, outcome: *mut u32, outcome_len: usize,
        ) -> u32;
        pub fn ferruntzo_to_units(
            values: *const f64, values_len: usize, units: *mut i32, units_len: usize,
        ) -> u32;
    }
}

#[cfg(test)]
mod tests;
