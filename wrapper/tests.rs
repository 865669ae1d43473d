//! Tests of the wrapper: document 01's examples, series, every refusal, every area at every length around its size.
use super::*;
use std::format;
use std::vec;
use std::vec::Vec;

#[path = "edition_tests.rs"]
mod editions;
#[path = "interval_tests.rs"]
mod intervals;
#[path = "proposal_tests.rs"]
mod proposals;
#[path = "report_tests.rs"]
mod reports;
#[path = "selection_tests.rs"]
mod selection;

const HALF: i32 = S / 2;

/// A model from its leading coefficients.
fn model(leading: &[i32], radius: i32) -> Model {
    let mut coefficients = [0; COEFFICIENTS];
    coefficients[..leading.len()].copy_from_slice(leading);
    Model::new(leading.len() as i32 - 1, coefficients, radius)
}

/// T_k times c.
fn term(k: usize, c: i32) -> Model {
    let mut coefficients = [0; COEFFICIENTS];
    coefficients[k] = c;
    Model::new(k as i32, coefficients, 0)
}

// ---- Bytes of jobs ----

fn block(degree: u8, leading: &[i32]) -> Vec<u8> {
    let mut bytes = vec![degree];
    for k in 0..COEFFICIENTS {
        bytes.extend(leading.get(k).copied().unwrap_or(0).to_le_bytes());
    }
    bytes
}

fn load(c: i32, radius: u32) -> Vec<u8> {
    [&[0x10], &block(0, &[c])[..], &radius.to_le_bytes()].concat()
}

fn root_of(result: u8, h: i32, w: i32) -> Vec<u8> {
    [&[0x21, result], &block(0, &[h])[..], &block(0, &[w])].concat()
}

fn tight_root_of(result: u8, h: i32, w: i32) -> Vec<u8> {
    [&[0x22, result], &block(0, &[h])[..], &block(0, &[w])].concat()
}

fn job(commands: &[&[u8]]) -> Vec<u8> {
    [&[0x01, 1], &commands.concat()[..], &[0x00]].concat()
}

/// The job that document 01 prints.
fn example() -> Vec<u8> {
    job(&[&load(4 * S, 0), &root_of(0, 2 * S, S / 4)])
}

fn refused(job: &[u8]) -> (u32, u32) {
    let refused = check(job).unwrap_err();
    (refused.refusal.number(), refused.command)
}

/// The library's version is that of the header.
#[test]
fn version_at_run_time() {
    let (major, minor, patch) = crate::version();
    let line = std::format!("#define FERRUNTZO_VERSION \"{major}.{minor}.{patch}\"\n");
    assert!(include_str!("../include/ferruntzo.h").contains(&line), "{line}");
}

// ---- Document 01's examples ----

#[test]
fn p1_to_p4_products() {
    let t1 = term(1, S);
    assert_eq!(t1.multiply(&t1, 2), Ok(model(&[HALF, 0, HALF], 0)));
    assert_eq!(t1.multiply(&t1, 1), Ok(model(&[HALF, 0], HALF)));
    let half = Model::constant(HALF);
    // P3 as change request S-11 has it: a tie goes to the even number.
    assert_eq!(Model::constant(1).multiply(&half, 32), Ok(model(&[0], 1)));
    assert_eq!(Model::constant(-1).multiply(&half, 32), Ok(model(&[0], 1)));
}

/// Half an odd number goes to the even number, on both sides of zero.
#[test]
fn ties_to_even() {
    for (odd, even) in [(1, 0), (3, 2), (5, 2), (7, 4), (-1, 0), (-3, -2), (-5, -2), (-7, -4)] {
        let half = Model::constant(HALF);
        assert_eq!(Model::constant(odd).multiply(&half, 32), Ok(model(&[even], 1)));
        assert_eq!(half.multiply(&Model::constant(odd), 32), Ok(model(&[even], 1)));
        assert_eq!(term(1, 2 * odd).integrate(), Ok(model(&[-even, 0, even], 2)));
        assert_eq!(Model::from_series(&series(2, &[(2, odd)])), Ok(model(&[even, 0, even], 1)));
    }
}

/// The same with every coefficient at an odd place negated.
fn mirrored(m: &Model) -> Model {
    let mut numbers = *m.numbers();
    numbers[1..RADIUS].iter_mut().skip(1).step_by(2).for_each(|c| *c = -*c);
    Model::from_numbers(numbers)
}

/// At p = 512·odd T_3(p) is rounded at a tie.
#[test]
fn mirrored_curves() {
    for odd in [1, 3, 5, 11, -9, 1023] {
        for m in [term(3, LIMIT), term(31, -LIMIT), model(&[S, -S, 7, LIMIT / 2, 1, 9 * S], 3)] {
            assert!(m.evaluate(512 * odd).is_ok());
            assert_eq!(mirrored(&m).evaluate(-512 * odd), m.evaluate(512 * odd));
        }
    }
    let curve = |sign| series(5, &[(0, 9), (1, sign * 5), (2, -3), (3, sign * 6), (5, sign * 24)]);
    let made = Model::from_series(&curve(1)).unwrap();
    assert_eq!(made, model(&[8, 24, -2, 9, 0, 2], 2));
    assert_eq!(Model::from_series(&curve(-1)), Ok(mirrored(&made)));
    let (a, b) = (model(&[3, 5, -7], 2), model(&[HALF, S, -HALF], 1));
    assert_eq!(mirrored(&a).multiply(&mirrored(&b), 4), a.multiply(&b, 4).map(|c| mirrored(&c)));
}

#[test]
fn p5_integral() {
    assert_eq!(Model::constant(S).integrate(), Ok(model(&[S, S], 1)));
}

#[test]
fn p6_evaluation() {
    assert_eq!(term(2, S).evaluate(HALF), Ok(Bounds { low: -524289, high: -524287 }));
}

#[test]
fn p7_quotient() {
    let third = Candidate::constant(349525);
    let found = quotient(&Model::constant(S), &Model::constant(3 * S), &third, &third);
    assert_eq!(found, Ok(Certificate { model: third.with_radius(2), m: 1, n: 1, b: 1 }));
}

#[test]
fn p8_to_p10_roots() {
    let (h, w) = (Candidate::constant(2 * S), Candidate::constant(S / 4));
    let found = root(&Model::constant(2097152), &h, &w).unwrap();
    assert_eq!(found.model, h.with_radius(S));
    assert_eq!(root(&Model::constant(2097151), &h, &w), Err(Refusal::NegativeDiscriminant));
    assert_eq!(root(&Model::constant(S), &h, &w), Err(Refusal::NegativeDiscriminant));
}

/// By the root test, and by the tighter one.
type BothRoots = (Result<i32, Refusal>, Result<i32, Refusal>);

/// Constants f with its radius, h and w, put to both root tests: their radii or refusals.
fn both_roots(f: i32, e: i32, h: i32, w: i32) -> BothRoots {
    let (f, h, w) = (model(&[f], e), Candidate::constant(h), Candidate::constant(w));
    let radius = |found: Result<Certificate, Refusal>| {
        found.map(|certificate| {
            assert_eq!(certificate.model, h.with_radius(certificate.model.radius()));
            certificate.model.radius()
        })
    };
    let (former, tighter) = (root(&f, &h, &w), tight_root(&f, &h, &w));
    if let (Ok(former), Ok(tighter)) = (former, tighter) {
        assert_eq!((former.m, former.n, former.b), (tighter.m, tighter.n, tighter.b));
    }
    (radius(former), radius(tighter))
}

/// Document 02, S-22: the least radius, and candidates that only the root test accepts.
#[test]
fn tighter_roots() {
    let (none, negative) = (Err(Refusal::NoRadius), Err(Refusal::NegativeDiscriminant));
    assert_eq!(both_roots(4 * S, 0, 2 * S, S / 4), (Ok(0), Ok(0)));
    assert_eq!(both_roots(4 * S, 0, 2 * S + 100, S / 4), (Ok(203), Ok(102)));
    assert_eq!(both_roots(2 * S, 0, 2 * S, S / 4), (Ok(S), Ok(S)));
    assert_eq!(both_roots(2 * S - 1, 0, 2 * S, S / 4), (negative, none));
    // The least radius is (S − m)·S/(4·M) rounded up.
    assert_eq!(both_roots(6366, 3182, 81708, 716408).1, Ok(40854));
    assert_eq!(both_roots(15783, 0, 133844, 5908123).1, Ok(26129));
    // It is S, and with b one more there is none.
    assert_eq!(both_roots(6553600, 3 * S, 5 * HALF, 1), (Ok(1258292), Ok(S)));
    assert_eq!(both_roots(6553600, 3 * S + 1, 5 * HALF, 1), (negative, none));
    // b·S² is 2^64.
    assert_eq!(both_roots(4, 1 << 16, 2048, 1 << 28), (negative, none));
    assert_eq!(both_roots(224 * S, 0, 16 * S, S / 32), (Ok(2 * S), none));
    assert_eq!(both_roots(116509, 0, 349526, 18), (Ok(174763), none));
}

#[test]
fn p11_empty_job() {
    assert_eq!(check(&[]), Err(RefusedJob { refusal: Refusal::JobEnds, command: 0 }));
}

#[test]
fn borders() {
    assert!(term(31, 32).integrate().is_ok());
    assert_eq!(term(32, 32).integrate(), Err(Refusal::LargeResult));
    assert!(Model::constant(LIMIT).add(&Model::ZERO).is_ok());
    assert_eq!(Model::constant(LIMIT + 1).add(&Model::ZERO), Err(Refusal::BadModel));
    assert!(term(1, S).evaluate(S).is_ok());
    assert_eq!(term(1, S).evaluate(S + 1), Err(Refusal::PointOutside));
    assert!(term(1, S).evaluate(-S).is_ok());
    assert_eq!(term(1, S).evaluate(-S - 1), Err(Refusal::PointOutside));
}

#[test]
fn sum_and_difference() {
    let (a, b) = (model(&[5, -7, 2], 3), model(&[1, 1], 4));
    assert_eq!(a.add(&b), Ok(model(&[6, -6, 2], 7)));
    assert_eq!(a.subtract(&b), Ok(model(&[4, -8, 2], 7)));
}

/// A series of this degree from its nonzero coefficients.
fn series(degree: i32, powers: &[(usize, i32)]) -> Series {
    let mut coefficients = [0; COEFFICIENTS];
    for &(k, p) in powers {
        coefficients[k] = p;
    }
    Series::new(degree, coefficients)
}

/// x² = (T_0 + T_2)/2, x³ = (3·T_1 + T_3)/4; the degree stays when the top rounds to zero.
#[test]
fn models_of_series() {
    let of = Model::from_series;
    assert_eq!(of(&series(0, &[])), Ok(Model::ZERO));
    assert_eq!(of(&series(1, &[(0, 5), (1, -7)])), Ok(model(&[5, -7], 0)));
    assert_eq!(of(&series(2, &[(2, 2 * S)])), Ok(model(&[S, 0, S], 0)));
    assert_eq!(of(&series(3, &[(0, S), (3, -4 * S)])), Ok(model(&[S, -3 * S, 0, -S], 0)));
    assert_eq!(of(&series(4, &[(2, 2 * S)])), Ok(model(&[S, 0, S, 0, 0], 0)));
    assert_eq!(of(&series(3, &[(3, 1)])), Ok(model(&[0, 1, 0, 0], 1)));
    // x^32 without ties: its weight of T_32 is 2^-31, far below half a unit.
    let top = of(&series(32, &[(32, S + 1)])).unwrap();
    assert_eq!((top.degree(), top.coefficients()[32]), (32, 0));
    assert!(top.radius() > 0);
}

#[test]
fn refusals_of_series() {
    let of = Model::from_series;
    for degree in [-1, MAX_DEGREE as i32 + 1, i32::MIN, i32::MAX] {
        assert_eq!(of(&series(degree, &[])), Err(Refusal::BadSeries));
    }
    assert_eq!(of(&series(31, &[(32, 1)])), Err(Refusal::BadSeries));
    assert_eq!(of(&series(32, &[(0, LIMIT), (32, -1)])), Err(Refusal::BadSeries));
    assert_eq!(of(&series(32, &[(0, i32::MIN)])), Err(Refusal::BadSeries));
    assert!(of(&series(1, &[(0, LIMIT - 1), (1, -1)])).is_ok());
    // Weights that grow past the limit by rounding alone, whichever way ties go; their neighbours.
    let grown = [(14, -152), (31, 268435304)];
    assert_eq!(of(&series(31, &grown)), Err(Refusal::LargeResult));
    assert_eq!(of(&series(30, &grown)), Err(Refusal::BadSeries));
    assert!(of(&series(31, &[(14, -152), (31, 268435303)])).is_ok());
    assert_eq!(of(&series(29, &[(0, 199), (29, LIMIT - 199)])), Err(Refusal::LargeResult));
    assert_eq!(of(&series(29, &[(0, 200), (29, LIMIT - 199)])), Err(Refusal::BadSeries));
    assert!(of(&series(29, &[(0, 197), (29, LIMIT - 199)])).is_ok());
}

#[test]
fn numbers_of_series() {
    let curve = series(2, &[(0, 5), (2, -6)]);
    assert_eq!(Series::from_numbers(*curve.numbers()), curve);
    assert_eq!((curve.degree(), curve.coefficients()[2]), (2, -6));
}

#[test]
fn example_job() {
    let checked = check(&example()).unwrap();
    assert_eq!(checked.count(), 2);
    let results: Vec<Model> = checked.results().collect();
    assert_eq!(results, [Model::constant(4 * S), Model::constant(2 * S)]);
    assert_eq!(checked.result(1).unwrap().radius(), 0);
    assert_eq!(checked.result(2), None);
}

#[test]
fn job_without_results() {
    assert_eq!(check(&job(&[])).unwrap().count(), 0);
}

// ---- Refusals ----

#[test]
fn numbers_of_refusals() {
    assert_eq!(Refusal::ALL.map(Refusal::number), core::array::from_fn(|i| i as u32 + 1));
    for refusal in Refusal::ALL {
        assert_eq!(Refusal::from_number(refusal.number()), Some(refusal));
    }
    for number in [0, 21, 255, u32::MAX] {
        assert_eq!(Refusal::from_number(number), None);
    }
}

/// The header's name of a refusal is the wrapper's in capitals; sizes and limits agree too.
#[test]
fn header_agrees() {
    let header = include_str!("../include/ferruntzo.h");
    for refusal in Refusal::ALL {
        let mut name = std::string::String::from("FERRUNTZO");
        for letter in format!("{refusal:?}").chars() {
            if letter.is_uppercase() {
                name.push('_');
            }
            name.extend(letter.to_uppercase());
        }
        let line = format!(" {name} = {}", refusal.number());
        let found = header.split_once(&line).unwrap_or_else(|| panic!("no{line}")).1;
        assert!(!found.starts_with(|c: char| c.is_ascii_digit()), "{line}");
    }
    let constants = [
        ("S", S as usize),
        ("MAX_DEGREE", MAX_DEGREE),
        ("MAX_WEIGHT", LIMIT as usize),
        ("MAX_RADIUS", LIMIT as usize),
        ("MAX_END", LIMIT as usize),
        ("MAX_RESIDUAL", LIMIT as usize),
        ("MAX_RESULTS", MAX_RESULTS),
        ("MODEL_SIZE", MODEL_SIZE),
        ("CANDIDATE_SIZE", CANDIDATE_SIZE),
        ("PROPOSAL_SIZE", PROPOSAL_SIZE),
        ("SERIES_SIZE", SERIES_SIZE),
        ("BOUNDS_SIZE", BOUNDS_SIZE),
        ("SCRATCH_SIZE", SCRATCH_SIZE),
        ("NUMBERS_SIZE", NUMBERS_SIZE),
        ("WORK_SIZE", WORK_SIZE),
        ("ANSWER_SIZE", ANSWER_SIZE),
        ("MAX_JOB_BYTES", MAX_JOB_BYTES),
        ("WORKSHOP_RECORD", WORKSHOP_RECORD),
        ("SERVICE_RECORD", SERVICE_RECORD),
        ("WORKSHOP_ROOM", WORKSHOP_ROOM),
        ("SERVICE_ROOM", SERVICE_ROOM),
        ("SELECTION_SIZE", SELECTION_SIZE),
        ("VALUES_SIZE", VALUES_SIZE),
        ("RECIPROCAL_RECORD_SIZE", RECIPROCAL_RECORD_SIZE),
        ("QUOTIENT_RECORD_SIZE", QUOTIENT_RECORD_SIZE),
        ("OUTCOME_SIZE", OUTCOME_SIZE),
        ("CHOSEN_FIRST", Chosen::First as usize),
        ("CHOSEN_SECOND", Chosen::Second as usize),
        ("COEFFICIENTS", COEFFICIENTS),
        ("PLACE_RADIUS", RADIUS),
        ("PLACE_LOWER", LOWER),
        ("PLACE_UPPER", UPPER),
        ("DEFAULT_KEPT", DEFAULT_KEPT as usize),
    ];
    for (name, value) in constants {
        let start = format!("#define FERRUNTZO_{name} ");
        let line = header.lines().find(|line| line.starts_with(&start)).expect(name);
        let found = line[start.len()..].split_whitespace().next().unwrap();
        assert_eq!(found.parse(), Ok(value), "{name}");
    }
}

#[test]
fn refusals_of_operations() {
    let (one, large) = (Model::constant(S), Model::constant(LIMIT));
    let bad = Model::new(0, *term(1, S).coefficients().first_chunk().unwrap(), 0);
    assert_eq!(one.add(&bad), Err(Refusal::BadModel));
    assert_eq!(one.subtract(&model(&[S], -1)), Err(Refusal::BadModel));
    for degree in [-1, MAX_DEGREE as i32 + 1] {
        assert_eq!(one.add(&Model::new(degree, [0; COEFFICIENTS], 0)), Err(Refusal::BadModel));
    }
    assert_eq!(one.add(&Model::constant(i32::MIN)), Err(Refusal::BadModel));
    assert_eq!(large.add(&one), Err(Refusal::LargeResult));
    assert_eq!(large.multiply(&large, 0), Err(Refusal::LargeResult));
    for kept in [33, 254, 256, u32::MAX] {
        assert_eq!(one.multiply(&one, kept), Err(Refusal::BadValue));
        assert_eq!(bad.multiply(&one, kept), Err(Refusal::BadModel));
    }
    for kept in [0, 32, DEFAULT_KEPT] {
        assert_eq!(one.multiply(&one, kept), Ok(one));
    }
}

#[test]
fn refusals_of_tests() {
    let (one, four) = (Model::constant(S), Model::constant(4 * S));
    let candidate = Candidate::constant;
    let (s, zero) = (candidate(S), candidate(0));
    let bad = Candidate::new(MAX_DEGREE as i32 + 1, [0; COEFFICIENTS]);
    assert_eq!(quotient(&one, &one, &s, &bad), Err(Refusal::BadModel));
    assert_eq!(quotient(&one, &one, &s, &zero), Err(Refusal::NotContracting));
    let f = Model::constant(-LIMIT);
    assert_eq!(quotient(&f, &one, &candidate(LIMIT), &s), Err(Refusal::LargeResidual));
    // f = 1, g = 2^-8 and h = 0: residual S, helper 2^8, radius 2^8·S is still within the limit.
    let (small, helper) = (Model::constant(S >> 8), candidate(S << 8));
    assert_eq!(quotient(&one, &small, &zero, &helper).unwrap().model.radius(), LIMIT);
    assert_eq!(quotient(&four, &small, &zero, &helper), Err(Refusal::LargeResult));

    let (h, w) = (candidate(2 * S), candidate(S / 4));
    for test in [root, tight_root] {
        let large = model(&[4 * S], LIMIT + 1);
        assert_eq!(test(&large, &h, &w), Err(Refusal::BadModel));
        assert_eq!(test(&four, &bad, &w), Err(Refusal::BadModel));
        assert_eq!(test(&four, &h, &candidate(LIMIT + 1)), Err(Refusal::BadModel));
        assert_eq!(test(&four, &h, &zero), Err(Refusal::HelperNotPositive));
        assert_eq!(
            test(&four, &candidate(-2 * S), &candidate(-S / 4)),
            Err(Refusal::HelperNotPositive)
        );
        assert_eq!(test(&four, &h, &candidate(S)), Err(Refusal::NotContracting));
        assert_eq!(test(&f, &h, &w), Err(Refusal::LargeResidual));
    }
    assert_eq!(root(&one, &h, &w), Err(Refusal::NegativeDiscriminant));
    assert_eq!(tight_root(&one, &h, &w), Err(Refusal::NoRadius));
}

#[test]
fn refusals_of_jobs() {
    let four = load(4 * S, 0);
    assert_eq!(refused(&[0x10]), (9, 0));
    assert_eq!(refused(&[0x01]), (10, 0));
    for edition in [0, 3] {
        assert_eq!(refused(&[0x01, edition]), (9, 0));
    }
    for edition in [1, 2] {
        assert_eq!(refused(&[0x01, edition]), (10, 1));
    }
    assert_eq!(refused(&job(&[&[0x01, 1]])), (9, 1));
    assert_eq!(refused(&job(&[&[0x23]])), (9, 1));
    assert_eq!(refused(&example()[..300]), (10, 2));
    assert_eq!(refused(&[&example()[..], &[0]].concat()), (11, 3));
    assert_eq!(refused(&job(&[&four, &[0x11, 0, 1]])), (12, 2));
    assert_eq!(refused(&job(&[&four, &[0x13, 0, 1, 33]])), (9, 2));
    let many: Vec<&[u8]> = vec![&four; 33];
    assert_eq!(refused(&job(&many)), (13, 33));
    assert_eq!(check(&job(&many[..32])).unwrap().count(), 32);
    assert_eq!(refused(&job(&[&load(LIMIT + 1, 0)])), (2, 1));
    assert_eq!(refused(&job(&[&load(S, u32::MAX)])), (2, 1));
    assert_eq!(refused(&job(&[&load(LIMIT, 0), &[0x11, 0, 0]])), (3, 2));
    assert_eq!(refused(&job(&[&four, &root_of(0, -2 * S, -S / 4)])), (7, 2));
    assert_eq!(refused(&job(&[&four, &root_of(0, 2 * S, S)])), (5, 2));
    assert_eq!(refused(&job(&[&load(-LIMIT, 0), &root_of(0, 2 * S, S / 4)])), (6, 2));
    assert_eq!(refused(&job(&[&load(S, 0), &root_of(0, 2 * S, S / 4)])), (8, 2));
}

/// The tighter root test in jobs: beside the root test, as the 32nd and the 33rd result, and each refusal.
#[test]
fn tighter_roots_in_jobs() {
    let (four, passes) = (load(4 * S, 0), tight_root_of(0, 2 * S + 100, S / 4));
    let former = root_of(0, 2 * S + 100, S / 4);
    let checked = check(&job(&[&four, &former, &passes, &[0x12, 1, 2]])).unwrap();
    let radii: Vec<i32> = checked.results().map(|result| result.radius()).collect();
    assert_eq!(radii, [0, 203, 102, 305]);
    assert_eq!(checked.result(2), Some(model(&[2 * S + 100], 102)));

    let many: Vec<&[u8]> = [vec![&four[..]], vec![&passes[..]; 32]].concat();
    assert_eq!(check(&job(&many[..32])).unwrap().count(), 32);
    assert_eq!(refused(&job(&many)), (13, 33));

    let large = [load(224 * S, 0), root_of(0, 16 * S, S / 32)].concat();
    assert_eq!(check(&job(&[&large])).unwrap().count(), 2);
    assert_eq!(refused(&job(&[&large, &tight_root_of(0, 16 * S, S / 32)])), (17, 3));
    assert_eq!(refused(&job(&[&load(S, 0), &tight_root_of(0, 2 * S, S / 4)])), (17, 2));
    assert_eq!(refused(&job(&[&load(-LIMIT, 0), &tight_root_of(0, 2 * S, S / 4)])), (6, 2));
    assert_eq!(refused(&job(&[&four, &tight_root_of(0, 2 * S, S)])), (5, 2));
    assert_eq!(refused(&job(&[&four, &tight_root_of(0, -2 * S, -S / 4)])), (7, 2));
    assert_eq!(refused(&job(&[&four, &tight_root_of(0, LIMIT + 1, S / 4)])), (2, 2));
    assert_eq!(refused(&job(&[&four, &tight_root_of(1, 2 * S, S / 4)])), (12, 2));
    let whole = job(&[&four, &passes]);
    assert_eq!(refused(&whole[..whole.len() - 2]), (10, 2));
}

// ---- Areas ----

/// What stands in every area that is written, before a call.
const MARK: i32 = -77;
const WIDE: i64 = -77;
const LONG: u64 = 77;

/// None, one, one too few, as many as needed, two more.
fn lengths(size: usize) -> [usize; 5] {
    [0, 1, size - 1, size, size + 2]
}

/// The numbers of an area that a call leaves at zero: those of its size, if it has them.
fn zeroed<T: Copy + Default>(before: T, length: usize, size: usize) -> Vec<T> {
    let zeros = if length < size { 0 } else { size };
    (0..length).map(|i| if i < zeros { T::default() } else { before }).collect()
}

/// The first numbers of a model in an area of any length.
fn held(model: &Model, length: usize) -> Vec<i32> {
    model.numbers().iter().copied().chain([MARK; 2]).take(length).collect()
}

/// Refused with 1 exactly if an area is short, and after every refusal zeros where there is room.
#[test]
fn areas_of_operations() {
    let one = Model::constant(S);
    for (a_len, b_len, out_len) in every_length() {
        let (a, b) = (held(&one, a_len), held(&one, b_len));
        let unary = a_len < MODEL_SIZE || out_len < MODEL_SIZE;
        let binary = unary || b_len < MODEL_SIZE;
        let call = |short: bool, otherwise, f: &dyn Fn(&mut [i32]) -> Result<(), Refusal>| {
            let mut out = vec![MARK; out_len];
            let expected = if short { Err(Refusal::ShortArea) } else { otherwise };
            assert_eq!(f(&mut out), expected);
            if expected.is_err() {
                assert_eq!(out, zeroed(MARK, out_len, MODEL_SIZE));
            } else {
                assert_eq!(out[MODEL_SIZE..], vec![MARK; out_len - MODEL_SIZE]);
            }
        };
        call(binary, Ok(()), &|out| areas::add(&a, &b, out));
        call(binary, Ok(()), &|out| areas::subtract(&a, &b, out));
        call(binary, Ok(()), &|out| areas::multiply(&a, &b, 0, out));
        call(binary, Err(Refusal::BadValue), &|out| areas::multiply(&a, &b, 999, out));
        call(unary, Ok(()), &|out| areas::integrate(&a, out));
    }
}

#[test]
fn areas_of_series() {
    let (good, bad) = (series(2, &[(2, 2 * S)]), series(33, &[]));
    for series_len in lengths(SERIES_SIZE) {
        for out_len in lengths(MODEL_SIZE) {
            for (lent, otherwise) in [(&good, Ok(())), (&bad, Err(Refusal::BadSeries))] {
                let numbers = lent.numbers().iter().copied().chain([MARK; 2]);
                let area: Vec<i32> = numbers.take(series_len).collect();
                let mut out = vec![MARK; out_len];
                let short = series_len < SERIES_SIZE || out_len < MODEL_SIZE;
                let expected = if short { Err(Refusal::ShortArea) } else { otherwise };
                assert_eq!(areas::from_series(&area, &mut out), expected);
                if expected.is_err() {
                    assert_eq!(out, zeroed(MARK, out_len, MODEL_SIZE));
                } else {
                    assert_eq!(out[..MODEL_SIZE], *model(&[S, 0, S], 0).numbers());
                    assert_eq!(out[MODEL_SIZE..], vec![MARK; out_len - MODEL_SIZE]);
                }
            }
        }
    }
}

/// Every length around the size of a model, for three areas.
fn every_length() -> impl Iterator<Item = (usize, usize, usize)> {
    let each = || lengths(MODEL_SIZE).into_iter();
    each().flat_map(move |a| each().flat_map(move |b| each().map(move |c| (a, b, c))))
}

#[test]
fn areas_of_evaluation() {
    for a_len in lengths(MODEL_SIZE) {
        for bounds_len in lengths(BOUNDS_SIZE) {
            let mut bounds = vec![WIDE; bounds_len];
            let found = areas::evaluate(&held(&Model::constant(S), a_len), S + 1, &mut bounds);
            let short = a_len < MODEL_SIZE || bounds_len < BOUNDS_SIZE;
            let expected = if short { Refusal::ShortArea } else { Refusal::PointOutside };
            assert_eq!(found, Err(expected));
            assert_eq!(bounds, zeroed(WIDE, bounds_len, BOUNDS_SIZE));
        }
    }
}

/// Areas of a quotient: f, g, h, w, scratch, out, numbers; a root has no g.
const SIZES: [usize; 7] = [
    MODEL_SIZE,
    MODEL_SIZE,
    CANDIDATE_SIZE,
    CANDIDATE_SIZE,
    SCRATCH_SIZE,
    MODEL_SIZE,
    NUMBERS_SIZE,
];

/// The tests that take these areas.
#[derive(Clone, Copy, Debug, PartialEq)]
enum Test {
    Quotient,
    Root,
    TightRoot,
}

/// A test of f = 1 and h = w = 1 (refused with 5 as a root) or w = 0, over areas of these lengths.
fn call_test(test: Test, lengths: [usize; 7]) {
    let (one, zero) = (Model::constant(S), Model::ZERO);
    let root = test != Test::Quotient;
    let (f, g) = (held(&one, lengths[0]), held(&one, lengths[1]));
    let (h, w) = (held(&one, lengths[2]), held(if root { &one } else { &zero }, lengths[3]));
    let (mut scratch, mut out) = (vec![WIDE; lengths[4]], vec![MARK; lengths[5]]);
    let mut numbers = vec![LONG; lengths[6]];
    let found = match test {
        Test::Quotient => areas::quotient(&f, &g, &h, &w, &mut scratch, &mut out, &mut numbers),
        Test::Root => areas::root(&f, &h, &w, &mut scratch, &mut out, &mut numbers),
        Test::TightRoot => areas::tight_root(&f, &h, &w, &mut scratch, &mut out, &mut numbers),
    };
    let short = (0..7).any(|i| lengths[i] < SIZES[i] && !(root && i == 1));
    let expected = if short { Refusal::ShortArea } else { Refusal::NotContracting };
    assert_eq!(found, Err(expected), "{test:?}, lengths {lengths:?}");
    assert_eq!(scratch, zeroed(WIDE, lengths[4], SCRATCH_SIZE), "lengths {lengths:?}");
    assert_eq!(out, zeroed(MARK, lengths[5], MODEL_SIZE), "lengths {lengths:?}");
    assert_eq!(numbers, zeroed(LONG, lengths[6], NUMBERS_SIZE), "lengths {lengths:?}");
}

#[test]
fn areas_of_tests() {
    for test in [Test::Quotient, Test::Root, Test::TightRoot] {
        for i in 0..7 {
            for j in 0..7 {
                for first in lengths(SIZES[i]) {
                    for second in lengths(SIZES[j]) {
                        let mut told = SIZES;
                        told[i] = first;
                        told[j] = second;
                        call_test(test, told);
                    }
                }
            }
        }
    }
}

#[test]
fn areas_of_check() {
    for work_len in lengths(WORK_SIZE) {
        for scratch_len in lengths(SCRATCH_SIZE) {
            for answer_len in lengths(ANSWER_SIZE) {
                let (mut work, mut scratch) = (vec![MARK; work_len], vec![WIDE; scratch_len]);
                let mut answer = vec![9u32; answer_len];
                let job = &example()[..example().len() - 1];
                let found = areas::check(job, &mut work, &mut scratch, &mut answer);
                if work_len < WORK_SIZE || scratch_len < SCRATCH_SIZE || answer_len < ANSWER_SIZE {
                    assert_eq!(found, Err(Refusal::ShortArea));
                    assert_eq!((work, scratch), (vec![MARK; work_len], vec![WIDE; scratch_len]));
                    assert_eq!(answer, zeroed(9, answer_len, ANSWER_SIZE));
                } else {
                    assert_eq!(found, Err(Refusal::JobEnds));
                    assert_eq!(work, zeroed(MARK, work_len, WORK_SIZE));
                    assert_eq!(scratch, zeroed(WIDE, scratch_len, SCRATCH_SIZE));
                    assert_eq!(answer[..ANSWER_SIZE], [0, 3]);
                    assert_eq!(answer[ANSWER_SIZE..], vec![9; answer_len - ANSWER_SIZE]);
                }
            }
        }
    }
}

/// Around the size of the scratch, and around 65, which it had before version 3.0.0.
#[test]
fn areas_of_accepted_calls() {
    for scratch_len in [SCRATCH_SIZE, SCRATCH_SIZE + 1, 64, 65, 66] {
        call_accepted(scratch_len);
    }
}

/// An accepted job and a root that both tests accept: what they answer, scratch zero, numbers behind as they were.
fn call_accepted(scratch_len: usize) {
    let mut scratch = vec![WIDE; scratch_len];
    let (mut work, mut answer) = (vec![MARK; WORK_SIZE + 3], [9u32; ANSWER_SIZE + 1]);
    assert_eq!(areas::check(&example(), &mut work, &mut scratch, &mut answer), Ok(()));
    assert_eq!(answer, [2, 0, 9]);
    assert_eq!(work[..MODEL_SIZE], *Model::constant(4 * S).numbers());
    assert_eq!(work[MODEL_SIZE..2 * MODEL_SIZE], *Model::constant(2 * S).numbers());
    assert_eq!(work[2 * MODEL_SIZE..WORK_SIZE], vec![0; WORK_SIZE - 2 * MODEL_SIZE]);
    assert_eq!(work[WORK_SIZE..], [MARK; 3]);
    assert_eq!(scratch, zeroed(WIDE, scratch_len, SCRATCH_SIZE));

    for test in [areas::root, areas::tight_root] {
        scratch.fill(WIDE);
        let (mut out, mut numbers) = (vec![MARK; MODEL_SIZE + 1], [LONG; NUMBERS_SIZE + 1]);
        let (f, h, w) =
            (Model::constant(2 * S), Candidate::constant(2 * S), Candidate::constant(S / 4));
        assert_eq!(test(&f.0, &h.0, &w.0, &mut scratch, &mut out, &mut numbers), Ok(()));
        assert_eq!(out[..MODEL_SIZE], *h.with_radius(S).numbers());
        assert_eq!((out[MODEL_SIZE], numbers[NUMBERS_SIZE]), (MARK, LONG));
        assert_eq!(numbers[..NUMBERS_SIZE], [0, 2 * S as u64, S as u64 / 2]);
        assert_eq!(scratch, zeroed(WIDE, scratch_len, SCRATCH_SIZE));
    }
}

#[test]
fn texts() {
    assert_eq!(format!("{}", Refusal::BadModel), "refused 2: bad model or candidate");
    let text = format!("{}", check(&[]).unwrap_err());
    assert_eq!(text, "refused 10: the job ends early (command 0)");
    let text = format!("{}", Refusal::NoRadius);
    assert_eq!(text, "refused 17: no radius satisfies the tighter root test");
}
