//! Two proposals for one quotient: which is chosen, that its coefficients are the caller's own, every refusal, every length.
use super::*;

/// A proposal of constants: h and w.
fn proposal(h: i32, w: i32) -> Vec<i32> {
    [*Candidate::constant(h).numbers(), *Candidate::constant(w).numbers()].concat()
}

/// For 1/2 with w = 1/2: the radius is how far h is off.
fn off_by(d: i32) -> Vec<i32> {
    proposal(HALF + d, HALF)
}

/// One proposal for each refusal of 1/2.
fn refused_proposals() -> [(Vec<i32>, Refusal); 5] {
    [
        (off_by(0)[..PROPOSAL_SIZE - 1].to_vec(), Refusal::ShortArea),
        (proposal(HALF, LIMIT + 1), Refusal::BadModel),
        (proposal(HALF, 0), Refusal::NotContracting),
        (off_by(LIMIT / 2 + 1), Refusal::LargeResidual),
        (proposal(HALF + 89478486, 3 * S / 4), Refusal::LargeResult),
    ]
}

fn one_over_two<'a>(first: &'a [i32], second: &'a [i32]) -> Result<Selection<'a>, Refusal> {
    quotient_of_two(&Model::constant(S), &Model::constant(2 * S), first, second)
}

/// The selection, whose coefficients must be the part of the proposal that is chosen.
fn chosen(first: &[i32], second: &[i32]) -> (Chosen, i32) {
    let found = one_over_two(first, second).unwrap();
    let proposal = if found.chosen == Chosen::First { first } else { second };
    assert_eq!(found.coefficients.as_ptr(), proposal[1..].as_ptr());
    assert_eq!(found.degree, proposal[0]);
    (found.chosen, found.radius)
}

#[test]
fn tighter_is_chosen() {
    for d in [0, 1, 7, S] {
        for sign in [1, -1] {
            let (one, other) = (off_by(d), off_by(sign * (d + 1)));
            assert_eq!(chosen(&one, &other), (Chosen::First, d));
            assert_eq!(chosen(&other, &one), (Chosen::Second, d));
            assert_eq!(chosen(&one, &off_by(sign * d)), (Chosen::First, d));
        }
        let same = off_by(d);
        assert_eq!(chosen(&same, &same), (Chosen::First, d));
    }
    // 2^28 is the largest radius.
    let widest = proposal(HALF + 89478485, 3 * S / 4);
    assert_eq!(chosen(&widest, &off_by(LIMIT / 2 + 1)), (Chosen::First, LIMIT));
}

/// Curves: 1/(2 + x) by a proposal of degree 7 and one of degree 11.
#[test]
fn model_of_selection() {
    let row = [605396, -324431, 86931, -23293, 6241, -1672, 448, -120, 32, -9, 2, -1];
    let of_degree = |n: usize| {
        let m = model(&row[..n + 1], 0);
        [&m.numbers()[..CANDIDATE_SIZE], &m.numbers()[..CANDIDATE_SIZE]].concat()
    };
    let (first, second) = (of_degree(7), of_degree(11));
    let (f, g) = (Model::constant(S), model(&[2 * S, S], 0));
    let found = quotient_of_two(&f, &g, &first, &second).unwrap();
    let candidate = Candidate::from_numbers(*second.first_chunk().unwrap());
    let alone = quotient(&f, &g, &candidate, &candidate).unwrap();
    assert_eq!((found.chosen, found.model()), (Chosen::Second, alone.model));
}

/// One that passes wins over each refusal; two refusals give the first's.
#[test]
fn refusals_of_two() {
    let passing = off_by(5);
    for (bad, refusal) in refused_proposals() {
        assert_eq!(chosen(&bad, &passing), (Chosen::Second, 5));
        assert_eq!(chosen(&passing, &bad), (Chosen::First, 5));
        for (other, _) in refused_proposals() {
            assert_eq!(one_over_two(&bad, &other), Err(refusal));
        }
    }
    for place in [0, CANDIDATE_SIZE] {
        let mut negative = off_by(0);
        negative[place] = -1;
        assert_eq!(one_over_two(&negative, &[]), Err(Refusal::BadModel));
        assert_eq!(chosen(&negative, &passing), (Chosen::Second, 5));
    }
}

/// A short proposal fails with 1 even where f or g is bad, and the other with 2.
#[test]
fn short_beside_bad_models() {
    let (one, bad) = (Model::constant(S), Model::constant(LIMIT + 1));
    let (long, short) = (off_by(0), &off_by(0)[..CANDIDATE_SIZE]);
    for (f, g) in [(&one, &bad), (&bad, &one)] {
        assert_eq!(quotient_of_two(f, g, short, &long), Err(Refusal::ShortArea));
        assert_eq!(quotient_of_two(f, g, &long, short), Err(Refusal::BadModel));
    }
}

#[test]
fn lengths_of_proposals() {
    let numbers = |d: i32, length: usize| -> Vec<i32> {
        off_by(d).into_iter().chain([MARK; 9]).take(length).collect()
    };
    let every = [0, 1, CANDIDATE_SIZE, PROPOSAL_SIZE - 1, PROPOSAL_SIZE, PROPOSAL_SIZE + 1, 77];
    for first_len in every {
        for second_len in every {
            let (first, second) = (numbers(2, first_len), numbers(1, second_len));
            if second_len >= PROPOSAL_SIZE {
                assert_eq!(chosen(&first, &second), (Chosen::Second, 1));
            } else if first_len >= PROPOSAL_SIZE {
                assert_eq!(chosen(&first, &second), (Chosen::First, 2));
            } else {
                assert_eq!(one_over_two(&first, &second), Err(Refusal::ShortArea));
            }
        }
    }
}

/// A call of [`areas::quotient_of_two`] for 1/2 over f, g, scratch and answer of these lengths.
fn call_two(first: &[i32], second: &[i32], lengths: [usize; 4], otherwise: Result<u32, Refusal>) {
    let [f_len, g_len, scratch_len, answer_len] = lengths;
    let (f, g) = (held(&Model::constant(S), f_len), held(&Model::constant(2 * S), g_len));
    let (mut scratch, mut answer) = (vec![WIDE; scratch_len], vec![9u32; answer_len]);
    let (tested, part) = areas::quotient_of_two(&f, &g, first, second, &mut scratch, &mut answer);
    let fit = f_len >= MODEL_SIZE && g_len >= MODEL_SIZE && scratch_len >= SCRATCH_SIZE;
    let expected =
        if fit && answer_len >= SELECTION_SIZE { otherwise } else { Err(Refusal::ShortArea) };
    assert_eq!(tested, expected.map(|_| ()), "lengths {lengths:?}");
    assert_eq!(scratch, zeroed(WIDE, scratch_len, SCRATCH_SIZE), "lengths {lengths:?}");
    match expected {
        Ok(radius) => {
            assert_eq!((part.as_ptr(), part.len()), (second[1..].as_ptr(), COEFFICIENTS));
            assert_eq!(answer[..SELECTION_SIZE], [Chosen::Second as u32, radius]);
            assert_eq!(answer[SELECTION_SIZE..], vec![9; answer_len - SELECTION_SIZE]);
        }
        Err(_) => {
            assert_eq!((part.as_ptr(), part.len()), (first.as_ptr(), 0));
            assert_eq!(answer, zeroed(9, answer_len, SELECTION_SIZE), "lengths {lengths:?}");
        }
    }
}

/// Two proposals, and the radius of the second or the refusal.
type Call<'a> = (&'a [i32], &'a [i32], Result<u32, Refusal>);

#[test]
fn areas_of_two() {
    let sizes = [MODEL_SIZE, MODEL_SIZE, SCRATCH_SIZE, SELECTION_SIZE];
    let (long, short) = (off_by(3), &off_by(3)[..PROPOSAL_SIZE - 1]);
    let calls: [Call; 6] = [
        (&off_by(4), &long, Ok(3)),
        (short, &long, Ok(3)),
        (&[], &long, Ok(3)),
        (short, short, Err(Refusal::ShortArea)),
        (&proposal(HALF, 0), short, Err(Refusal::NotContracting)),
        (&proposal(LIMIT + 1, HALF), &[], Err(Refusal::BadModel)),
    ];
    for (first, second, otherwise) in calls {
        for i in 0..4 {
            for j in 0..4 {
                for one in lengths(sizes[i]) {
                    for other in lengths(sizes[j]) {
                        let mut told = sizes;
                        told[i] = one;
                        told[j] = other;
                        call_two(first, second, told, otherwise);
                    }
                }
            }
        }
    }
}
