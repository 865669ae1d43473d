//! Editions: the kept degree that is left open in calls and jobs of both, and the converter, with every length of its areas.
use super::*;

const OPEN: u8 = 0xFF;

/// A model of this degree, 2 and a little of every T_k.
fn polynomial(degree: usize) -> Model {
    let mut coefficients = [0; COEFFICIENTS];
    coefficients[..=degree].fill(S / 64);
    coefficients[0] = 2 * S;
    Model::new(degree as i32, coefficients, 3)
}

fn load_of(m: &Model) -> Vec<u8> {
    let radius = m.radius().to_le_bytes();
    [&[0x10], &block(m.degree() as u8, m.coefficients())[..], &radius].concat()
}

fn product_job(edition: u8, degrees: [usize; 2], kept: u8) -> Vec<u8> {
    let loads = degrees.map(|degree| load_of(&polynomial(degree)));
    [&[0x01, edition], &loads.concat()[..], &[0x13, 0, 1, kept], &[0x00]].concat()
}

/// 255 is the larger degree of the two factors, in a call and in a job of edition 2; 32 in one of edition 1.
#[test]
fn larger_degree() {
    for degrees in [[0, 0], [0, 7], [7, 0], [3, 5], [16, 16], [31, 2], [32, 32], [32, 0]] {
        let [a, b] = degrees.map(polynomial);
        let larger = degrees[0].max(degrees[1]);
        let product = a.multiply(&b, DEFAULT_KEPT).unwrap();
        assert_eq!(product.degree(), larger.min(degrees[0] + degrees[1]) as i32);
        assert_eq!(Ok(product), a.multiply(&b, larger as u32));
        let of = |edition, kept| check(&product_job(edition, degrees, kept)).unwrap().result(2);
        assert_eq!(of(2, OPEN), Some(product));
        assert_eq!(of(1, OPEN), a.multiply(&b, 32).ok());
        for kept in [0, 4, 32] {
            assert_eq!(of(1, kept), of(2, kept));
        }
    }
}

#[test]
fn editions_that_there_are() {
    for edition in 0..=255 {
        let (found, mut out) = (check(&[0x01, edition, 0x00]), [7; 3]);
        assert_eq!(found.is_ok(), edition == 1 || edition == 2, "edition {edition}");
        match convert_edition(&[0x01, edition, 0x00], &mut out) {
            Ok(converted) => assert_eq!(converted, [0x01, 3 - edition, 0x00]),
            Err(refused) => assert_eq!(Err(refused), found),
        }
    }
}

/// The kept degree that 0xFF stood for is stated, and nothing else changes but the edition; the checks agree.
#[test]
fn converted() {
    let mut out = [7; MAX_JOB_BYTES];
    for degrees in [[3, 5], [5, 3], [32, 32], [0, 0], [0, 31]] {
        for edition in [1, 2] {
            let job = product_job(edition, degrees, OPEN);
            let stated = if edition == 1 { 32 } else { degrees[0].max(degrees[1]) as u8 };
            let converted = convert_edition(&job, &mut out).unwrap().to_vec();
            assert_eq!(converted, product_job(3 - edition, degrees, stated));
            assert_eq!(check(&converted), check(&job));
            // Back: the edition alone.
            let back = convert_edition(&converted, &mut out).unwrap();
            assert_eq!(back, product_job(edition, degrees, stated));
        }
    }
    // 0xFF in a block, a radius and ends stays; a degree byte above 32 counts as 32.
    let filled = [&[0x01, 2, 0x14], &[0xFF; 145][..], &[0x13, 0, 0, OPEN, 0x00]].concat();
    let converted = convert_edition(&filled, &mut out).unwrap().to_vec();
    assert_eq!(converted, [&[0x01, 1, 0x14], &[0xFF; 145][..], &[0x13, 0, 0, 32, 0x00]].concat());
    assert_eq!(check(&converted), check(&filled));
}

/// The refusal is that of reading, of the whole job; models are not looked at.
#[test]
fn unread() {
    let mut high = job(&[&load(S, 0), &[0x7F]]);
    high[3] = 33;
    let mut out = [7; 200];
    assert_eq!(refused(&high), (2, 1));
    let found = convert_edition(&high, &mut out).unwrap_err();
    assert_eq!((found.refusal, found.command), (Refusal::BadValue, 2));
    assert_eq!(out, [0; 200]);
    let one = &load(S, 0)[..];
    for (commands, number, command) in [
        (&[one, &[0x13, 0, 0, 33]][..], 9, 2),
        // The end of the job is taken for the kept degree.
        (&[one, &[0x13, 0, 0]], 10, 3),
        (&[one, &[0x00]], 11, 2),
        (&[one, &[0x13, 0, 1, OPEN]], 12, 2),
        (&[one; 33], 13, 33),
    ] {
        out.fill(7);
        let found = convert_edition(&job(commands), &mut out).unwrap_err();
        assert_eq!((found.refusal.number(), found.command), (number, command));
        assert_eq!(out, [0; 200]);
    }
}

/// Every length of the output and of the answer around what is needed.
#[test]
fn areas_of_convert() {
    let whole = product_job(2, [1, 4], OPEN);
    let converted = product_job(1, [1, 4], 4);
    let cut = &whole[..whole.len() - 1];
    for job in [&whole[..], cut] {
        for out_len in [0, 1, job.len() - 1, job.len(), job.len() + 1, job.len() + 50] {
            for answer_len in lengths(ANSWER_SIZE) {
                let (mut out, mut answer) = (vec![7; out_len], vec![9u32; answer_len]);
                let found = areas::convert_edition(job, &mut out, &mut answer);
                let (expected, told) = match (answer_len < ANSWER_SIZE, job.len() == cut.len()) {
                    (true, _) => (Err(Refusal::ShortArea), [9, 9]),
                    (_, true) => (Err(Refusal::JobEnds), [0, 4]),
                    _ if out_len < job.len() => (Err(Refusal::ShortOutput), [0, 0]),
                    _ => (Ok(()), [job.len() as u32, 0]),
                };
                assert_eq!(found, expected, "lengths {out_len}, {answer_len}");
                let mut wanted = vec![9; answer_len];
                for (place, number) in wanted.iter_mut().zip(told) {
                    *place = number;
                }
                assert_eq!(answer, wanted);
                match found {
                    Ok(()) => {
                        assert_eq!(out[..job.len()], converted);
                        assert_eq!(out[job.len()..], vec![7; out_len - job.len()]);
                    }
                    Err(_) => assert_eq!(out, vec![0; out_len]),
                }
            }
        }
    }
}
