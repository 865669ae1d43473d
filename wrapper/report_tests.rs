//! Report records: every field beside the library's own answers, every length of the areas, refusals, pairs of jobs.
use super::*;

type Lent = fn(&[u8], &mut [i32], &mut [i64], &mut [u8], &mut [u32]) -> Result<(), Refusal>;

/// Both readings: the call, the bytes of a record, and the place of its radius.
const READINGS: [(Lent, usize, usize); 2] =
    [(areas::check_workshop, WORKSHOP_RECORD, 2), (areas::check_service, SERVICE_RECORD, 14)];

fn quotient_of(results: [u8; 2], h: (u8, i32), w: (u8, i32)) -> Vec<u8> {
    [&[0x20], &results[..], &block(h.0, &[h.1]), &block(w.0, &[w.1])].concat()
}

/// Two loads of 4, a quotient of degree 6, both roots, a sum: the tests with an m, an N and a b.
fn mixed() -> Vec<u8> {
    let (h, w) = ((6, S + 5), (9, S / 4 + 77));
    job(&[
        &load(4 * S, 3),
        &load(4 * S, 0x05),
        &quotient_of([0, 1], h, w),
        &root_of(1, 2 * S + 3, S / 4 + 11),
        &tight_root_of(1, 2 * S + 3, S / 4 + 11),
        &[0x11, 2, 4],
    ])
}

fn reports(job: &[u8]) -> ([u8; WORKSHOP_ROOM], [u8; SERVICE_ROOM], CheckedJob) {
    let (mut workshop, mut service) = ([7; WORKSHOP_ROOM], [7; SERVICE_ROOM]);
    let checked = check(job).unwrap();
    assert_eq!(check_workshop(job, &mut workshop).as_ref(), Ok(&checked));
    assert_eq!(check_service(job, &mut service).as_ref(), Ok(&checked));
    (workshop, service, checked)
}

/// Records have number, degree and radius of each result, and the numbers of its test.
#[test]
fn fields() {
    let (workshop, service, checked) = reports(&mixed());
    let [f, g] = [0, 1].map(|i| checked.result(i).unwrap());
    let candidate = |degree, c| {
        let mut coefficients = [0; COEFFICIENTS];
        coefficients[0] = c;
        Candidate::new(degree, coefficients)
    };
    let quotient = quotient(&f, &g, &candidate(6, S + 5), &candidate(9, S / 4 + 77)).unwrap();
    let (h, w) = (candidate(0, 2 * S + 3), candidate(0, S / 4 + 11));
    let tests = [None, None, Some(quotient), root(&g, &h, &w).ok(), tight_root(&g, &h, &w).ok()];
    for i in 0..MAX_RESULTS {
        let short = WorkshopRecord::of_result(&workshop, i).unwrap();
        let long = ServiceRecord::of_result(&service, i).unwrap();
        let model = checked.result(i);
        let told = model.map_or((0, 0, 0), |m| (i as u8, m.degree() as u8, m.radius() as u32));
        assert_eq!((short.number, short.degree, short.radius), told);
        assert_eq!((long.number, long.degree, long.radius), told);
        let [m, n, b] = tests.get(i).copied().flatten().map_or([0; 3], |t| [t.m, t.n, t.b]);
        assert_eq!([m, n, b], [long.m, long.n, long.b].map(u64::from), "result {i}");
    }
    assert_eq!(WorkshopRecord::of_result(&workshop, MAX_RESULTS), None);
    assert_eq!(ServiceRecord::of_result(&service, MAX_RESULTS), None);
    let m = ServiceRecord::of_result(&service, 2).unwrap().m;
    assert!(m > 255 && quotient.n > 0 && quotient.b > 0);
}

/// Little-endian, at the places of the header.
#[test]
fn bytes() {
    let service: [u8; SERVICE_RECORD] = core::array::from_fn(|i| i as u8 + 1);
    let workshop: [u8; WORKSHOP_RECORD] = core::array::from_fn(|i| i as u8 + 1);
    let [m, n, b, radius] = [0x06050403, 0x0A090807, 0x0E0D0C0B, 0x1211100F];
    let read = ServiceRecord { number: 1, degree: 2, m, n, b, radius };
    assert_eq!(ServiceRecord::from_bytes(&service), read);
    let read = WorkshopRecord { number: 1, degree: 2, radius: m };
    assert_eq!(WorkshopRecord::from_bytes(&workshop), read);
}

/// No result, and 32: the last record ends where the room does.
#[test]
fn counts() {
    for edition in [1, 2] {
        for count in [0, 1, 2, 31, 32] {
            let loads: Vec<_> = (0..count).flat_map(|i| load(S, 0x0F000001 + i)).collect();
            let job = [&[0x01, edition], &loads[..], &[0x00]].concat();
            let (workshop, service, checked) = reports(&job);
            assert_eq!(checked.count() as u32, count);
            assert_eq!(workshop.iter().skip(6 * count as usize).max().unwrap_or(&0), &0);
            assert_eq!(service.iter().skip(18 * count as usize).max().unwrap_or(&0), &0);
            if count == 32 {
                assert_eq!(workshop[186..], [31, 0, 32, 0, 0, 0x0F]);
                assert_eq!(service[572..], [32, 0, 0, 0x0F]);
            }
        }
    }
}

/// A refused job has its refusal and command, and no record.
#[test]
fn refusals() {
    let mixed = mixed();
    let behind = mixed.len() - 1;
    for (tail, number) in [
        (&[0x7F][..], 9),
        (&[0x11, 0], 10),
        (&[0x00, 0x00], 11),
        (&[0x11, 0, 6], 12),
        (&load(S, 0).repeat(27), 13),
        (&load(LIMIT, 1 << 29), 2),
        (&[&load(LIMIT, 0)[..], &[0x11, 6, 6]].concat(), 3),
        (&root_of(0, 2 * S, S), 5),
        (&root_of(0, -2 * S, -S / 4), 7),
    ] {
        let job = [&mixed[..behind], tail].concat();
        let (mut workshop, mut service) = ([7; WORKSHOP_ROOM], [7; SERVICE_ROOM]);
        let expected = check(&job).unwrap_err();
        assert_eq!(expected.refusal.number(), number);
        assert_eq!(check_workshop(&job, &mut workshop), Err(expected));
        assert_eq!(check_service(&job, &mut service), Err(expected));
        assert_eq!((workshop, service), ([0; WORKSHOP_ROOM], [0; SERVICE_ROOM]));
    }
}

/// Every length of each area around what is needed, after an accepted and a refused job.
#[test]
fn areas_of_reports() {
    let whole = mixed();
    for (call, record, radius) in READINGS {
        let size = MAX_RESULTS * record;
        for job in [&whole[..], &whole[..whole.len() - 1]] {
            for room_len in [0, 1, size - 1, size, size + 1, size + 50] {
                for (short, answer_len) in [(0, 2), (1, 2), (2, 2), (0, 1), (0, 3), (3, 0)] {
                    let mut work = vec![9; WORK_SIZE - (short & 1)];
                    let mut scratch = vec![9; SCRATCH_SIZE - (short >> 1)];
                    let (mut room, mut answer) = (vec![7; room_len], vec![9; answer_len]);
                    let found = call(job, &mut work, &mut scratch, &mut room, &mut answer);
                    if short != 0 || answer_len < ANSWER_SIZE || room_len < size {
                        assert_eq!(found, Err(Refusal::ShortArea));
                        assert_eq!(work, vec![9; work.len()]);
                        assert_eq!(scratch, vec![9; scratch.len()]);
                        assert_eq!(room, vec![7; room_len]);
                        assert_eq!(answer, zeroed(9, answer_len, ANSWER_SIZE));
                        continue;
                    }
                    let (mut results, mut told) = ([9; WORK_SIZE], vec![9; answer_len]);
                    let expected = areas::check(job, &mut results, &mut scratch, &mut told);
                    assert_eq!((found, &work[..], &answer), (expected, &results[..], &told));
                    assert_eq!(room[size..], vec![7; room_len - size]);
                    let made = if found.is_ok() { 6 } else { 0 };
                    assert_eq!(room[record * made..size], vec![0; size - record * made]);
                    for i in 0..made {
                        let read = room[record * i + radius..].first_chunk().unwrap();
                        let place = MODEL_SIZE * i + RADIUS;
                        assert_eq!(i32::from_le_bytes(*read), work[place]);
                    }
                }
            }
        }
    }
}

/// Other candidates with the same results: the workshop's room is the same, the service's is not.
#[test]
fn pairs() {
    let of = |h, w| {
        let loads = [load(16 * S + 3, 0), load(16 * S, 0)].concat();
        reports(&job(&[&loads, &quotient_of([0, 1], (0, h), (0, w))]))
    };
    let (one, other) = (of(S, S / 16), of(S + 1, S / 16));
    assert!(one.0 == other.0 && one.1 != other.1 && one.2 != other.2);
    let third = of(S + 2, S / 16);
    assert!(one.0 != third.0 && one.1 != third.1);
    // Equal count is needed: no result, and a load of degree 0 and radius 0.
    let (none, zero) = (reports(&job(&[])), reports(&job(&[&load(0, 0)])));
    assert!(none.0 == zero.0 && none.1 == zero.1 && (none.2.count(), zero.2.count()) == (0, 1));
}
