//! Report records of a job's results: what the workshop and the service read.
use crate::{areas, checked, CheckedJob, RefusedJob};
use crate::{SERVICE_RECORD, SERVICE_ROOM, WORKSHOP_RECORD, WORKSHOP_ROOM};

/// The report record of a result that the workshop reads.
#[derive(Clone, Copy, Debug, PartialEq, Eq, Hash)]
pub struct WorkshopRecord {
    /// Which result, from 0 on.
    pub number: u8,
    /// Its degree.
    pub degree: u8,
    /// Its radius, in units.
    pub radius: u32,
}

/// The report record of a result that the service reads; m, N and b are those of the command's test,
/// and 0 where no test ran.
#[derive(Clone, Copy, Debug, PartialEq, Eq, Hash)]
pub struct ServiceRecord {
    /// Which result, from 0 on.
    pub number: u8,
    /// Its degree.
    pub degree: u8,
    /// m: below S.
    pub m: u32,
    /// N: the residual, at most 2^28.
    pub n: u32,
    /// b: at most the radius.
    pub b: u32,
    /// Its radius, in units.
    pub radius: u32,
}

/// The unsigned number, little-endian, of the four bytes from a place on.
fn field(record: &[u8], place: usize) -> u32 {
    u32::from_le_bytes(*record[place..].first_chunk().expect("a field of four bytes"))
}

impl WorkshopRecord {
    /// The record in these 6 bytes.
    pub fn from_bytes(bytes: &[u8; WORKSHOP_RECORD]) -> WorkshopRecord {
        WorkshopRecord { number: bytes[0], degree: bytes[1], radius: field(bytes, 2) }
    }

    /// The record of result i in a room that [`check_workshop`] wrote, or `None` from 32 on. From the
    /// count of results on all its bytes are zero.
    pub fn of_result(room: &[u8; WORKSHOP_ROOM], i: usize) -> Option<WorkshopRecord> {
        room.chunks_exact(WORKSHOP_RECORD).nth(i)?.first_chunk().map(WorkshopRecord::from_bytes)
    }
}

impl ServiceRecord {
    /// The record in these 18 bytes.
    pub fn from_bytes(bytes: &[u8; SERVICE_RECORD]) -> ServiceRecord {
        let [m, n, b, radius] = [2, 6, 10, 14].map(|place| field(bytes, place));
        ServiceRecord { number: bytes[0], degree: bytes[1], m, n, b, radius }
    }

    /// The record of result i in a room that [`check_service`] wrote, or `None` from 32 on. From the
    /// count of results on all its bytes are zero.
    pub fn of_result(room: &[u8; SERVICE_ROOM], i: usize) -> Option<ServiceRecord> {
        room.chunks_exact(SERVICE_RECORD).nth(i)?.first_chunk().map(ServiceRecord::from_bytes)
    }
}

/// Checks a job as [`check`](crate::check) does, and writes the workshop's report record of each
/// result to `room`. After a refusal every byte of `room` is zero.
///
/// Two accepted jobs of equal count leave the same bytes exactly when their results agree in number,
/// degree and radius, however their candidates differ.
///
/// ```
/// use ferruntzo::{check_workshop, WorkshopRecord, WORKSHOP_ROOM};
///
/// // A load of the constant 0 with radius 7, and its sum with itself.
/// let mut job = vec![0x01, 1, 0x10];
/// job.extend([0; 133]);
/// job.extend([7, 0, 0, 0, 0x11, 0, 0, 0x00]);
/// let mut room = [0; WORKSHOP_ROOM];
/// let checked = check_workshop(&job, &mut room).unwrap();
/// assert_eq!(checked.count(), 2);
/// let last = WorkshopRecord { number: 1, degree: 0, radius: 14 };
/// assert_eq!(WorkshopRecord::of_result(&room, 1), Some(last));
/// ```
pub fn check_workshop(
    job: &[u8],
    room: &mut [u8; WORKSHOP_ROOM],
) -> Result<CheckedJob, RefusedJob> {
    checked(|work, scratch, answer| areas::check_workshop(job, work, scratch, room, answer))
}

/// Checks a job as [`check`](crate::check) does, and writes the service's report record of each
/// result to `room`, with the m, N and b of its test. After a refusal every byte of `room` is zero.
pub fn check_service(job: &[u8], room: &mut [u8; SERVICE_ROOM]) -> Result<CheckedJob, RefusedJob> {
    checked(|work, scratch, answer| areas::check_service(job, work, scratch, room, answer))
}

/// The reports over the caller's own areas; [`crate::areas`] has them too.
#[rustfmt::skip]
pub(crate) mod lent {
    use crate::{accepted, raw, Refusal};

    /// The check of a job with the workshop's report records; `work` has 1184 numbers, `scratch` 16,
    /// `room` 192 bytes, `answer` 2 numbers: count, command.
    ///
    /// `ShortArea` leaves `work`, `scratch` and `room` as they were, and an `answer` of 2 or more numbers
    /// at 0 and 0. After every other call `work`, `scratch` and `answer` are as [`check`](crate::areas::check)
    /// leaves them; records that were not made are zero, all of them if the job is refused. Bytes of
    /// `room` behind the 192 stay.
    pub fn check_workshop(
        job: &[u8],
        work: &mut [i32],
        scratch: &mut [i64],
        room: &mut [u8],
        answer: &mut [u32],
    ) -> Result<(), Refusal> {
        // SAFETY: as in `areas::add`.
        accepted(unsafe {
            raw::ferruntzo_check_workshop(
                job.as_ptr(), job.len(), work.as_mut_ptr(), work.len(),
                scratch.as_mut_ptr(), scratch.len(), room.as_mut_ptr(), room.len(),
                answer.as_mut_ptr(), answer.len(),
            )
        })
    }

    /// The check of a job with the service's report records; the areas of [`check_workshop`], but `room`
    /// has 576 bytes.
    pub fn check_service(
        job: &[u8],
        work: &mut [i32],
        scratch: &mut [i64],
        room: &mut [u8],
        answer: &mut [u32],
    ) -> Result<(), Refusal> {
        // SAFETY: as in `areas::add`.
        accepted(unsafe {
            raw::ferruntzo_check_service(
                job.as_ptr(), job.len(), work.as_mut_ptr(), work.len(),
                scratch.as_mut_ptr(), scratch.len(), room.as_mut_ptr(), room.len(),
                answer.as_mut_ptr(), answer.len(),
            )
        })
    }
}
