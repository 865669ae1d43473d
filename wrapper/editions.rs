//! The editions of jobs: from either to the other.
use crate::{areas, RefusedJob, ANSWER_SIZE};

/// Converts a job of edition 1 or 2 to the other edition: the part of `out` that holds the converted
/// job, which is as long as the job. A job that can be converted has at most
/// [`MAX_JOB_BYTES`](crate::MAX_JOB_BYTES) bytes.
///
/// The edition's byte changes; the kept degree of each multiply command that is 0xFF becomes what it
/// stood for, 32 in edition 1, in edition 2 the larger degree of the two factors; every other byte is
/// copied. The check of the converted job gives the same results, or the same refusal at the same
/// command. Bytes of `out` behind the converted job stay.
///
/// Refusals, in order: the first of `BadValue`, `JobEnds`, `BytesAfterEnd`, `NotAResult` and
/// `TooManyResults` that reading the whole job gives, with its command (models are not looked at);
/// `ShortOutput`, with command 0. After a refusal every byte of `out` is zero.
///
/// ```
/// use ferruntzo::{convert_edition, MAX_JOB_BYTES};
///
/// let mut out = [0; MAX_JOB_BYTES];
/// assert_eq!(convert_edition(&[0x01, 2, 0x00], &mut out), Ok(&[0x01, 1, 0x00][..]));
/// ```
pub fn convert_edition<'a>(job: &[u8], out: &'a mut [u8]) -> Result<&'a [u8], RefusedJob> {
    let mut answer = [0; ANSWER_SIZE];
    match areas::convert_edition(job, out, &mut answer) {
        Ok(()) => Ok(&out[..answer[0] as usize]),
        Err(refusal) => Err(RefusedJob { refusal, command: answer[1] }),
    }
}

/// The converter over the caller's own areas; [`crate::areas`] has it too.
#[rustfmt::skip]
pub(crate) mod lent {
    use crate::{accepted, raw, Refusal};

    /// The conversion of a job; `out` may have any length, `answer` has 2 numbers: length, command.
    ///
    /// After every refusal, `ShortArea` included, every byte of `out` is zero; an `answer` of fewer than
    /// 2 numbers is not touched. Bytes behind a converted job stay.
    pub fn convert_edition(
        job: &[u8],
        out: &mut [u8],
        answer: &mut [u32],
    ) -> Result<(), Refusal> {
        // SAFETY: as in `areas::add`.
        accepted(unsafe {
            raw::ferruntzo_convert_edition(
                job.as_ptr(), job.len(), out.as_mut_ptr(), out.len(),
                answer.as_mut_ptr(), answer.len(),
            )
        })
    }
}
