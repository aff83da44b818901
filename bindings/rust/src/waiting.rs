//! Making a call again until what it needs is there: `SP_WAIT` of `safepoint_wait.h`.
use crate::refusal::Refusal;
use crate::sys;
use std::time::Duration;

/// What an answer says.
pub fn answer(said: i64) -> Result<u64, Refusal> {
    u64::try_from(said).map_err(|_| Refusal::of(said))
}

/// So long at most, for C. What is longer than C can say has no end.
pub fn nanoseconds(time: Duration) -> u64 {
    u64::try_from(time.as_nanos()).unwrap_or(u64::MAX)
}

/// What the call answers once it isn't to be made again.
pub fn wait(mut call: impl FnMut() -> i64) -> Result<u64, Refusal> {
    let mut pause = sys::Pause::default();
    loop {
        let said = call();
        // SAFETY: the pause is of this loop alone.
        if !unsafe { sys::sp_again(said, &mut pause) } {
            return answer(said);
        }
    }
}

#[cfg(test)]
mod tests {
    use super::*;

    #[test]
    fn a_call_is_made_again_until_it_answers() {
        let mut answers = [-1, -1, -1, 7].into_iter();
        assert_eq!(wait(|| answers.next().unwrap()), Ok(7));
        let mut answers = [-1, -27].into_iter();
        assert_eq!(wait(|| answers.next().unwrap()), Err(Refusal::NotDone));
    }
}
