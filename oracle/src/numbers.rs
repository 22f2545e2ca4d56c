//! How many answers of each number were compared: all of them, and those that the walk from 0 to the offset
//! decides.

use crate::reads::{Cause, Lent};

/// One more than the greatest number of a refusal.
const ENDS: usize = 22;

/// The numbers that the walk answers: its refusals, and that nothing starts at the offset.
const OF_THE_WALK: [usize; 6] = [5, 6, 7, 8, 9, 21];

#[derive(Clone, Copy, Default, Debug)]
pub struct Numbers {
    all: [u64; ENDS],
    walked: [u64; ENDS],
}

impl Numbers {
    /// Counts an answer that was due.
    pub fn count(&mut self, due: Lent) {
        let Some(answer) = due.answer else {
            return;
        };
        let number = answer.result as usize;
        self.all[number] += 1;
        if matches!(due.cause, Some(Cause::NothingStarts | Cause::RefusedBefore)) {
            self.walked[number] += 1;
        }
    }

    /// What was counted, a line each: a number, how often it was due, and how often by the walk.
    pub fn lines(&self) -> Vec<(usize, u64, u64)> {
        let counted = |number: &usize| self.all[*number] > 0;
        let told = |number| (number, self.all[number], self.walked[number]);
        (0..ENDS).filter(counted).map(told).collect()
    }

    /// How many of the numbers were never due, or never by the walk where it answers them.
    pub fn missing(&self, numbers: impl IntoIterator<Item = usize>) -> u64 {
        let never = numbers.into_iter().filter(|number| self.all[*number] == 0);
        let never_walked = OF_THE_WALK
            .iter()
            .filter(|number| self.walked[**number] == 0);
        (never.count() + never_walked.count()) as u64
    }
}

#[cfg(test)]
mod tests {
    use super::*;
    use crate::answer::Answer;

    #[test]
    fn what_is_missing() {
        let mut numbers = Numbers::default();
        let due = |number, cause| Lent {
            answer: Some(Answer::refused(number, 0, 0)),
            written: &[],
            cause,
        };
        numbers.count(due(0, None));
        for number in 5..=9 {
            numbers.count(due(number, Some(Cause::RefusedBefore)));
        }
        numbers.count(due(21, Some(Cause::NothingStarts)));
        assert_eq!(numbers.missing([0, 5, 21]), 0);
        assert_eq!(numbers.missing([0, 10]), 1);
        assert_eq!(Numbers::default().missing([0]), 7);
        assert_eq!(numbers.lines().last(), Some(&(21, 1, 1)));
    }
}
