use super::{draft::Draft, random::Random, worked_lines};

/// Lines without end, made from a seed: sentences with fields at their limits,
/// and damaged ones.
pub struct Generator {
    draft: Draft,
    worked: Vec<Vec<u8>>,
}

impl Generator {
    pub fn new(seed: u64) -> Self {
        Generator::of_block(seed, 0)
    }

    /// One block of a seed's lines. It hangs on no other block, so that any
    /// thread can make it.
    pub fn of_block(seed: u64, block: u64) -> Self {
        Generator {
            draft: Draft::new(Random::new(seed, block)),
            worked: worked_lines(),
        }
    }

    /// The next line, in a buffer that is used again.
    pub fn line(&mut self) -> &[u8] {
        let draft = &mut self.draft;
        draft.line.clear();
        match draft.random.below(32) {
            0 => draft.noise(),
            1 => {
                draft.sentence();
                draft.sentence();
            }
            2 | 3 => {
                let worked = draft.random.below(self.worked.len());
                draft.line.extend_from_slice(&self.worked[worked]);
                draft.damage();
            }
            4..=9 => {
                draft.sentence();
                draft.damage();
            }
            _ => draft.sentence(),
        }
        &draft.line
    }
}

impl Iterator for Generator {
    type Item = Vec<u8>;

    fn next(&mut self) -> Option<Vec<u8>> {
        Some(self.line().to_vec())
    }
}
