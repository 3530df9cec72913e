//! Areas to lend, between guards and filled with a pattern, so that each byte
//! that a call touches is seen.

use compare::oracle::limits::PLAN_BYTES;

use super::Difference;

/// Numbers before and after a lent area that nobody may touch.
const GUARD: usize = 16;

/// Awkward lengths of the area that a plan of a stored length is written to.
pub fn out_lengths(stored: usize) -> impl Iterator<Item = usize> {
    let around = |length: usize| {
        [
            length / 2,
            length.saturating_sub(4),
            length.saturating_sub(1),
            length,
            length + 1,
            length + 4,
        ]
    };
    let others = [0, 1, 3, 4, 5, 2 * PLAN_BYTES];
    let needed = around(stored).into_iter().chain(around(PLAN_BYTES));
    needed.chain(others)
}

/// A twin area: one half for the library and one for the oracle.
pub struct Twin<T> {
    library: Vec<T>,
    oracle: Vec<T>,
}

impl<T: Copy + PartialEq + std::fmt::Debug> Twin<T> {
    pub const fn new() -> Twin<T> {
        Twin {
            library: Vec::new(),
            oracle: Vec::new(),
        }
    }

    /// Lends two equal areas with this content to `call`, and compares them
    /// and their guards afterwards. `guard` fills the guards.
    pub fn lend<A>(
        &mut self,
        content: impl Iterator<Item = T> + Clone,
        guard: T,
        call: impl FnOnce(&mut [T], &mut [T]) -> A,
    ) -> (A, Result<(), Difference>) {
        self.fill(content, guard);
        let (library, oracle) = self.halves();
        let answer = call(library, oracle);
        (answer, self.compare())
    }

    /// Fills both halves with this content between guards.
    pub fn fill(&mut self, content: impl Iterator<Item = T> + Clone, guard: T) {
        for half in [&mut self.library, &mut self.oracle] {
            half.clear();
            half.extend([guard; GUARD]);
            half.extend(content.clone());
            half.extend([guard; GUARD]);
        }
    }

    /// The two areas to lend, the library's first.
    pub fn halves(&mut self) -> (&mut [T], &mut [T]) {
        let end = self.library.len() - GUARD;
        (&mut self.library[GUARD..end], &mut self.oracle[GUARD..end])
    }

    /// Compares both halves, their guards included.
    pub fn compare(&self) -> Result<(), Difference> {
        if self.library == self.oracle {
            return Ok(());
        }
        let mut pairs = self.library.iter().zip(&self.oracle);
        let place = pairs
            .position(|(library, oracle)| library != oracle)
            .expect("the halves differ");
        Err(format!(
            "lent area of {} differs at {}: library {:?}, oracle {:?}",
            self.library.len() - 2 * GUARD,
            place as isize - GUARD as isize,
            self.library[place],
            self.oracle[place]
        ))
    }

    /// What the library left in its half.
    pub fn library(&self) -> &[T] {
        &self.library[GUARD..self.library.len() - GUARD]
    }
}
