//! Choices that are taken in every way, one case after another.

/// The choices of a case in the order in which they come up: which was taken, out of how many.
#[derive(Default)]
pub struct Choices {
    taken: Vec<(usize, usize)>,
    at: usize,
}

impl Choices {
    /// A number below `n`.
    pub fn below(&mut self, n: usize) -> usize {
        if self.at == self.taken.len() {
            self.taken.push((0, n));
        }
        self.at += 1;
        self.taken[self.at - 1].0
    }

    pub fn pick<T: Copy>(&mut self, from: &[T]) -> T {
        from[self.below(from.len())]
    }

    /// Whether each choice since the first `n` was the first one that it could be.
    pub fn first_since(&self, n: usize) -> bool {
        self.taken[n..self.at].iter().all(|&(taken, _)| taken == 0)
    }

    /// How many choices have come up.
    pub fn made(&self) -> usize {
        self.at
    }

    /// On to the next case: the last choice that can be another is. False after the last case.
    fn advance(&mut self) -> bool {
        self.at = 0;
        while let Some((taken, n)) = self.taken.pop() {
            if taken + 1 < n {
                self.taken.push((taken + 1, n));
                return true;
            }
        }
        false
    }
}

/// What `make` gives for every way to choose.
pub fn every<T>(make: impl Fn(&mut Choices) -> T) -> impl Iterator<Item = T> {
    let mut choices = Choices::default();
    let mut more = true;
    std::iter::from_fn(move || {
        let case = more.then(|| make(&mut choices))?;
        more = choices.advance();
        Some(case)
    })
}

#[cfg(test)]
mod tests {
    use super::every;

    /// The second choice depends on the first, and there may be none.
    #[test]
    fn all_ways_in_order() {
        let pairs = every(|c| {
            let a = c.below(3);
            (a, if a == 1 { c.pick(&[7, 8]) } else { 0 }, c.first_since(0))
        });
        let ways: Vec<(usize, usize, bool)> = pairs.collect();
        assert_eq!(ways, [(0, 0, true), (1, 7, false), (1, 8, false), (2, 0, false)]);
        assert_eq!(every(|_| 5).collect::<Vec<_>>(), [5]);
    }
}
