//! Numbers that stand for many measurements.

use super::contender::Nanoseconds;

/// The one in the middle. Of an even number of measurements the larger of the two in the middle.
pub fn median(values: &[f64]) -> f64 {
    let mut sorted = values.to_vec();
    sorted.sort_by(f64::total_cmp);
    sorted.get(sorted.len() / 2).copied().unwrap_or(0.0)
}

/// The times of one call, in each turn of a case.
#[derive(Default)]
pub struct Times {
    product: Vec<Nanoseconds>,
    second: Vec<Nanoseconds>,
    sorted: Vec<Nanoseconds>,
}

impl Times {
    pub fn note(&mut self, product: Nanoseconds, second: Nanoseconds) {
        self.product.push(product);
        self.second.push(second);
    }

    pub fn note_sorted(&mut self, sorted: Nanoseconds) {
        self.sorted.push(sorted);
    }

    pub fn product(&self) -> Nanoseconds {
        median(&self.product)
    }

    pub fn second(&self) -> Nanoseconds {
        median(&self.second)
    }

    /// None for a call that the sorted table has not.
    pub fn sorted(&self) -> Option<Nanoseconds> {
        (!self.sorted.is_empty()).then(|| median(&self.sorted))
    }

    /// The median of the ratios of the single turns: in each turn both had the same to do.
    pub fn ratio(&self) -> f64 {
        let ratios: Vec<f64> = self
            .product
            .iter()
            .zip(&self.second)
            .map(|(product, second)| product / second)
            .collect();
        median(&ratios)
    }
}

/// The writes of each add.
#[derive(Default)]
pub struct Writes {
    board: Vec<usize>,
    sorted: Vec<usize>,
}

/// Mean, 99th percentile and largest.
pub struct Spread {
    pub mean: f64,
    pub percentile_99: usize,
    pub largest: usize,
}

impl Writes {
    pub fn note(&mut self, board: usize, sorted: usize) {
        self.board.push(board);
        self.sorted.push(sorted);
    }

    pub fn adds(&self) -> usize {
        self.board.len()
    }

    /// The adds that took more writes on the board than in the sorted table.
    pub fn above(&self) -> usize {
        let pairs = self.board.iter().zip(&self.sorted);
        pairs.filter(|(board, sorted)| board > sorted).count()
    }

    pub fn board(&self) -> Spread {
        spread(&self.board)
    }

    pub fn sorted(&self) -> Spread {
        spread(&self.sorted)
    }
}

fn spread(values: &[usize]) -> Spread {
    let mut sorted = values.to_vec();
    sorted.sort_unstable();
    // The smallest value that at least 99 of 100 do not exceed.
    let place = (sorted.len() * 99).div_ceil(100).saturating_sub(1);
    Spread {
        mean: sorted.iter().sum::<usize>() as f64 / sorted.len().max(1) as f64,
        percentile_99: sorted.get(place).copied().unwrap_or(0),
        largest: sorted.last().copied().unwrap_or(0),
    }
}

#[cfg(test)]
mod tests {
    use super::*;

    #[test]
    fn medians_and_ratios() {
        assert_eq!(median(&[3.0, 1.0, 2.0]), 2.0);
        let mut times = Times::default();
        // One disturbed turn of each does not show.
        for (product, second) in [
            (10.0, 20.0),
            (900.0, 20.0),
            (10.0, 700.0),
            (12.0, 24.0),
            (5.0, 10.0),
        ] {
            times.note(product, second);
        }
        assert_eq!(times.ratio(), 0.5);
        assert_eq!(times.sorted(), None);
    }

    #[test]
    fn the_spread_of_writes() {
        let mut writes = Writes::default();
        for count in 1..=200 {
            writes.note(count, 150);
        }
        let board = writes.board();
        assert_eq!(
            (board.mean, board.percentile_99, board.largest),
            (100.5, 198, 200)
        );
        assert_eq!((writes.adds(), writes.above()), (200, 50));
        assert_eq!(writes.sorted().percentile_99, 150);
    }
}
