//! The fit tests (docs/FIT_TESTS.md), asked about the row of a lane and one more task. All tasks are of one list, so they keep
//! their bounds and their gaps divide the grid: reading has seen to both.

use crate::Task;

/// Inequalities 5 and 6 of the standard, both times the grid. No term is above 2^44 (a grid of 2^24 times a limit of 2^20), and
/// there are at most 63 of them, so all sums stay below 2^50.
pub fn linear(grid: u32, row: &[Task], asked: Task) -> bool {
    let mut work = u64::from(asked.work);
    let mut shares = 0;
    for task in row {
        work += u64::from(task.work);
        shares += share(grid, task);
    }
    let (grid_wide, limit) = (u64::from(grid), u64::from(asked.limit));
    grid_wide * work + shares * limit <= grid_wide * limit && shares + share(grid, &asked) <= grid_wide
}

/// The share of a lane that the task takes, times the grid.
fn share(grid: u32, task: &Task) -> u64 {
    u64::from(task.work) * u64::from(grid / task.gap)
}

/// Response times. Up to the limit, a time of at most 2^20, a task of the row asks for at most that time and its work once
/// more, so 32 of them stay below 2^26.
pub fn exact(row: &[Task], asked: Task) -> bool {
    if asked.limit > asked.gap {
        return false;
    }
    let mut time = asked.work + row.iter().map(|task| task.work).sum::<u32>();
    while time <= asked.limit {
        let needed = asked.work + row.iter().map(|task| time.div_ceil(task.gap) * task.work).sum::<u32>();
        if needed == time {
            return true;
        }
        time = needed;
    }
    false
}

/// The linear test as on the page of the standard, in exact fractions and without a grid:
/// d − Σ RBF*(τ_j, d) ≥ e and 1 − Σ u_j ≥ u, where RBF*(τ_j, d) = e_j + u_j·d and u_j = e_j/p_j.
pub fn linear_in_fractions(row: &[Task], asked: Task) -> bool {
    let limit = Fraction::whole(asked.limit);
    let mut time_left = limit;
    let mut share_left = Fraction::whole(1);
    for task in row {
        let request = Fraction::whole(task.work).plus(utilisation(task).times(limit));
        time_left = time_left.minus(request);
        share_left = share_left.minus(utilisation(task));
    }
    time_left.at_least(Fraction::whole(asked.work)) && share_left.at_least(utilisation(&asked))
}

fn utilisation(task: &Task) -> Fraction {
    Fraction {
        top: task.work.into(),
        bottom: task.gap.into(),
    }
}

/// An exact fraction; the bottom is above 0, and a sum's bottom is the least common one. For tasks of one list each bottom divides
/// the grid, so it is at most 2^24; values stay between -2^26 and 2^26, so tops stay below 2^50, and below 2^74 when compared.
#[derive(Clone, Copy, Debug)]
struct Fraction {
    top: i128,
    bottom: i128,
}

impl Fraction {
    fn whole(value: u32) -> Fraction {
        Fraction {
            top: value.into(),
            bottom: 1,
        }
    }

    fn plus(self, other: Fraction) -> Fraction {
        let common = common_divisor(self.bottom as u64, other.bottom as u64);
        let (widen_self, widen_other) = (other.bottom / i128::from(common), self.bottom / i128::from(common));
        Fraction {
            top: self.top * widen_self + other.top * widen_other,
            bottom: self.bottom * widen_self,
        }
    }

    fn minus(self, other: Fraction) -> Fraction {
        self.plus(Fraction {
            top: -other.top,
            bottom: other.bottom,
        })
    }

    fn times(self, other: Fraction) -> Fraction {
        Fraction {
            top: self.top * other.top,
            bottom: self.bottom * other.bottom,
        }
    }

    fn at_least(self, other: Fraction) -> bool {
        self.top * other.bottom >= other.top * self.bottom
    }
}

fn common_divisor(mut a: u64, mut b: u64) -> u64 {
    while b != 0 {
        (a, b) = (b, a % b);
    }
    a
}

#[cfg(test)]
mod tests {
    use super::*;
    use crate::generate::{Dice, any_lawful};
    use crate::sheet::read;

    fn task(numbers: (u32, u32, u32)) -> Task {
        let (work, limit, gap) = numbers;
        Task { work, limit, gap }
    }

    /// The rule of the exact test as it stands, slot by slot.
    fn exact_by_the_rule(row: &[Task], asked: Task) -> bool {
        let needed = |t: u32| row.iter().map(|task| t.div_ceil(task.gap) * task.work).sum::<u32>();
        asked.limit <= asked.gap && (1..=asked.limit).any(|t| asked.work + needed(t) <= t)
    }

    /// The table of docs/FIT_TESTS.md, without the line whose gap does not divide the grid: no list has such a task.
    #[test]
    fn worked_examples() {
        type Numbers = (u32, u32, u32);
        let rows: [(u32, &[Numbers], Numbers, bool, bool); 7] = [
            (1, &[], (1, 1, 1), true, true),
            (1, &[(1, 1, 1)], (1, 1, 1), false, false),
            (60, &[(1, 4, 5)], (2, 6, 10), true, true),
            (60, &[(1, 4, 5), (2, 6, 10)], (4, 12, 12), true, true),
            (60, &[(1, 4, 5), (2, 6, 10)], (5, 12, 12), false, true),
            (60, &[], (1, 6, 5), true, false),
            (5, &[(3, 10, 5)], (3, 20, 5), false, false),
        ];
        for (grid, above, asked, by_linear, by_exact) in rows {
            let row: Vec<_> = above.iter().copied().map(task).collect();
            assert_eq!(linear(grid, &row, task(asked)), by_linear, "{row:?} {asked:?}");
            assert_eq!(linear_in_fractions(&row, task(asked)), by_linear, "{row:?} {asked:?}");
            assert_eq!(exact(&row, task(asked)), by_exact, "{row:?} {asked:?}");
        }
    }

    /// Rows of random lists. Tests are built with overflow checks, so this also shows that no sum wraps.
    #[test]
    fn the_forms_agree() {
        let mut dice = Dice::new(5);
        let (mut linear_yes, mut exact_yes) = (0, 0);
        for _ in 0..20_000 {
            let list = read(&any_lawful(&mut dice)).unwrap();
            let Some((&asked, row)) = list.tasks().split_last() else {
                continue;
            };
            let row = &row[..dice.below(row.len() as u64 + 1) as usize];
            let by_linear = linear(list.grid(), row, asked);
            assert_eq!(linear_in_fractions(row, asked), by_linear, "{row:?} {asked:?}");
            linear_yes += u32::from(by_linear);
            if asked.limit <= 5_000 {
                let by_exact = exact(row, asked);
                assert_eq!(exact_by_the_rule(row, asked), by_exact, "{row:?} {asked:?}");
                exact_yes += u32::from(by_exact);
            }
        }
        assert!(linear_yes > 1_000 && exact_yes > 1_000, "{linear_yes} {exact_yes}");
    }

    /// The largest numbers that a list may have, at both ends of the gaps.
    #[test]
    fn the_largest_numbers() {
        let widest = task((1_048_576, 1_048_576, 16_777_216));
        let fullest = task((1_048_576, 1_048_576, 1_048_576));
        for row in [[widest; 31], [fullest; 31]] {
            for asked in [widest, fullest] {
                assert!(!linear(16_777_216, &row, asked));
                assert!(!linear_in_fractions(&row, asked));
                assert!(!exact(&row, asked));
            }
        }
        // Coprime parts of a grid with many divisors: the common bottoms grow to the whole grid.
        let gaps = [13, 27, 16, 25, 7, 11, 14_414_400, 10_810_800];
        let row: Vec<_> = gaps.iter().map(|&gap| task((1, 4 * gap.min(262_144), gap))).collect();
        let asked = task((1, 1_048_576, 1_048_576));
        linear_in_fractions(&row, asked);
    }
}
