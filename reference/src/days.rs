//! Days for the board to compare and to measure with: lists of calls without their answers (docs/BENCHMARKS.md).

use crate::Task;
use crate::board::Line;
use crate::generate::{Dice, spell};

const POST: u32 = 0;
const BEGIN: u32 = 1;
const END: u32 = 2;
const SERVING: u32 = 3;
pub const WAITING: u32 = 4;
const CLOCK: u32 = 5;

/// A call whose answer is not written yet: no call answers this code.
fn line(call: u32, argument: u32) -> Line {
    Line {
        call,
        argument,
        code: u32::MAX,
        value: u64::MAX,
    }
}

/// So many slots from clock 0 on. Each task posts as early as it may, before the slot begins, and no job finishes early.
pub fn busiest(tasks: &[Task], slots: u32) -> Vec<Line> {
    let mut lines = Vec::new();
    for slot in 0..slots {
        for (number, task) in tasks.iter().enumerate() {
            if slot % task.gap == 0 {
                lines.push(line(POST, number as u32));
            }
        }
        lines.push(line(BEGIN, 0));
        lines.push(line(END, 0));
    }
    lines
}

/// So many calls of every kind, in any order, with good and bad arguments; tasks are mostly numbered up to the highest.
pub fn mixed(dice: &mut Dice, calls: usize, highest_task: u32) -> Vec<Line> {
    (0..calls).map(|_| any_call(dice, highest_task)).collect()
}

fn any_call(dice: &mut Dice, highest_task: u32) -> Line {
    let any = dice.next() as u32;
    match dice.below(16) {
        0..5 => line(POST, any_number(dice, highest_task)),
        5..8 => line(BEGIN, any),
        8..12 => line(END, any_finished(dice) | any << 8),
        12 => line(SERVING, any_number(dice, 6)),
        13 | 14 => line(WAITING, any_number(dice, highest_task)),
        _ => line(dice.one_of(&[CLOCK, CLOCK + 1, u32::MAX]), any),
    }
}

/// A number up to the highest, and now and then a far larger one, to see that none is cut.
fn any_number(dice: &mut Dice, highest: u32) -> u32 {
    let near = dice.from(0, highest);
    if dice.below(50) == 0 {
        near | dice.one_of(&[1 << 8, 1 << 16, 1 << 31])
    } else {
        near
    }
}

/// A byte for end: mostly no bit, since a busy lane is not sure, but each lane's bit, several, and bits past the last lane too.
fn any_finished(dice: &mut Dice) -> u32 {
    let any = dice.from(0, 255);
    dice.one_of(&[0, 0, 0, 0, 0, 0, 1, 2, 4, 8, 3, 15, 16, 128, any])
}

/// A lawful sheet with short gaps, on 1 to 4 lanes. Some limits are past their gaps, so that several jobs of a task wait. Not every
/// sheet fits.
pub fn short_gaps(dice: &mut Dice) -> Vec<u8> {
    let (most, thin) = dice.one_of(&[(4, 2), (8, 3), (16, 6), (32, 10)]);
    let count = dice.from(0, most);
    let entries: Vec<_> = (0..count).map(|_| (short_gap(dice, thin), Vec::new())).collect();
    spell(720, dice.from(1, 4) as u8, &entries)
}

/// A long job over a task with a short gap, whose jobs queue up meanwhile: up to four of (1, 20, 5) under (15, 16, 120).
pub fn queueing(dice: &mut Dice) -> Vec<u8> {
    let long = Task {
        work: dice.from(8, 15),
        limit: 16,
        gap: 120,
    };
    let short = Task {
        work: 1,
        limit: 20,
        gap: 5,
    };
    spell(120, 1, &[(long, Vec::new()), (short, Vec::new())])
}

fn short_gap(dice: &mut Dice, thin: u32) -> Task {
    let gap = dice.one_of(&[4, 6, 8, 10, 12, 16, 20, 24, 30, 40, 60]);
    let longest = gap * dice.one_of(&[1, 1, 4]);
    let limit = dice.from(gap / 2, longest);
    Task {
        work: dice.from(1, (limit.min(gap) / thin).max(1)),
        limit,
        gap,
    }
}

#[cfg(test)]
mod tests {
    use super::*;
    use crate::board::play;
    use crate::place::place_either;

    /// One task (2, 3, 4) on one lane: served in slots 0, 1, 4 and 5 of six.
    #[test]
    fn the_busiest_day() {
        let task = Task {
            work: 2,
            limit: 3,
            gap: 4,
        };
        let mut lines = busiest(&[task], 6);
        assert_eq!(play(&spell(4, 1, &[(task, Vec::new())]), &mut [0], 0, &mut lines), 0);
        let answers: Vec<_> = lines.iter().map(|line| (line.call, line.code, line.value)).collect();
        let first_job = [(POST, 0, 3), (BEGIN, 0, 1), (END, 0, 0), (BEGIN, 0, 1), (END, 0, 1)];
        let idle = [(BEGIN, 0, 0), (END, 0, 0), (BEGIN, 0, 0), (END, 0, 0)];
        let second_job = [(POST, 0, 7), (BEGIN, 0, 1), (END, 0, 0), (BEGIN, 0, 1), (END, 0, 1)];
        assert_eq!(answers, [&first_job[..], &idle, &second_job].concat());
    }

    /// The mixed days show every refusal that a played day can have, and both answers of serving.
    #[test]
    fn mixed_days_have_every_code() {
        let mut dice = Dice::new(3);
        let mut codes = [0; 32];
        for _ in 0..40 {
            let sheet = short_gaps(&mut dice);
            let mut plan = vec![0; crate::sheet::read(&sheet).unwrap().tasks().len()];
            let mut lines = mixed(&mut dice, 2_000, plan.len() as u32 + 1);
            let code = play(&sheet, &mut plan, 0, &mut lines);
            assert_eq!(code, place_either(&sheet, &mut plan));
            if code == 0 {
                lines.iter().for_each(|line| codes[line.code as usize] += 1);
            }
        }
        for code in [0, 1, 11, 13, 14, 16, 17, 18] {
            assert!(codes[code] > 100, "code {code}: {codes:?}");
        }
        assert_eq!((codes[15], codes[19]), (0, 0));
    }
}
