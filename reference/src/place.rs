//! First fit (docs/PLANNING.md), answered as the installer's call answers (docs/INSTALLER.md).

use crate::fit::{exact, linear, linear_in_fractions};
use crate::sheet::read;
use crate::{List, MOST_LANES, MOST_TASKS, Task};

pub(crate) const PLAN_LENGTH: u32 = 10;
pub(crate) const NO_FIT: u32 = 12;
const NO_TASK: u32 = 13;

pub fn place_linear(sheet: &[u8], plan: &mut [u8]) -> u32 {
    place(sheet, plan, linear)
}

pub fn place_in_fractions(sheet: &[u8], plan: &mut [u8]) -> u32 {
    place(sheet, plan, |_, row, asked| linear_in_fractions(row, asked))
}

pub fn place_either(sheet: &[u8], plan: &mut [u8]) -> u32 {
    place(sheet, plan, |grid, row, asked| linear(grid, row, asked) || exact(row, asked))
}

pub fn place_exact(sheet: &[u8], plan: &mut [u8]) -> u32 {
    place(sheet, plan, |_, row, asked| exact(row, asked))
}

/// Whether the exact test takes the last task over all those before it, in the sheet's order: 0 if so, and else 12.
pub fn ask_exact(sheet: &[u8]) -> u32 {
    let list = match read(sheet) {
        Ok(list) => list,
        Err(number) => return number,
    };
    match list.tasks().split_last() {
        Some((&asked, row)) if exact(row, asked) => 0,
        Some(_) => NO_FIT,
        None => NO_TASK,
    }
}

/// Places under a test that is handed the grid, a row and the asked task. A refusal leaves the plan as it was.
fn place(sheet: &[u8], plan: &mut [u8], test: impl Fn(u32, &[Task], Task) -> bool) -> u32 {
    let list = match read(sheet) {
        Ok(list) => list,
        Err(number) => return number,
    };
    let Some(plan) = plan.get_mut(..list.tasks().len()) else {
        return PLAN_LENGTH;
    };
    let Some(placed) = first_fit(&list, |row, asked| test(list.grid(), row, asked)) else {
        return NO_FIT;
    };
    plan.copy_from_slice(&placed[..plan.len()]);
    0
}

/// The tasks of a lane, in their order.
#[derive(Clone, Copy, Default)]
struct Row {
    tasks: [Task; MOST_TASKS],
    count: usize,
}

/// The lane of each task: in the order of limits, the first one whose row takes it.
pub(crate) fn first_fit(list: &List, fits: impl Fn(&[Task], Task) -> bool) -> Option<[u8; MOST_TASKS]> {
    let mut rows = [Row::default(); MOST_LANES];
    let mut plan = [0; MOST_TASKS];
    for number in list.order() {
        let task = list.tasks()[number];
        let lane = rows[..list.lanes()].iter().position(|row| fits(&row.tasks[..row.count], task))?;
        let row = &mut rows[lane];
        row.tasks[row.count] = task;
        row.count += 1;
        plan[number] = lane as u8;
    }
    Some(plan)
}

#[cfg(test)]
mod tests {
    use super::*;
    use crate::generate::spell;

    const OFFICE: &[u8] = include_bytes!("../../examples/office.sheet");

    type Call = fn(&[u8], &mut [u8]) -> u32;

    fn sheet(grid: u32, lanes: u8, tasks: &[(u32, u32, u32)]) -> Vec<u8> {
        let entry = |&(work, limit, gap): &(u32, u32, u32)| (Task { work, limit, gap }, Vec::new());
        spell(grid, lanes, &tasks.iter().map(entry).collect::<Vec<_>>())
    }

    /// The placings of the README.
    #[test]
    fn the_office() {
        let rows: [(Call, [u8; 5]); 4] = [
            (place_linear, [0, 0, 1, 255, 255]),
            (place_in_fractions, [0, 0, 1, 255, 255]),
            (place_either, [0, 0, 0, 255, 255]),
            (place_exact, [0, 0, 0, 255, 255]),
        ];
        for (call, expected) in rows {
            let mut plan = [255; 5];
            assert_eq!(call(OFFICE, &mut plan), 0);
            assert_eq!(plan, expected);
            let mut short = [255; 2];
            assert_eq!(call(OFFICE, &mut short), 10);
            assert_eq!(short, [255; 2]);
            assert_eq!(call(&OFFICE[..20], &mut plan), 1);
            assert_eq!(plan, expected);
        }
    }

    /// Two tasks that want every slot want two lanes.
    #[test]
    fn a_refusal_leaves_the_plan() {
        let calls: [Call; 4] = [place_linear, place_in_fractions, place_either, place_exact];
        for call in calls {
            let mut plan = [255; 2];
            assert_eq!(call(&sheet(1, 1, &[(1, 1, 1); 2]), &mut plan), 12);
            assert_eq!(plan, [255; 2]);
            assert_eq!(call(&sheet(1, 2, &[(1, 1, 1); 2]), &mut plan), 0);
            assert_eq!(plan, [0, 1]);
        }
    }

    #[test]
    fn an_empty_list_has_an_empty_plan() {
        assert_eq!(place_linear(&sheet(60, 1, &[]), &mut []), 0);
        assert_eq!(ask_exact(&sheet(60, 1, &[])), 13);
    }

    /// A limit past its gap is taken by linear alone.
    #[test]
    fn limits_past_gaps() {
        let past = sheet(5, 1, &[(1, 6, 5)]);
        let mut plan = [255];
        assert_eq!(place_exact(&past, &mut plan), 12);
        assert_eq!(place_either(&past, &mut plan), 0);
        assert_eq!(plan, [0]);
    }

    #[test]
    fn asking_about_the_last_task() {
        assert_eq!(ask_exact(&sheet(60, 1, &[(1, 4, 5), (2, 6, 10), (5, 12, 12)])), 0);
        assert_eq!(ask_exact(&sheet(60, 1, &[(1, 4, 5), (2, 6, 10), (6, 12, 12)])), 0);
        assert_eq!(ask_exact(&sheet(60, 1, &[(1, 4, 5), (2, 6, 10), (7, 12, 12)])), 12);
        // The row is in the sheet's order, not in that of limits: here the task with the lowest limit is asked about.
        assert_eq!(ask_exact(&sheet(60, 1, &[(5, 12, 12), (2, 6, 10), (1, 4, 5)])), 12);
        assert_eq!(ask_exact(&[1, 0, 0]), 4);
    }
}
