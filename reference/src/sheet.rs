//! Reading a sheet (docs/SHEET.md).

use crate::{List, MOST_LANES, MOST_TASKS, Task};

// The numbers of the faults.
const SHORT: u32 = 1;
const VERSION: u32 = 2;
const TRAILING: u32 = 3;
const LENGTH: u32 = 4;
const NAME: u32 = 5;
const TOO_MANY: u32 = 6;
const SETTING: u32 = 7;
const BOUND: u32 = 8;
const OFF_GRID: u32 = 9;

const WIDEST_GRID: u32 = 16_777_216;
const LONGEST_LIMIT: u32 = 1_048_576;

/// The list that the sheet spells, or the number of the first fault.
pub fn read(sheet: &[u8]) -> Result<List, u32> {
    let body = frame(sheet)?;
    let Some((&[a, b, c, d, lanes], mut records)) = body.split_first_chunk() else {
        return Err(LENGTH);
    };
    let mut list = start(u32::from_be_bytes([a, b, c, d]), usize::from(lanes))?;
    while let Some((&length, rest)) = records.split_first() {
        if list.count == MOST_TASKS {
            return Err(TOO_MANY);
        }
        let (record, after) = rest.split_at_checked(usize::from(length)).ok_or(LENGTH)?;
        list.tasks[list.count] = task(record, list.grid)?;
        list.count += 1;
        records = after;
    }
    Ok(list)
}

/// The body, once version and length are right.
fn frame(sheet: &[u8]) -> Result<&[u8], u32> {
    let Some((&[version, high, low], body)) = sheet.split_first_chunk() else {
        return Err(SHORT);
    };
    let length = usize::from(u16::from_be_bytes([high, low]));
    if body.len() < length {
        return Err(SHORT);
    }
    if version != 1 {
        return Err(VERSION);
    }
    if body.len() > length {
        return Err(TRAILING);
    }
    Ok(body)
}

/// The empty list with these settings.
fn start(grid: u32, lanes: usize) -> Result<List, u32> {
    if !(1..=WIDEST_GRID).contains(&grid) || !(1..=MOST_LANES).contains(&lanes) {
        return Err(SETTING);
    }
    Ok(List {
        grid,
        lanes,
        count: 0,
        tasks: [Task::default(); MOST_TASKS],
    })
}

/// The task of a record, which is handed over without its length byte.
fn task(record: &[u8], grid: u32) -> Result<Task, u32> {
    let Some((numbers, name)) = record.split_first_chunk::<12>() else {
        return Err(LENGTH);
    };
    if name.len() > 20 {
        return Err(LENGTH);
    }
    // Graphic bytes are those from 21 to 7E.
    if !name.iter().all(u8::is_ascii_graphic) {
        return Err(NAME);
    }
    let number = |at: usize| u32::from_be_bytes([numbers[at], numbers[at + 1], numbers[at + 2], numbers[at + 3]]);
    let task = Task {
        work: number(0),
        limit: number(4),
        gap: number(8),
    };
    if !keeps_bounds(task, grid) {
        return Err(BOUND);
    }
    if grid % task.gap != 0 {
        return Err(OFF_GRID);
    }
    Ok(task)
}

fn keeps_bounds(task: Task, grid: u32) -> bool {
    let Task { work, limit, gap } = task;
    // The gap is compared with the grid before it is multiplied, so the product does not wrap.
    1 <= work && work <= limit && work <= gap && gap <= grid && limit <= LONGEST_LIMIT && limit <= 4 * gap
}

#[cfg(test)]
mod tests {
    use super::*;
    use crate::generate::spell;

    const OFFICE: &[u8] = include_bytes!("../../examples/office.sheet");

    fn entry(work: u32, limit: u32, gap: u32, name: &str) -> (Task, Vec<u8>) {
        (Task { work, limit, gap }, name.into())
    }

    fn fault(sheet: &[u8]) -> u32 {
        read(sheet).map_or_else(|number| number, |_| 0)
    }

    #[test]
    fn the_office() {
        let list = read(OFFICE).unwrap();
        let numbers: Vec<_> = list.tasks().iter().map(|t| (t.work, t.limit, t.gap)).collect();
        assert_eq!(numbers, [(2, 6, 10), (1, 4, 5), (5, 12, 12)]);
        assert_eq!((list.grid(), list.lanes()), (60, 2));
        assert_eq!(list.order().collect::<Vec<_>>(), [1, 0, 2]);
    }

    #[test]
    fn equal_limits_go_by_number() {
        let sheet = spell(60, 1, &[entry(1, 6, 6, ""), entry(1, 4, 4, ""), entry(1, 6, 10, ""), entry(1, 4, 5, "")]);
        assert_eq!(read(&sheet).unwrap().order().collect::<Vec<_>>(), [1, 3, 0, 2]);
    }

    #[test]
    fn frames() {
        let rows: [(&[u8], u32); 10] = [
            (&[], 1),
            (&[9, 0], 1),
            (&[9, 0, 1], 1),
            (&[9, 0, 0], 2),
            (&[9, 0, 0, 0], 2),
            (&[1, 0, 0, 0], 3),
            (&[1, 0, 0], 4),
            (&[1, 0, 4, 0, 0, 0, 1], 4),
            (&[1, 0, 5, 0, 0, 0, 0, 9], 7),
            (&[1, 0, 5, 0, 0, 0, 1, 1], 0),
        ];
        for (sheet, number) in rows {
            assert_eq!(fault(sheet), number, "{sheet:?}");
        }
    }

    #[test]
    fn settings() {
        for (grid, lanes, number) in [(0, 1, 7), (1, 0, 7), (16_777_216, 4, 0), (16_777_217, 4, 7), (1, 5, 7)] {
            assert_eq!(fault(&spell(grid, lanes, &[])), number, "{grid} {lanes}");
        }
    }

    #[test]
    fn bounds() {
        let rows = [
            (1, 20, 5, 0),
            (1, 21, 5, 8),
            (0, 1, 1, 8),
            (3, 2, 5, 8),
            (6, 8, 5, 8),
            (1, 1, 0, 8),
            (1, 1, 7, 9),
            (1, 1, 61, 8),
            (1, 1, 120, 8),
            (u32::MAX, 6, 10, 8),
            (1, u32::MAX, 10, 8),
            (1, 4, u32::MAX, 8),
            (1, 1, 0x4000_0001, 8),
        ];
        for (work, limit, gap, number) in rows {
            assert_eq!(fault(&spell(60, 1, &[entry(work, limit, gap, "")])), number, "{work} {limit} {gap}");
        }
        let wide = |limit| spell(16_777_216, 1, &[entry(1, limit, 16_777_216, "")]);
        assert_eq!((fault(&wide(1_048_576)), fault(&wide(1_048_577))), (0, 8));
    }

    #[test]
    fn records() {
        assert_eq!(fault(&spell(60, 1, &[entry(1, 1, 1, "twenty-bytes-of-name")])), 0);
        assert_eq!(fault(&spell(60, 1, &[entry(1, 1, 1, "twenty-one-bytes-long")])), 4);
        // A name byte is judged before the numbers, and a record's end before its name.
        assert_eq!(fault(&spell(60, 1, &[entry(0, 1, 1, "a b")])), 5);
        let mut past = spell(60, 1, &[entry(0, 1, 1, "a b")]);
        past[8] += 1;
        assert_eq!(fault(&past), 4);
        past[8] = 11;
        assert_eq!(fault(&past), 4);
    }

    #[test]
    fn the_33rd_record_is_not_looked_at() {
        let mut entries = vec![entry(1, 1, 1, ""); 32];
        assert_eq!(fault(&spell(60, 1, &entries)), 0);
        entries.push(entry(0, 0, 0, " "));
        assert_eq!(fault(&spell(60, 1, &entries)), 6);
    }
}
