//! Sheets to compare and to measure with, from a seed.

use crate::Task;

/// SplitMix64.
pub struct Dice {
    state: u64,
}

impl Dice {
    pub fn new(seed: u64) -> Dice {
        Dice { state: seed }
    }

    pub fn next(&mut self) -> u64 {
        self.state = self.state.wrapping_add(0x9E37_79B9_7F4A_7C15);
        let mut z = self.state;
        z = (z ^ z >> 30).wrapping_mul(0xBF58_476D_1CE4_E5B9);
        z = (z ^ z >> 27).wrapping_mul(0x94D0_49BB_1331_11EB);
        z ^ z >> 31
    }

    /// A number from 0 to `end` - 1.
    pub fn below(&mut self, end: u64) -> u64 {
        self.next() % end
    }

    pub fn from(&mut self, low: u32, high: u32) -> u32 {
        low + self.below(u64::from(high - low) + 1) as u32
    }

    pub fn one_of<T: Copy>(&mut self, choices: &[T]) -> T {
        choices[self.below(choices.len() as u64) as usize]
    }
}

/// A sheet with these tasks and names.
pub fn spell(grid: u32, lanes: u8, entries: &[(Task, Vec<u8>)]) -> Vec<u8> {
    let mut body = grid.to_be_bytes().to_vec();
    body.push(lanes);
    for (task, name) in entries {
        body.push((12 + name.len()) as u8);
        for value in [task.work, task.limit, task.gap] {
            body.extend(value.to_be_bytes());
        }
        body.extend(name);
    }
    let mut sheet = vec![1];
    sheet.extend((body.len() as u16).to_be_bytes());
    sheet.extend(body);
    sheet
}

/// Grids with many divisors, small and large.
const GRIDS: [u32; 12] = [1, 12, 60, 360, 840, 5_040, 55_440, 720_720, 1_048_576, 10_810_800, 14_414_400, 16_777_216];

fn divisors(grid: u32) -> Vec<u32> {
    let small = (1..).take_while(|d| d * d <= grid).filter(|d| grid % d == 0);
    small.flat_map(|d| [d, grid / d]).collect()
}

fn task(dice: &mut Dice, gaps: &[u32], thin: u32) -> Task {
    let gap = dice.one_of(gaps);
    let longest = gap.saturating_mul(4).min(1_048_576);
    let limit = match dice.below(3) {
        0 => longest,
        1 => gap.min(longest),
        _ => dice.from(1, longest),
    };
    let most = limit.min(gap);
    Task {
        work: dice.from(1, (most / thin).max(1)),
        limit,
        gap,
    }
}

fn name(dice: &mut Dice) -> Vec<u8> {
    let length = dice.one_of(&[0, 0, 1, 5, 20]);
    (0..length).map(|_| dice.from(0x21, 0x7E) as u8).collect()
}

/// A lawful sheet of so many tasks; the larger `thin`, the less work.
pub fn lawful(dice: &mut Dice, lanes: u8, count: usize, thin: u32) -> Vec<u8> {
    let grid = dice.one_of(&GRIDS);
    let gaps = divisors(grid);
    let entries: Vec<_> = (0..count).map(|_| (task(dice, &gaps, thin), name(dice))).collect();
    spell(grid, lanes, &entries)
}

/// A lawful sheet of 0 to 32 tasks on 1 to 4 lanes.
pub fn any_lawful(dice: &mut Dice) -> Vec<u8> {
    let lanes = dice.from(1, 4) as u8;
    let count = dice.from(0, 32) as usize;
    let thin = dice.one_of(&[1, 2, 4, 8, 16, 32, 64]);
    lawful(dice, lanes, count, thin)
}

/// Offsets of the records of a lawful sheet.
fn records(sheet: &[u8]) -> Vec<usize> {
    let mut at = 8;
    let mut found = Vec::new();
    while at < sheet.len() {
        found.push(at);
        at += 1 + usize::from(sheet[at]);
    }
    found
}

fn mend_length(sheet: &mut [u8]) {
    let length = (sheet.len() - 3) as u16;
    sheet[1..3].copy_from_slice(&length.to_be_bytes());
}

/// One number of one record is replaced.
fn damage_number(dice: &mut Dice, sheet: &mut [u8]) {
    let found = records(sheet);
    if found.is_empty() {
        return;
    }
    let at = dice.one_of(&found) + 1 + 4 * dice.below(3) as usize;
    let old = u32::from_be_bytes([sheet[at], sheet[at + 1], sheet[at + 2], sheet[at + 3]]);
    let any = dice.next() as u32;
    let value = dice.one_of(&[
        0,
        1,
        old.wrapping_add(1),
        old.wrapping_sub(1),
        old.wrapping_mul(2),
        1_048_577,
        16_777_217,
        0x7FFF_FFFF,
        0x8000_0000,
        0xFFFF_FFFF,
        any,
        any >> 8,
        any >> 16,
    ]);
    sheet[at..at + 4].copy_from_slice(&value.to_be_bytes());
}

/// A sheet that was lawful before it was damaged in one to three ways.
pub fn damaged(dice: &mut Dice) -> Vec<u8> {
    let mut sheet = any_lawful(dice);
    for _ in 0..dice.from(1, 3) {
        damage(dice, &mut sheet);
    }
    sheet
}

fn damage(dice: &mut Dice, sheet: &mut Vec<u8>) {
    if sheet.len() < 8 {
        return;
    }
    let at = dice.below(sheet.len() as u64) as usize;
    let byte = dice.next() as u8;
    match dice.below(10) {
        0 => sheet[at] = byte,
        1 => sheet.truncate(at),
        2 => sheet.push(byte),
        3 => {
            sheet.insert(at.max(3), byte);
            mend_length(sheet);
        }
        4 => {
            sheet.truncate(at.max(3));
            mend_length(sheet);
        }
        5 => sheet[dice.from(0, 7) as usize] = byte,
        6 => sheet[7] = dice.one_of(&[0, 1, 2, 3, 4, 5, 255]),
        7 => {
            // More records of the same kind, often past the 32nd task.
            let more = sheet[8..].to_vec();
            sheet.extend(more);
            mend_length(sheet);
        }
        _ => {
            let whole = records_stand(sheet);
            if whole {
                damage_number(dice, sheet);
            }
        }
    }
}

/// Whether the records can still be told apart.
fn records_stand(sheet: &[u8]) -> bool {
    let mut at = 8;
    while at < sheet.len() {
        if sheet[at] < 12 || at + usize::from(sheet[at]) >= sheet.len() {
            return false;
        }
        at += 1 + usize::from(sheet[at]);
    }
    true
}
