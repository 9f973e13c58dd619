//! A plain Rust reference for the lane board, written from docs/ alone: it shares no code with the proved crates. The proved
//! calls are compared with it and measured against it.

pub mod board;
pub mod days;
pub mod fit;
pub mod generate;
pub mod place;
pub mod sheet;

pub const MOST_TASKS: usize = 32;
pub const MOST_LANES: usize = 4;

/// The three numbers of a task (docs/TASKS.md).
#[derive(Clone, Copy, Default, Debug)]
pub struct Task {
    pub work: u32,
    pub limit: u32,
    pub gap: u32,
}

/// A lawful list of tasks. Only reading a sheet makes one, so nobody after that asks for the bounds again.
#[derive(Clone, Debug)]
pub struct List {
    grid: u32,
    lanes: usize,
    count: usize,
    tasks: [Task; MOST_TASKS],
}

impl List {
    pub fn grid(&self) -> u32 {
        self.grid
    }

    pub fn lanes(&self) -> usize {
        self.lanes
    }

    /// The tasks by their numbers.
    pub fn tasks(&self) -> &[Task] {
        &self.tasks[..self.count]
    }

    /// The numbers of the tasks in their order: the lower limit first, and of equal limits the lower number.
    pub fn order(&self) -> impl Iterator<Item = usize> {
        // Limit and number in one key, so that plain numbers are sorted.
        let mut keys = [0; MOST_TASKS];
        for (number, task) in self.tasks().iter().enumerate() {
            keys[number] = u64::from(task.limit) << 32 | number as u64;
        }
        keys[..self.count].sort_unstable();
        keys.into_iter().take(self.count).map(|key| key as u32 as usize)
    }
}
