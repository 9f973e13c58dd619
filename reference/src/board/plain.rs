//! The plain board, word for word from docs/MODEL.md and docs/BOARD.md, with jobs that know their release. For tests alone.

use super::{LAST_CLOCK, Refusal, refuse};
use crate::{List, Task};

struct Job {
    release: u64,
    served: u32,
}

struct Standing {
    number: usize,
    task: Task,
    last: Option<u64>,
    waiting: Vec<Job>,
}

pub struct PlainBoard {
    clock: u64,
    open: bool,
    count: usize,
    /// For each lane how its tasks stand, in the lane's order.
    lanes: Vec<Vec<Standing>>,
}

impl PlainBoard {
    pub fn new(list: &List, plan: &[u8], start: u64) -> PlainBoard {
        let mut numbers: Vec<usize> = (0..list.tasks().len()).collect();
        numbers.sort_by_key(|&number| list.tasks()[number].limit);
        let row = |lane: usize| {
            let on_lane = numbers.iter().filter(|&&number| usize::from(plan[number]) == lane);
            let standing = |&number: &usize| Standing {
                number,
                task: list.tasks()[number],
                last: None,
                waiting: Vec::new(),
            };
            on_lane.map(standing).collect()
        };
        PlainBoard {
            clock: start,
            open: false,
            count: numbers.len(),
            lanes: (0..list.lanes()).map(row).collect(),
        }
    }

    fn standing_of(&mut self, task: u32) -> &mut Standing {
        let mut all = self.lanes.iter_mut().flatten();
        all.find(|standing| standing.number == task as usize).unwrap()
    }

    fn serves(&self, lane: usize) -> Option<&Standing> {
        self.lanes.get(lane)?.iter().find(|standing| !standing.waiting.is_empty())
    }

    pub fn post(&mut self, task: u32) -> Result<u64, Refusal> {
        let (clock, open) = (self.clock, self.open);
        if task as usize >= self.count {
            return refuse(13, task);
        }
        if open {
            return refuse(16, clock);
        }
        let standing = self.standing_of(task);
        if let Some(last) = standing.last
            && last + u64::from(standing.task.gap) > clock
        {
            return refuse(14, last + u64::from(standing.task.gap));
        }
        if standing.waiting.len() >= 4 {
            return refuse(15, task);
        }
        standing.last = Some(clock);
        standing.waiting.push(Job {
            release: clock,
            served: 0,
        });
        Ok(clock + u64::from(standing.task.limit))
    }

    pub fn begin(&mut self) -> Result<u8, Refusal> {
        if self.open {
            return refuse(16, self.clock);
        }
        if self.clock >= LAST_CLOCK {
            return refuse(19, self.clock);
        }
        self.open = true;
        Ok((0..8).filter(|&lane| self.serves(lane).is_some()).map(|lane| 1 << lane).sum())
    }

    pub fn end(&mut self, finished: u8) -> Result<u8, Refusal> {
        if !self.open {
            return refuse(17, self.clock);
        }
        for bit in 0..8 {
            if finished & 1 << bit != 0 && self.serves(bit).is_none() {
                return refuse(18, bit as u64);
            }
        }
        let mut closed = 0;
        for (lane, row) in self.lanes.iter_mut().enumerate() {
            let Some(standing) = row.iter_mut().find(|standing| !standing.waiting.is_empty()) else {
                continue;
            };
            standing.waiting[0].served += 1;
            if finished & 1 << lane != 0 || standing.task.work <= standing.waiting[0].served {
                standing.waiting.remove(0);
                closed |= 1 << lane;
            }
        }
        self.open = false;
        self.clock += 1;
        Ok(closed)
    }

    pub fn serving(&self, lane: u32) -> Result<Option<u32>, Refusal> {
        if lane as usize >= self.lanes.len() {
            return refuse(11, lane);
        }
        if !self.open {
            return refuse(17, self.clock);
        }
        Ok(self.serves(lane as usize).map(|standing| standing.number as u32))
    }

    pub fn waiting(&mut self, task: u32) -> Result<u32, Refusal> {
        if task as usize >= self.count {
            return refuse(13, task);
        }
        Ok(self.standing_of(task).waiting.len() as u32)
    }

    pub fn clock(&self) -> u64 {
        self.clock
    }

    pub fn most_waiting(&self) -> usize {
        let all = self.lanes.iter().flatten();
        all.map(|standing| standing.waiting.len()).max().unwrap_or(0)
    }

    /// Whether a job still waits once the clock has reached its release plus its limit.
    pub fn has_late_job(&self) -> bool {
        let late = |standing: &Standing, job: &Job| job.release + u64::from(standing.task.limit) <= self.clock;
        let mut all = self.lanes.iter().flatten();
        all.any(|standing| standing.waiting.iter().any(|job| late(standing, job)))
    }
}
