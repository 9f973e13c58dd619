//! The board (docs/BOARD.md): it takes jobs and says, slot by slot, which task each lane serves.

use crate::fit::{exact, linear};
use crate::place::{NO_FIT, PLAN_LENGTH, first_fit};
use crate::sheet::read;
use crate::{List, MOST_LANES, MOST_TASKS};

// The numbers of the refusals.
const NO_LANE: u32 = 11;
const NO_TASK: u32 = 13;
const EARLY: u32 = 14;
const QUEUE_FULL: u32 = 15;
const SLOT_OPEN: u32 = 16;
const SLOT_SHUT: u32 = 17;
const NOT_SERVED: u32 = 18;
const CLOCK_END: u32 = 19;

/// The last clock that there is.
pub const LAST_CLOCK: u64 = 1_099_511_627_776;

const MOST_WAITING: u32 = 4;

#[derive(Clone, Copy, PartialEq, Debug)]
pub struct Refusal {
    pub number: u32,
    pub place: u64,
}

fn refuse<T>(number: u32, place: impl Into<u64>) -> Result<T, Refusal> {
    Err(Refusal {
        number,
        place: place.into(),
    })
}

/// A task and its waiting jobs. No call tells the release of a waiting job, and only the earliest is ever served, so a count
/// and the slots served to that one are the whole queue.
#[derive(Clone, Copy, Default)]
struct Seat {
    work: u32,
    limit: u32,
    gap: u32,
    number: u32,
    lane: usize,
    waiting: u32,
    served: u32,
    /// The first clock at which the task may post: 0, or its last release plus its gap.
    next_post: u64,
}

pub struct Board {
    clock: u64,
    open: bool,
    lanes: usize,
    count: usize,
    /// The tasks in the order of limits, which is the order of each lane too.
    seats: [Seat; MOST_TASKS],
    /// Where each task sits, by its number.
    seat_of: [u8; MOST_TASKS],
    /// For each lane the seats of its tasks with waiting jobs, one bit a seat. The lowest bit is the task that it serves.
    waiting_seats: [u32; MOST_LANES],
}

impl Board {
    /// A board without jobs. The plan has a lane of the box for each task of the list.
    pub fn new(list: &List, plan: &[u8], start: u64) -> Board {
        let mut board = Board {
            clock: start,
            open: false,
            lanes: list.lanes(),
            count: list.tasks().len(),
            seats: [Seat::default(); MOST_TASKS],
            seat_of: [0; MOST_TASKS],
            waiting_seats: [0; MOST_LANES],
        };
        for (at, number) in list.order().enumerate() {
            let task = list.tasks()[number];
            board.seat_of[number] = at as u8;
            board.seats[at] = Seat {
                work: task.work,
                limit: task.limit,
                gap: task.gap,
                number: number as u32,
                lane: plan[number].into(),
                ..Seat::default()
            };
        }
        board
    }

    /// Releases a job of the task and tells the clock by which it will be closed.
    pub fn post(&mut self, task: u32) -> Result<u64, Refusal> {
        let Some(at) = self.seat(task) else {
            return refuse(NO_TASK, task);
        };
        if self.open {
            return refuse(SLOT_OPEN, self.clock);
        }
        let seat = &mut self.seats[at];
        if self.clock < seat.next_post {
            return refuse(EARLY, seat.next_post);
        }
        if seat.waiting == MOST_WAITING {
            return refuse(QUEUE_FULL, task);
        }
        seat.waiting += 1;
        seat.next_post = self.clock + u64::from(seat.gap);
        self.waiting_seats[seat.lane] |= 1 << at;
        Ok(self.clock + u64::from(seat.limit))
    }

    /// Opens a slot and tells which lanes have a job to serve, one bit a lane.
    pub fn begin(&mut self) -> Result<u8, Refusal> {
        if self.open {
            return refuse(SLOT_OPEN, self.clock);
        }
        if self.clock == LAST_CLOCK {
            return refuse(CLOCK_END, self.clock);
        }
        self.open = true;
        Ok(self.busy())
    }

    /// Serves each lane one slot, shuts the slot and tells which lanes closed a job. A job closes if its lane's bit says that it is
    /// finished, or with its whole work.
    pub fn end(&mut self, finished: u8) -> Result<u8, Refusal> {
        if !self.open {
            return refuse(SLOT_SHUT, self.clock);
        }
        let not_served = finished & !self.busy();
        if not_served != 0 {
            return refuse(NOT_SERVED, not_served.trailing_zeros());
        }
        let mut closed = 0;
        for lane in 0..MOST_LANES {
            let said = finished >> lane & 1 == 1;
            closed |= u8::from(self.serve(lane, said)) << lane;
        }
        self.open = false;
        self.clock += 1;
        Ok(closed)
    }

    /// The task that the lane serves in the open slot.
    pub fn serving(&self, lane: u32) -> Result<Option<u32>, Refusal> {
        if lane as usize >= self.lanes {
            return refuse(NO_LANE, lane);
        }
        if !self.open {
            return refuse(SLOT_SHUT, self.clock);
        }
        Ok(self.served_seat(lane as usize).map(|at| self.seats[at].number))
    }

    /// How many jobs of the task wait.
    pub fn waiting(&self, task: u32) -> Result<u32, Refusal> {
        match self.seat(task) {
            Some(at) => Ok(self.seats[at].waiting),
            None => refuse(NO_TASK, task),
        }
    }

    pub fn clock(&self) -> u64 {
        self.clock
    }

    fn seat(&self, task: u32) -> Option<usize> {
        let seats = &self.seat_of[..self.count];
        seats.get(task as usize).map(|&at| at.into())
    }

    fn served_seat(&self, lane: usize) -> Option<usize> {
        let seats = self.waiting_seats[lane];
        (seats != 0).then(|| seats.trailing_zeros() as usize)
    }

    /// The lanes that have a job to serve. A lane that the box does not have never has one.
    fn busy(&self) -> u8 {
        let lanes = self.waiting_seats.iter().enumerate();
        lanes.fold(0, |busy, (lane, &seats)| busy | u8::from(seats != 0) << lane)
    }

    /// One slot of service on the lane; whether it closed a job.
    fn serve(&mut self, lane: usize, said: bool) -> bool {
        let Some(at) = self.served_seat(lane) else {
            return false;
        };
        let seat = &mut self.seats[at];
        seat.served += 1;
        if !said && seat.served < seat.work {
            return false;
        }
        seat.served = 0;
        seat.waiting -= 1;
        if seat.waiting == 0 {
            self.waiting_seats[lane] &= !(1 << at);
        }
        true
    }
}

/// A call of a day, and the place for its answer (docs/BENCHMARKS.md).
#[repr(C)]
#[derive(Clone, Copy, PartialEq, Debug)]
pub struct Line {
    /// 0 post, 1 begin, 2 end, 3 serving, 4 waiting; any other: clock.
    pub call: u32,
    /// A task, a lane, or in its low 8 bits the byte of end.
    pub argument: u32,
    /// Written: 0 for an answer, 1 for "none", else the number of the refusal.
    pub code: u32,
    /// Written: the answer, or the place of the refusal.
    pub value: u64,
}

/// Prepares a board by first fit under the linear test or else the exact one, at the starting clock, and makes the call of each
/// line. The plan has exactly a byte for each task. A refusal leaves plan and lines as they were.
pub fn play(sheet: &[u8], plan: &mut [u8], start: u64, lines: &mut [Line]) -> u32 {
    let list = match read(sheet) {
        Ok(list) => list,
        Err(number) => return number,
    };
    if plan.len() != list.tasks().len() {
        return PLAN_LENGTH;
    }
    let Some(placed) = first_fit(&list, |row, asked| linear(list.grid(), row, asked) || exact(row, asked)) else {
        return NO_FIT;
    };
    if start > LAST_CLOCK {
        return CLOCK_END;
    }
    plan.copy_from_slice(&placed[..plan.len()]);
    let mut board = Board::new(&list, plan, start);
    for line in lines {
        (line.code, line.value) = match answer(&mut board, line.call, line.argument) {
            Ok(Some(value)) => (0, value),
            Ok(None) => (1, 0),
            Err(refusal) => (refusal.number, refusal.place),
        };
    }
    0
}

fn answer(board: &mut Board, call: u32, argument: u32) -> Result<Option<u64>, Refusal> {
    match call {
        0 => board.post(argument).map(Some),
        1 => board.begin().map(|busy| Some(busy.into())),
        2 => board.end(argument as u8).map(|closed| Some(closed.into())),
        3 => board.serving(argument).map(|task| task.map(u64::from)),
        4 => board.waiting(argument).map(|count| Some(count.into())),
        _ => Ok(Some(board.clock())),
    }
}

#[cfg(test)]
mod plain;
#[cfg(test)]
mod tests;
