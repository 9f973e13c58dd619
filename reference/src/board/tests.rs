//! Small days, worked by hand, and random days against the plain board.

use super::plain::PlainBoard;
use super::*;
use crate::Task;
use crate::fit::linear;
use crate::generate::{Dice, spell};
use crate::place::place_linear;

const OFFICE: &[u8] = include_bytes!("../../../examples/office.sheet");

fn sheet(grid: u32, lanes: u8, tasks: &[(u32, u32, u32)]) -> Vec<u8> {
    let entry = |&(work, limit, gap): &(u32, u32, u32)| (Task { work, limit, gap }, Vec::new());
    spell(grid, lanes, &tasks.iter().map(entry).collect::<Vec<_>>())
}

fn board(grid: u32, lanes: u8, tasks: &[(u32, u32, u32)], plan: &[u8], start: u64) -> Board {
    Board::new(&read(&sheet(grid, lanes, tasks)).unwrap(), plan, start)
}

fn no<T>(number: u32, place: u64) -> Result<T, Refusal> {
    refuse(number, place)
}

/// One slot in which no job says that it is finished: the busy lanes and the lanes that closed a job.
fn slot(board: &mut Board) -> (u8, u8) {
    (board.begin().unwrap(), board.end(0).unwrap())
}

/// The day of docs/REPLAY.md and examples/day.replay: the journal goes before the lock, the third task is on lane 1.
#[test]
fn the_recorded_day() {
    let mut board = Board::new(&read(OFFICE).unwrap(), &[0, 0, 1], 100);
    assert_eq!(board.clock(), 100);
    assert_eq!(board.post(0), Ok(106));
    assert_eq!(board.post(1), Ok(104));
    assert_eq!(board.post(1), no(14, 105));
    assert_eq!(board.begin(), Ok(1));
    assert_eq!(board.serving(0), Ok(Some(1)));
    assert_eq!(board.serving(1), Ok(None));
    assert_eq!(board.end(0), Ok(1));
    assert_eq!(board.post(2), Ok(113));
    assert_eq!(board.begin(), Ok(3));
    assert_eq!(board.serving(0), Ok(Some(0)));
    assert_eq!(board.serving(1), Ok(Some(2)));
    assert_eq!(board.end(0), Ok(0));
    assert_eq!(board.begin(), Ok(3));
    assert_eq!(board.end(2), Ok(3));
    assert_eq!(board.waiting(2), Ok(0));
    assert_eq!(board.begin(), Ok(0));
    assert_eq!(board.end(1), no(18, 0));
    assert_eq!(board.end(0), Ok(0));
    assert_eq!(board.serving(0), no(17, 104));
    assert_eq!(board.clock(), 104);
    assert_eq!(board.post(300), no(13, 300));
    assert_eq!(board.post(1), no(14, 105));
    assert_eq!(slot(&mut board), (0, 0));
    assert_eq!(board.post(1), Ok(109));
    assert_eq!(board.waiting(1), Ok(1));
    assert_eq!(board.begin(), Ok(1));
    assert_eq!(board.post(0), no(16, 105));
    assert_eq!(board.end(0), Ok(1));
    assert_eq!(board.clock(), 106);
}

/// The shorter limit takes the lane over, and the longer job goes on where it stood.
#[test]
fn a_job_goes_on_where_it_stood() {
    let mut board = board(8, 1, &[(3, 8, 8), (1, 2, 4)], &[0, 0], 0);
    assert_eq!(board.post(0), Ok(8));
    assert_eq!(slot(&mut board), (1, 0));
    assert_eq!(board.post(1), Ok(3));
    assert_eq!(board.begin(), Ok(1));
    assert_eq!(board.serving(0), Ok(Some(1)));
    assert_eq!(board.end(0), Ok(1));
    assert_eq!(slot(&mut board), (1, 0));
    assert_eq!(board.waiting(0), Ok(1));
    assert_eq!(slot(&mut board), (1, 1));
    assert_eq!(board.waiting(0), Ok(0));
    assert_eq!(slot(&mut board), (0, 0));
}

/// Of equal limits the lower number goes first, whichever posted first.
#[test]
fn equal_limits_go_by_number() {
    let mut board = board(6, 1, &[(1, 6, 6), (1, 6, 6)], &[0, 0], 0);
    board.post(1).unwrap();
    board.post(0).unwrap();
    board.begin().unwrap();
    assert_eq!(board.serving(0), Ok(Some(0)));
}

/// Two jobs of one task wait while the other task has the lane. The second starts anew after the first said that it was finished.
#[test]
fn jobs_of_a_task_queue_up() {
    let mut board = board(80, 1, &[(8, 8, 16), (2, 20, 5)], &[0, 0], 0);
    board.post(0).unwrap();
    board.post(1).unwrap();
    for _ in 0..5 {
        assert_eq!(slot(&mut board), (1, 0));
    }
    assert_eq!(board.post(1), Ok(25));
    assert_eq!(board.waiting(1), Ok(2));
    assert_eq!((slot(&mut board), slot(&mut board)), ((1, 0), (1, 0)));
    assert_eq!(slot(&mut board), (1, 1));
    board.begin().unwrap();
    assert_eq!(board.serving(0), Ok(Some(1)));
    assert_eq!(board.end(1), Ok(1));
    assert_eq!(board.waiting(1), Ok(1));
    assert_eq!(slot(&mut board), (1, 0));
    // Exactly the gap after the last release, and with the job before still waiting.
    assert_eq!(board.clock(), 10);
    assert_eq!(board.post(1), Ok(30));
    assert_eq!(board.waiting(1), Ok(2));
    assert_eq!(slot(&mut board), (1, 1));
}

/// The most that wait on a plan that linear passes (1 + 15 + 20 · 15/120 ≤ 20): four jobs, closed in the four slots after the
/// long one.
#[test]
fn four_jobs_wait_and_none_is_late() {
    let tasks = [(1, 20, 5), (15, 16, 120)];
    let mut plan = [9; 2];
    assert_eq!(place_linear(&sheet(120, 1, &tasks), &mut plan), 0);
    let mut board = board(120, 1, &tasks, &plan, 0);
    assert_eq!(board.post(1), Ok(16));
    for round in 0..3 {
        assert_eq!(board.post(0), Ok(20 + 5 * round));
        for at in 0..5 {
            let closed = u8::from((round, at) == (2, 4));
            assert_eq!(slot(&mut board), (1, closed));
        }
    }
    assert_eq!(board.post(0), Ok(35));
    assert_eq!(board.waiting(0), Ok(4));
    assert_eq!(board.post(0), no(14, 20));
    for left in [3, 2, 1, 0] {
        assert_eq!(slot(&mut board), (1, 1));
        assert_eq!(board.waiting(0), Ok(left));
    }
    assert_eq!(slot(&mut board), (0, 0));
}

/// No checked plan leads here: a lane whose first task takes every slot.
#[test]
fn four_jobs_wait() {
    let mut board = board(20, 1, &[(20, 20, 20), (1, 20, 5)], &[0, 0], 0);
    board.post(0).unwrap();
    for round in 0..4 {
        assert_eq!(board.post(1), Ok(20 + 5 * round));
        assert_eq!(board.post(1), no(14, 5 * round + 5));
        for _ in 0..5 {
            board.begin().unwrap();
            board.end(0).unwrap();
        }
    }
    assert_eq!(board.post(1), no(15, 1));
    assert_eq!(board.waiting(1), Ok(4));
}

/// A refused end serves nothing and leaves the slot open; lanes that the box does not have serve nothing either.
#[test]
fn finished_without_a_job() {
    let mut board = board(10, 2, &[(2, 10, 10), (2, 10, 10)], &[0, 1], 7);
    board.post(1).unwrap();
    assert_eq!(board.end(0), no(17, 7));
    assert_eq!(board.begin(), Ok(2));
    assert_eq!(board.end(0b1111_1111), no(18, 0));
    assert_eq!(board.end(0b1000_0110), no(18, 2));
    assert_eq!(board.end(0b1000_0010), no(18, 7));
    assert_eq!(board.begin(), no(16, 7));
    assert_eq!(board.clock(), 7);
    assert_eq!(board.end(0), Ok(0));
    assert_eq!(slot(&mut board), (2, 2));
    assert_eq!(slot(&mut board), (0, 0));
}

/// A task or lane that is not there counts before the slot; an open slot counts before an early post.
#[test]
fn the_first_refusal_counts() {
    let mut board = board(10, 2, &[(2, 10, 10)], &[0], 3);
    assert_eq!(board.serving(2), no(11, 2));
    assert_eq!(board.serving(1), no(17, 3));
    assert_eq!(board.waiting(1), no(13, 1));
    assert_eq!(board.post(u32::MAX), no(13, u32::MAX.into()));
    board.post(0).unwrap();
    board.begin().unwrap();
    assert_eq!(board.serving(2), no(11, 2));
    assert_eq!(board.serving(u32::MAX), no(11, u32::MAX.into()));
    assert_eq!(board.post(1), no(13, 1));
    assert_eq!(board.post(0), no(16, 3));
    assert_eq!(board.waiting(0), Ok(1));
}

/// At the clock's end no slot begins, but a job is still taken.
#[test]
fn the_end_of_the_clock() {
    let mut board = board(10, 1, &[(2, 10, 10)], &[0], LAST_CLOCK - 1);
    assert_eq!(slot(&mut board), (0, 0));
    assert_eq!(board.clock(), LAST_CLOCK);
    assert_eq!(board.post(0), Ok(LAST_CLOCK + 10));
    assert_eq!(board.post(0), no(14, LAST_CLOCK + 10));
    assert_eq!(board.begin(), no(19, LAST_CLOCK));
    assert_eq!(board.end(0), no(17, LAST_CLOCK));
}

#[test]
fn a_board_without_tasks() {
    let mut board = board(1, 1, &[], &[], 0);
    assert_eq!(board.post(0), no(13, 0));
    assert_eq!(board.begin(), Ok(0));
    assert_eq!(board.serving(0), Ok(None));
    assert_eq!(board.end(1), no(18, 0));
    assert_eq!(board.end(0), Ok(0));
    assert_eq!(board.clock(), 1);
}

fn line(call: u32, argument: u32) -> Line {
    Line {
        call,
        argument,
        code: 77,
        value: 77,
    }
}

/// Linear or else exact has all three tasks of the office on lane 0.
#[test]
fn a_played_day() {
    let calls = [(0, 1), (0, 1), (1, 0), (3, 0), (3, 1), (3, 2), (2, 256), (4, 1), (5, 0), (u32::MAX, 0), (2, 0)];
    let answers = [(0, 4), (14, 5), (0, 1), (0, 1), (1, 0), (11, 2), (0, 1), (0, 0), (0, 1), (0, 1), (17, 1)];
    let mut lines = calls.map(|(call, argument)| line(call, argument));
    let mut plan = [9; 3];
    assert_eq!(play(OFFICE, &mut plan, 0, &mut lines), 0);
    assert_eq!(plan, [0, 0, 0]);
    assert_eq!(lines.map(|line| (line.code, line.value)), answers);
}

#[test]
fn a_refused_day_leaves_plan_and_lines() {
    let full = sheet(1, 1, &[(1, 1, 1); 3]);
    for (sheet, room, number) in [(OFFICE, 2, 10), (OFFICE, 4, 10), (&OFFICE[..20], 3, 1), (&full, 3, 12), (&full, 4, 10)] {
        let mut lines = [line(0, 0); 2];
        let mut plan = vec![9; room];
        assert_eq!(play(sheet, &mut plan, 0, &mut lines), number);
        assert_eq!(plan, vec![9; room]);
        assert_eq!(lines, [line(0, 0); 2]);
    }
}

/// A list of tasks with short gaps, of which many have limits past their gaps. Few tasks may have much work each.
fn any_list(dice: &mut Dice) -> List {
    let (most, thin) = dice.one_of(&[(3, 1), (6, 2), (12, 4), (32, 8)]);
    let tasks: Vec<_> = (0..dice.from(1, most)).map(|_| any_task(dice, thin)).collect();
    read(&sheet(720, dice.from(1, 4) as u8, &tasks)).unwrap()
}

/// A long job over a task with a short gap, whose jobs queue up meanwhile: up to four of (1, 20, 5) under (15, 16, 120).
fn queueing_list(dice: &mut Dice) -> List {
    let work = dice.from(8, 15);
    let gap = dice.from(4, 6);
    read(&sheet(720, 1, &[(1, 4 * gap, gap), (work, work + 1, 120)])).unwrap()
}

fn any_task(dice: &mut Dice, thin: u32) -> (u32, u32, u32) {
    let gap = dice.one_of(&[4, 5, 6, 8, 10, 12, 20, 30, 60]);
    let limit = dice.from(gap / 2, 4 * gap);
    (dice.from(1, (gap.min(limit) / thin).max(1)), limit, gap)
}

/// One random call on both boards, with good and bad arguments.
fn call_both(dice: &mut Dice, count: u32, fast: &mut Board, plain: &mut PlainBoard) {
    match dice.below(16) {
        0..6 => {
            let task = dice.from(0, count + 1);
            assert_eq!(fast.post(task), plain.post(task));
        }
        6..9 => assert_eq!(fast.begin(), plain.begin()),
        9..12 => {
            let any = dice.next() as u8;
            let finished = dice.one_of(&[0, 0, 0, 0, 0, 0, 0, 0, 0, 1, 2, 4, 8, 16, any]);
            assert_eq!(fast.end(finished), plain.end(finished));
        }
        12 | 13 => {
            let lane = dice.from(0, 5);
            assert_eq!(fast.serving(lane), plain.serving(lane));
        }
        14 => {
            let task = dice.from(0, count + 1);
            assert_eq!(fast.waiting(task), plain.waiting(task));
        }
        _ => assert_eq!(fast.clock(), plain.clock()),
    }
}

/// Under either test, so that several jobs of a task wait; nothing is ever late, and no queue is ever too short.
#[test]
fn random_days_are_those_of_the_plain_board() {
    let mut dice = Dice::new(9);
    let (mut days, mut most_waiting) = (0, 0);
    while days < 300 {
        let list = if days % 4 == 0 {
            queueing_list(&mut dice)
        } else {
            any_list(&mut dice)
        };
        let Some(plan) = first_fit(&list, |row, asked| linear(list.grid(), row, asked) || exact(row, asked)) else {
            continue;
        };
        let start = dice.one_of(&[0, 1, 1_000_000, LAST_CLOCK - 200]);
        let (mut fast, mut plain) = (Board::new(&list, &plan, start), PlainBoard::new(&list, &plan, start));
        for _ in 0..3_000 {
            call_both(&mut dice, list.tasks().len() as u32, &mut fast, &mut plain);
            assert!(!plain.has_late_job());
            most_waiting = most_waiting.max(plain.most_waiting());
        }
        days += 1;
    }
    assert!(most_waiting >= 3, "{most_waiting}");
}

/// Plans that no check would pass: late jobs and full queues, and still the same answers.
#[test]
fn crowded_days_are_those_of_the_plain_board() {
    let mut dice = Dice::new(10);
    let mut most_waiting = 0;
    for _ in 0..100 {
        let list = any_list(&mut dice);
        let plan: Vec<u8> = list.tasks().iter().map(|_| dice.below(list.lanes() as u64) as u8).collect();
        let (mut fast, mut plain) = (Board::new(&list, &plan, 0), PlainBoard::new(&list, &plan, 0));
        for _ in 0..3_000 {
            call_both(&mut dice, list.tasks().len() as u32, &mut fast, &mut plain);
            most_waiting = most_waiting.max(plain.most_waiting());
        }
    }
    assert_eq!(most_waiting, 4);
}
