//! Measures the proved calls against the plain reference: same process, same inputs, medians of many rounds, as ratios.
//! Times are processor time of this thread (Linux), so that other work on the machine disturbs less.

use reference::Task;
use reference::board::{LAST_CLOCK, Line, play};
use reference::days::{WAITING, busiest, mixed, queueing, short_gaps};
use reference::generate::{Dice, spell};
use reference::place::{ask_exact, place_either, place_linear};
use std::hint::black_box;
use std::process::exit;

/// Rounds of each measurement, and about how long a round should take.
const ROUNDS: usize = 201;
const ROUND_NANOS: f64 = 200_000.0;

/// The board's day, and the rounds of a call that takes long.
const SLOTS: u32 = 100_000;
const DAY_ROUNDS: usize = 41;

/// The mixed days: a long one, and short ones on sheets with short gaps.
const SEED: u64 = 19_910_301;
const MIXED_CALLS: usize = 100_000;
const SHORT_DAYS: usize = 200;
const SHORT_CALLS: usize = 2_000;

#[repr(C)]
struct Timespec {
    seconds: i64,
    nanos: i64,
}

const THREAD_CPUTIME: i32 = 3;

unsafe extern "C" {
    fn clock_gettime(clock: i32, time: *mut Timespec) -> i32;
    fn lanes_place(sheet: *const u8, sheet_len: usize, plan: *mut u8, plan_len: usize) -> u32;
    fn bench_place_either(sheet: *const u8, sheet_len: usize, plan: *mut u8, plan_len: usize) -> u32;
    fn bench_ask_exact(sheet: *const u8, sheet_len: usize) -> u32;
    fn bench_play(
        sheet: *const u8,
        sheet_len: usize,
        plan: *mut u8,
        plan_len: usize,
        start: u64,
        lines: *mut Line,
        line_count: usize,
    ) -> u32;
}

// SAFETY, of the four: slices are of their lengths, and a `&mut` overlaps with nothing.
fn proved_linear(sheet: &[u8], plan: &mut [u8]) -> u32 {
    unsafe { lanes_place(sheet.as_ptr(), sheet.len(), plan.as_mut_ptr(), plan.len()) }
}

/// Reading alone: with no plan byte the call ends after it.
fn proved_reading(sheet: &[u8], _plan: &mut [u8]) -> u32 {
    proved_linear(sheet, &mut [])
}

fn plain_reading(sheet: &[u8], _plan: &mut [u8]) -> u32 {
    place_linear(sheet, &mut [])
}

fn proved_either(sheet: &[u8], plan: &mut [u8]) -> u32 {
    unsafe { bench_place_either(sheet.as_ptr(), sheet.len(), plan.as_mut_ptr(), plan.len()) }
}

fn proved_exact(sheet: &[u8], _plan: &mut [u8]) -> u32 {
    unsafe { bench_ask_exact(sheet.as_ptr(), sheet.len()) }
}

fn plain_exact(sheet: &[u8], _plan: &mut [u8]) -> u32 {
    ask_exact(sheet)
}

fn proved_play(sheet: &[u8], plan: &mut [u8], start: u64, lines: &mut [Line]) -> u32 {
    let (bytes, room, count) = (sheet.len(), plan.len(), lines.len());
    unsafe { bench_play(sheet.as_ptr(), bytes, plan.as_mut_ptr(), room, start, lines.as_mut_ptr(), count) }
}

/// Nanoseconds of processor time that this thread has had.
fn used() -> u64 {
    let mut time = Timespec { seconds: 0, nanos: 0 };
    // SAFETY: the pointer is to a struct of the C library's layout.
    let status = unsafe { clock_gettime(THREAD_CPUTIME, &mut time) };
    assert_eq!(status, 0);
    time.seconds as u64 * 1_000_000_000 + time.nanos as u64
}

type Call = fn(&[u8], &mut [u8]) -> u32;

/// Nanoseconds of one call, from so many calls.
fn round(call: Call, sheet: &[u8], plan: &mut [u8], calls: u32) -> f64 {
    let start = used();
    for _ in 0..calls {
        black_box(call(black_box(sheet), black_box(&mut *plan)));
    }
    (used() - start) as f64 / f64::from(calls)
}

fn median(mut values: Vec<f64>) -> f64 {
    values.sort_by(f64::total_cmp);
    values[values.len() / 2]
}

/// Both calls on one sheet, in turns, so that both meet the same noise. Their answers and plans must agree first.
fn measure(label: &str, sheet: &[u8], proved: Call, plain: Call, expected: u32) {
    let count = reference::sheet::read(sheet).map_or(0, |list| list.tasks().len());
    let (mut a, mut b) = (vec![0xFF; count], vec![0xFF; count]);
    let code = proved(sheet, &mut a);
    assert_eq!(code, plain(sheet, &mut b), "{label}");
    assert_eq!(a, b, "{label}");
    assert_eq!(code, expected, "{label}");
    let once = round(plain, sheet, &mut b, 1).max(1.0);
    let calls = (ROUND_NANOS / once).clamp(1.0, 10_000.0) as u32;
    let rounds = if calls == 1 { DAY_ROUNDS } else { ROUNDS };
    let (mut of_proved, mut of_plain) = (Vec::new(), Vec::new());
    for _ in 0..rounds {
        of_proved.push(round(proved, sheet, &mut a, calls));
        of_plain.push(round(plain, sheet, &mut b, calls));
    }
    let (proved, plain) = (median(of_proved), median(of_plain));
    println!("| {label} | {code} | {proved:.0} | {plain:.0} | {:.2} |", proved / plain);
}

const GAPS: [u32; 8] = [720, 840, 880, 936, 990, 1001, 1040, 1092];

/// So many tasks on four lanes, each with this work, limits up to four gaps.
fn spread(count: u32, work: u32) -> Vec<u8> {
    sheet_of((0..count).map(|i| {
        let gap = GAPS[(i % 8) as usize];
        Task {
            work,
            limit: gap * (1 + i % 4),
            gap,
        }
    }))
}

/// The same with limits within gaps, so that the exact test has a say.
fn tight(count: u32, work: u32) -> Vec<u8> {
    sheet_of((0..count).map(|i| {
        let gap = GAPS[(i % 8) as usize];
        Task {
            work,
            limit: gap - i,
            gap,
        }
    }))
}

/// Tasks that each want every slot, on one lane: the second in the order finds no lane, so reading and ordering are nearly all.
fn full(count: u32) -> Vec<u8> {
    let tasks = (0..count).map(|i| {
        let gap = GAPS[(i % 8) as usize];
        let work = gap;
        let limit = gap * (1 + i % 4);
        (Task { work, limit, gap }, Vec::new())
    });
    spell(720_720, 1, &tasks.collect::<Vec<_>>())
}

fn sheet_of(tasks: impl Iterator<Item = Task>) -> Vec<u8> {
    let entries: Vec<_> = tasks.map(|task| (task, Vec::new())).collect();
    spell(720_720, 4, &entries)
}

/// The most work with which all tasks still find a lane.
fn most_work(sheet: impl Fn(u32) -> Vec<u8>, place: Call) -> u32 {
    let fits = |work: &u32| place(&sheet(*work), &mut [0; 32]) == 0;
    (1..688).take_while(fits).last().expect("some work that fits")
}

/// A row of so many tasks, all with this gap, that leaves no slot free: the time grows gap by gap up to the widest limit.
fn full_row(row: u32, gap: u32) -> Vec<u8> {
    let asked = Task {
        work: 1,
        limit: 1_048_576,
        gap: 1_048_576,
    };
    let above = (0..row).map(|i| Task {
        work: if i == 0 { gap + 1 - row } else { 1 },
        limit: gap,
        gap,
    });
    let entries: Vec<_> = above.chain([asked]).map(|task| (task, Vec::new())).collect();
    spell(16_777_216, 4, &entries)
}

fn several_wait(line: &Line) -> bool {
    line.call == WAITING && line.code == 0 && line.value > 1
}

/// How many lines were compared, how many had each code, how many told of several waiting jobs of a task, and how many days both
/// sides refused. No line has a code above 19.
#[derive(Default)]
struct Compared {
    lines: usize,
    refused: usize,
    queues: usize,
    codes: [usize; 20],
}

impl Compared {
    /// Both sides play the day, with a plan of so many bytes; code, plan and every line must agree. A refusal leaves plan and lines
    /// as they were.
    fn play_both(&mut self, sheet: &[u8], room: usize, start: u64, day: &[Line]) -> u32 {
        let (mut proved_plan, mut plain_plan) = (vec![0xFF; room], vec![0xFF; room]);
        let (mut proved, mut plain) = (day.to_vec(), day.to_vec());
        let code = proved_play(sheet, &mut proved_plan, start, &mut proved);
        assert_eq!(code, play(sheet, &mut plain_plan, start, &mut plain), "the code of a day");
        assert_eq!(proved_plan, plain_plan, "the plan of a day");
        for (at, (a, b)) in proved.iter().zip(&plain).enumerate() {
            if a != b {
                println!("DIFFERENCE in line {at} on sheet {sheet:02X?}: proved {a:?}, plain {b:?}");
                exit(1);
            }
        }
        if code != 0 {
            assert!(proved == day && proved_plan == vec![0xFF; room], "a refused day left plan and lines as they were");
            self.refused += 1;
            return code;
        }
        self.lines += plain.len();
        plain.iter().for_each(|line| self.codes[line.code as usize] += 1);
        self.queues += plain.iter().filter(|line| several_wait(line)).count();
        code
    }

    fn print(&self, label: &str) {
        let occurred = self.codes.iter().enumerate().filter(|(_, count)| **count != 0);
        let counts: Vec<_> = occurred.map(|(code, count)| format!("code {code}: {count}")).collect();
        let Compared {
            lines, refused, queues, ..
        } = self;
        print!("{label}: {lines} lines compared, {refused} days refused, no difference; ");
        println!("several jobs of a task wait: {queues}, {}", counts.join(", "));
    }

    /// The refusals that a played day can have. A fifth waiting job (15) never shows on safe lanes.
    fn expect(&self, codes: &[usize]) {
        for &code in codes {
            assert!(self.codes[code] > 0, "code {code} did not occur");
        }
        assert_eq!(self.codes[15], 0, "a fifth job waits");
    }
}

/// The busiest day: nothing in it is refused.
fn compare_busiest(sheet: &[u8], day: &[Line]) {
    let mut compared = Compared::default();
    assert_eq!(compared.play_both(sheet, 32, 0, day), 0);
    compared.print("the measured day");
    assert_eq!(compared.codes[0], day.len(), "each call of the measured day is accepted");
}

/// Mixed days on the sheet and on many small ones.
fn compare_mixed(sheet: &[u8]) {
    let mut dice = Dice::new(SEED);
    let mut compared = Compared::default();
    assert_eq!(compared.play_both(sheet, 32, 0, &mixed(&mut dice, MIXED_CALLS, 40)), 0);
    compared.print("a mixed day on the same sheet");
    compared.expect(&[0, 1, 11, 13, 14, 16, 17, 18]);
    let mut compared = Compared::default();
    let mut played = 0;
    while played < SHORT_DAYS {
        let sheet = if played % 2 == 0 {
            short_gaps(&mut dice)
        } else {
            queueing(&mut dice)
        };
        let count = reference::sheet::read(&sheet).expect("a lawful sheet").tasks().len();
        let day = mixed(&mut dice, SHORT_CALLS, count as u32 + 1);
        let start = dice.one_of(&[0, 100, LAST_CLOCK - 200, LAST_CLOCK, LAST_CLOCK + 1]);
        let code = compared.play_both(&sheet, count, start, &day);
        played += usize::from(code == 0);
    }
    compared.print("mixed days on sheets with short gaps");
    compared.expect(&[0, 1, 11, 13, 14, 16, 17, 18, 19]);
    assert!(compared.queues > 0, "never did several jobs of a task wait");
}

/// Days that are refused: no fit, a plan too short or too long, a sheet cut short, no sheet at all, and a start past the clock's end.
fn compare_refused(fits: &[u8], no_fit: &[u8]) {
    let day = mixed(&mut Dice::new(SEED), 100, 40);
    let mut compared = Compared::default();
    let cut = &fits[..fits.len() - 1];
    for (sheet, room, expected) in
        [(no_fit, 32, 12), (fits, 31, 10), (fits, 33, 10), (no_fit, 31, 10), (cut, 32, 1), (&[], 32, 1)]
    {
        assert_eq!(compared.play_both(sheet, room, 0, &day), expected);
        assert_eq!(compared.play_both(sheet, room, u64::MAX, &day), expected);
    }
    assert_eq!(compared.play_both(fits, 32, LAST_CLOCK + 1, &day), 19);
}

type Play = fn(&[u8], &mut [u8], u64, &mut [Line]) -> u32;

/// Nanoseconds of one slot, from one day.
fn day_round(play: Play, sheet: &[u8], plan: &mut [u8], lines: &mut [Line]) -> f64 {
    let start = used();
    black_box(play(black_box(sheet), black_box(plan), black_box(0), black_box(lines)));
    (used() - start) as f64 / f64::from(SLOTS)
}

/// Both sides play the day in turns, over the same plan and lines, so that neither has the better memory. The lines are not cleared
/// between rounds: each play writes code and value of every line again, and reads neither.
fn measure_day(label: &str, sheet: &[u8], day: &[Line]) {
    let (mut plan, mut lines) = ([0xFF; 32], day.to_vec());
    let (mut of_proved, mut of_plain) = (Vec::new(), Vec::new());
    for _ in 0..DAY_ROUNDS {
        of_proved.push(day_round(proved_play, sheet, &mut plan, &mut lines));
        of_plain.push(day_round(play, sheet, &mut plan, &mut lines));
    }
    let (proved, plain) = (median(of_proved), median(of_plain));
    println!("| {label} | 0 | {proved:.1} | {plain:.1} | {:.2} |", proved / plain);
}

fn main() {
    let either = most_work(|work| tight(32, work), place_either);
    let board_sheet = tight(32, either);
    let day = busiest(reference::sheet::read(&board_sheet).expect("a lawful sheet").tasks(), SLOTS);
    compare_busiest(&board_sheet, &day);
    compare_mixed(&board_sheet);
    compare_refused(&board_sheet, &tight(32, either + 1));
    println!();
    println!("| Call | Answer | Proved, ns | Plain Rust, ns | Ratio |");
    println!("|---|---|---|---|---|");
    let linear = most_work(|work| spread(32, work), place_linear);
    let linear_only = most_work(|work| tight(32, work), place_linear);
    measure("reading alone, 32 tasks", &spread(32, linear), proved_reading, plain_reading, 10);
    measure("reading and ordering, 32 tasks", &full(32), proved_linear, place_linear, 12);
    measure("linear, 32 tasks, fits", &spread(32, linear), proved_linear, place_linear, 0);
    measure("linear, 32 tasks, no fit", &spread(32, linear + 1), proved_linear, place_linear, 12);
    measure("either, 32 tasks, fits, as by linear", &tight(32, linear_only), proved_either, place_either, 0);
    measure("either, 32 tasks, fits, not by linear", &tight(32, either), proved_either, place_either, 0);
    measure("either, 32 tasks, no fit", &tight(32, either + 1), proved_either, place_either, 12);
    for count in [4, 8, 16, 32] {
        let sheet = spread(count, linear);
        measure(&format!("linear, {count} tasks"), &sheet, proved_linear, place_linear, 0);
    }
    for count in [4, 8, 16, 32] {
        let sheet = tight(count, either);
        measure(&format!("either, {count} tasks"), &sheet, proved_either, place_either, 0);
    }
    measure("exact, widest limit, a row of 1 task", &full_row(1, 1), proved_exact, plain_exact, 12);
    measure("exact, widest limit, a row of 31 tasks", &full_row(31, 32), proved_exact, plain_exact, 12);
    measure_day("board, 32 tasks on 4 lanes, one slot of 100,000", &board_sheet, &day);
}
