//! Compares the installer's call with the reference, sheet by sheet: the code and every byte of the plan buffer.

use reference::generate::{Dice, any_lawful, damaged, lawful};
use reference::place::{place_in_fractions, place_linear};
use std::process::exit;

const SEED: u64 = 20_061_107;
const RANDOM_LAWFUL: usize = 250_000;
const RANDOM_DAMAGED: usize = 250_000;
const FEWEST_SHEETS: usize = 100_000;

unsafe extern "C" {
    fn lanes_place(sheet: *const u8, sheet_len: usize, plan: *mut u8, plan_len: usize) -> u32;
}

fn call(sheet: &[u8], plan: &mut [u8]) -> u32 {
    // SAFETY: both are slices of their lengths, and a `&mut` overlaps with nothing.
    unsafe { lanes_place(sheet.as_ptr(), sheet.len(), plan.as_mut_ptr(), plan.len()) }
}

fn hex(bytes: &[u8]) -> String {
    bytes.iter().map(|byte| format!("{byte:02X}")).collect()
}

struct Comparison {
    dice: Dice,
    sheets: usize,
    calls: usize,
    /// How often each code was answered.
    codes: [usize; 256],
}

impl Comparison {
    fn compare_with(&mut self, sheet: &[u8], room: usize) {
        let before: Vec<u8> = (0..room).map(|_| self.dice.next() as u8).collect();
        let (mut proved, mut plain, mut exact) = (before.clone(), before.clone(), before.clone());
        let code = call(sheet, &mut proved);
        let expected = place_linear(sheet, &mut plain);
        let in_fractions = place_in_fractions(sheet, &mut exact);
        if code != expected || proved != plain || expected != in_fractions || plain != exact {
            println!("DIFFERENCE at sheet {}", hex(sheet));
            println!("plan before   {}", hex(&before));
            println!("the call      {code} {}", hex(&proved));
            println!("the reference {expected} {}", hex(&plain));
            println!("in fractions  {in_fractions} {}", hex(&exact));
            exit(1);
        }
        if code != 0 && proved != before {
            println!("A REFUSAL TOUCHED THE PLAN at sheet {}", hex(sheet));
            exit(1);
        }
        self.calls += 1;
        self.codes[code as usize & 255] += 1;
    }

    /// The sheet with a plan buffer that is long, exact or short.
    fn compare(&mut self, sheet: &[u8]) {
        self.sheets += 1;
        let extra = self.dice.below(9) as usize;
        let count = reference::sheet::read(sheet).map_or(32, |list| list.tasks().len());
        self.compare_with(sheet, count + extra);
        if extra != 0 {
            self.compare_with(sheet, count);
        }
        if count != 0 {
            let short = self.dice.below(count as u64) as usize;
            self.compare_with(sheet, short);
        }
    }

    /// The sheet and all that is left of it when it is cut short.
    fn truncations(&mut self, sheet: &[u8]) {
        for end in 0..=sheet.len() {
            self.compare(&sheet[..end]);
        }
    }

    /// Each byte replaced by each value.
    fn overwrites(&mut self, sheet: &[u8]) {
        for at in 0..sheet.len() {
            for byte in 0..=255 {
                let mut other = sheet.to_vec();
                other[at] = byte;
                self.compare(&other);
            }
        }
    }
}

fn main() {
    let office = std::env::args().nth(1).expect("the path of a small sheet");
    let office = std::fs::read(office).expect("a sheet");
    println!("seed {SEED}");
    let mut comparison = Comparison {
        dice: Dice::new(SEED),
        sheets: 0,
        calls: 0,
        codes: [0; 256],
    };
    let mut dice = Dice::new(SEED ^ 1);
    comparison.overwrites(&office);
    comparison.truncations(&office);
    comparison.truncations(&lawful(&mut dice, 4, 32, 16));
    comparison.truncations(&lawful(&mut dice, 1, 0, 1));
    for _ in 0..RANDOM_LAWFUL {
        comparison.compare(&any_lawful(&mut dice));
    }
    for _ in 0..RANDOM_DAMAGED {
        comparison.compare(&damaged(&mut dice));
    }
    for (code, count) in comparison.codes.iter().enumerate().filter(|(_, count)| **count != 0) {
        println!("code {code}: {count}");
    }
    for code in (0..=10).chain([12]) {
        assert!(comparison.codes[code] > 0, "code {code} did not occur");
    }
    let others: usize = comparison.codes[13..].iter().sum::<usize>() + comparison.codes[11];
    assert_eq!(others, 0, "a code occurred that the call never gives");
    assert!(comparison.sheets >= FEWEST_SHEETS);
    println!("{} sheets, {} calls, no difference", comparison.sheets, comparison.calls);
}
