//! Which numbers were answered, how often, and on which rows.

use thawcopper_reference::BadRow;

use crate::call::Difference;

/// The numbers that tell of a bad row.
const OF_A_ROW: [u32; 5] = [21, 22, 23, 24, 25];

/// The numbers of refusals that a conversion has.
pub const OF_A_CONVERSION: [u32; 13] = [1, 3, 4, 5, 6, 7, 8, 9, 21, 22, 23, 24, 25];

/// With those that base text and made names have beside them, and that of a spelling. 12 is given by the program alone,
/// and 2 by none: it is retired.
const NUMBERS: [u32; 16] = [1, 3, 4, 5, 6, 7, 8, 9, 10, 11, 18, 21, 22, 23, 24, 25];

/// How often each number was answered, 0 being an acceptance.
#[derive(Default)]
pub struct Answers([u64; 26]);

impl Answers {
    /// Counts what both sides answer. A number that is none of the list is told, also where both have it.
    pub fn count(&mut self, reference: u32, library: u32) -> Result<(), Difference> {
        for number in [reference, library] {
            if number != 0 && !NUMBERS.contains(&number) {
                let why = if number == 2 { "2 is retired" } else { "that is no number of the list" };
                return Err(format!("the reference answers {}, the library {}: {}", reference, library, why));
            }
        }
        self.0[reference as usize] += 1;
        Ok(())
    }

    pub fn of(&self, number: u32) -> u64 {
        self.0[number as usize]
    }

    pub fn add(&mut self, more: &Answers) {
        for (sum, n) in self.0.iter_mut().zip(more.0) {
            *sum += n;
        }
    }

    pub fn told(&self) -> String {
        NUMBERS.map(|number| format!("{}: {}", number, self.of(number))).join(", ")
    }

    /// What was never met, in words.
    pub fn never_met(&self) -> Vec<String> {
        let never = NUMBERS.into_iter().filter(|number| self.of(*number) == 0);
        never.map(|number| format!("no call was refused by {}", number)).collect()
    }
}

/// Tables by their first bad row.
#[derive(Default)]
pub struct BadRows {
    /// By the number that is told: where it is row 0, and where it is another.
    on_row_0: [u64; 5],
    elsewhere: [u64; 5],
    /// By two faults that the row has, the lower one first.
    pairs: [[u64; 5]; 5],
}

/// All pairs of numbers, each with its indices.
fn all_pairs() -> impl Iterator<Item = (usize, usize)> {
    (0..5).flat_map(|low| (low + 1..5).map(move |high| (low, high)))
}

impl BadRows {
    pub fn count(&mut self, bad: &BadRow) {
        let faults: Vec<usize> = bad.faults.iter().map(|number| *number as usize - 21).collect();
        let by_number = if bad.row == 0 { &mut self.on_row_0 } else { &mut self.elsewhere };
        by_number[faults[0]] += 1;
        for (n, low) in faults.iter().enumerate() {
            for high in &faults[n + 1..] {
                self.pairs[*low][*high] += 1;
            }
        }
    }

    pub fn add(&mut self, more: &BadRows) {
        for n in 0..5 {
            self.on_row_0[n] += more.on_row_0[n];
            self.elsewhere[n] += more.elsewhere[n];
        }
        for (low, high) in all_pairs() {
            self.pairs[low][high] += more.pairs[low][high];
        }
    }

    pub fn told(&self) -> String {
        let by_number = |list: &[u64; 5]| -> String {
            let each: Vec<String> = OF_A_ROW.iter().zip(list).map(|(number, n)| format!("{}: {}", number, n)).collect();
            each.join(", ")
        };
        let pairs: Vec<String> = all_pairs()
            .map(|(low, high)| format!("{} and {}: {}", OF_A_ROW[low], OF_A_ROW[high], self.pairs[low][high]))
            .collect();
        format!(
            "row 0 by number: {}; another row: {}; with two faults: {}",
            by_number(&self.on_row_0),
            by_number(&self.elsewhere),
            pairs.join(", ")
        )
    }

    /// What was never met, in words.
    pub fn never_met(&self) -> Vec<String> {
        let mut never = Vec::new();
        for (n, number) in OF_A_ROW.into_iter().enumerate() {
            if self.on_row_0[n] == 0 {
                never.push(format!("{} was never told of row 0", number));
            }
            if self.elsewhere[n] == 0 {
                never.push(format!("{} was never told of a row behind row 0", number));
            }
        }
        for (low, high) in all_pairs() {
            if self.pairs[low][high] == 0 {
                never.push(format!("no bad row had the faults of both {} and {}", OF_A_ROW[low], OF_A_ROW[high]));
            }
        }
        never
    }
}
