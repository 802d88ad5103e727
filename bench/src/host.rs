//! The same by the proved calls for programs in C.

use crate::outcome::{Ground, Outcome, Strike};
use crate::table::Table;

unsafe extern "C" {
    fn comparer_begin(
        n: usize,
        labels: *const u8,
        labels_len: usize,
        steps: *const u8,
        steps_len: usize,
        sheet: *mut u8,
        sheet_len: usize,
        pairs: *mut u8,
        pairs_len: usize,
        strikes: *const u8,
        strikes_len: usize,
    ) -> u8;

    fn comparer_settle(
        n: usize,
        labels: *const u8,
        labels_len: usize,
        steps: *const u8,
        steps_len: usize,
        sheet: *mut u8,
        sheet_len: usize,
        pairs: *mut u8,
        pairs_len: usize,
        strikes: *mut u8,
        strikes_len: usize,
        answer: *mut u8,
        answer_len: usize,
    ) -> u8;
}

/// A table in bytes, and the areas that the calls want.
pub struct Host {
    count: usize,
    labels: Vec<u8>,
    steps: Vec<u8>,
    sheet: [u8; 4],
    pairs: Vec<u8>,
    strikes: Vec<u8>,
    answer: [u8; 4],
}

impl Host {
    pub fn new(table: &Table) -> Host {
        let n = table.count();
        Host {
            count: n,
            labels: table
                .labels
                .iter()
                .flat_map(|label| label.to_le_bytes())
                .collect(),
            steps: table.steps.iter().map(|&step| u8::from(step)).collect(),
            sheet: [0; 4],
            pairs: vec![0; n * n],
            strikes: vec![0; 4 * n * n],
            answer: [0; 4],
        }
    }

    /// Begins a sheet and settles it.
    pub fn settle(&mut self) {
        self.begin();
        // SAFETY: each area is passed with its own length, and none overlaps another.
        let refused = unsafe {
            comparer_settle(
                self.count,
                self.labels.as_ptr(),
                self.labels.len(),
                self.steps.as_ptr(),
                self.steps.len(),
                self.sheet.as_mut_ptr(),
                self.sheet.len(),
                self.pairs.as_mut_ptr(),
                self.pairs.len(),
                self.strikes.as_mut_ptr(),
                self.strikes.len(),
                self.answer.as_mut_ptr(),
                self.answer.len(),
            )
        };
        assert_eq!(refused, 0, "settling is refused");
    }

    fn begin(&mut self) {
        // SAFETY: as in `settle`.
        let refused = unsafe {
            comparer_begin(
                self.count,
                self.labels.as_ptr(),
                self.labels.len(),
                self.steps.as_ptr(),
                self.steps.len(),
                self.sheet.as_mut_ptr(),
                self.sheet.len(),
                self.pairs.as_mut_ptr(),
                self.pairs.len(),
                self.strikes.as_ptr(),
                self.strikes.len(),
            )
        };
        assert_eq!(refused, 0, "beginning is refused");
    }

    /// What the areas say after settling.
    pub fn outcome(&self) -> Outcome {
        let [made, passes] =
            [0, 2].map(|at| u16::from_le_bytes([self.answer[at], self.answer[at + 1]]).into());
        Outcome {
            stands: self.pairs.iter().map(|&byte| byte != 0).collect(),
            strikes: self.strikes.chunks(4).take(made).map(strike_in).collect(),
            passes,
        }
    }
}

fn strike_in(four: &[u8]) -> Strike {
    Strike {
        first: four[0].into(),
        second: four[1].into(),
        ground: if four[2] == 0 {
            Ground::ByLabel
        } else {
            Ground::ByStep(four[3].into())
        },
    }
}
