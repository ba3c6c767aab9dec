//! What sheets with a saving, an SMNCC below zero, reach: SMNCC at its edges, OC next to zero,
//! and the calls while such a sheet is in force.

use super::*;
use crate::script::SMNCC_EDGES;
use crate::sheet::{operating_costs, COMMON_FIELDS, SMNCC};

/// Whether SMNCC of an accepted sheet is below zero.
pub(super) fn is_saving(fields: &[u32]) -> bool {
    field_value(SMNCC, fields[SMNCC]) < 0
}

impl Counts {
    /// SMNCC in a call that takes a sheet, if the call got as far as it.
    pub(super) fn smncc(&mut self, call: &str, fields: &[u32], refusal: u64) {
        let answer = match refusal {
            0 => "ok",
            2 if only_outside(fields) == Some(SMNCC) => "refused 2",
            4 => "refused 4",
            5 => "refused 5",
            14 => "refused 14",
            _ => return,
        };
        if SMNCC_EDGES.contains(&fields[SMNCC]) && [0, 2, 14].contains(&refusal) {
            let smncc = field_value(SMNCC, fields[SMNCC]);
            count!(self, "{call} with an SMNCC of {smncc}: {answer}");
        }
        if refusal == 2 || !is_saving(fields) {
            return;
        }
        if refusal != 14 {
            count!(self, "{call} with a saving: {answer}");
        }
        let common: &[u32; COMMON_FIELDS] = fields.first_chunk().expect("96 fields");
        let Ok(four) = operating_costs(common) else {
            return;
        };
        let lowest = four.into_iter().min().expect("four of them");
        if [-1, 0, 1].contains(&lowest) && [0, 14].contains(&refusal) {
            count!(
                self,
                "{call} with a saving, lowest OC of {lowest}: {answer}"
            );
        }
        if lowest < 0 {
            self.below_zero(call, fields, refusal, four);
        }
    }

    /// A sheet with some OC below zero, refused for that or for a term.
    fn below_zero(&mut self, call: &str, fields: &[u32], refusal: u64, four: [i64; 4]) {
        if refusal == 4 {
            if let Some(field) = only_too_high(fields) {
                let what = name(
                    call,
                    "terms too high beside an OC below zero",
                    "terms tried, too high beside an OC below zero",
                );
                self.tally.different(what, field as u64);
            }
            return;
        }
        let mut below = (0..4).filter(|&place| four[place] < 0);
        if let (Some(place), None) = (below.next(), below.next()) {
            let what = name(
                call,
                "OCs that alone were below zero",
                "OCs tried that alone were below zero",
            );
            self.tally.different(what, place as u64);
            if four[place] == -1 {
                let what = name(
                    call,
                    "OCs that alone were -1",
                    "OCs tried that alone were -1",
                );
                self.tally.different(what, place as u64);
            }
        }
    }

    /// What is asked while the sheet in force has a saving.
    pub(super) fn under_a_saving(&mut self, call: &str, refusal: u64, values: &[u64]) {
        if !self.saving {
            return;
        }
        match (call, refusal) {
            (
                "trial" | "open" | "ask" | "confirm" | "benchmark" | "maximum" | "quote" | "rebate",
                0,
            ) => {
                count!(self, "under a saving: {call} ok");
            }
            ("open" | "ask", 11) => count!(self, "under a saving: {call} refused 11"),
            _ => {}
        }
        if (call, refusal) == ("quote", 0) && values[0] == values[1] {
            self.tally.one("under a saving: quote exactly at the cap");
        }
    }
}
