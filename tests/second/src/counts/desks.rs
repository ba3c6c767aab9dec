//! What desks with regions reach: each answer of each call to each sort of desk, how the regions of
//! a tariff stand to the desk's, which of two refusals comes first, what one desk makes of another's
//! marks and tariffs, and the lines that begin with `desk` and are no calls. What is outside a desk is
//! read from the calls alone.

use super::*;
use crate::sheet::REGIONS;
use crate::tariff::Tariff;

pub(super) const ALL: u32 = (1 << REGIONS) - 1;

/// The calls, in the order of their numbers.
const CALLS: [&str; 14] = [
    "set",
    "undo",
    "trial",
    "put",
    "open",
    "ask",
    "confirm",
    "close",
    "drop",
    "benchmark",
    "maximum",
    "quote",
    "direct",
    "rebate",
];

/// The sort of a desk.
pub fn sort(desk: u32) -> &'static str {
    match desk {
        0 => "0",
        ALL => "16383",
        16_384 => "16384",
        32_767 => "32767",
        u32::MAX => "4294967295",
        _ if desk > ALL => "with a higher bit",
        _ => match desk.count_ones() {
            1 => "of one region",
            13 => "of all regions but one",
            _ => "of some regions",
        },
    }
}

/// A set of regions that is neither empty nor has a higher bit.
fn is_set(desk: u32) -> bool {
    (1..=ALL).contains(&desk)
}

fn has(desk: u32, regions: u32) -> bool {
    is_set(desk) && regions & !desk == 0
}

/// How regions stand to those of a desk.
fn stand(desk: u32, regions: u32) -> &'static str {
    match (regions & desk, regions & !desk) {
        (0, _) => "outside",
        (_, 0) if regions == desk => "exactly its regions",
        (_, 0) => "inside",
        (inside, _) if inside == desk => "wider than it",
        _ => "half inside",
    }
}

/// The same, less closely.
fn stand_roughly(desk: u32, regions: u32) -> &'static str {
    match stand(desk, regions) {
        "exactly its regions" => "inside",
        "wider than it" => "half inside",
        other => other,
    }
}

/// Whether a call by a desk is by one that has not all fourteen.
pub(super) fn is_part(desk: Option<u32>) -> bool {
    desk.is_some_and(|desk| desk != ALL)
}

impl Counts {
    /// A line that begins with `desk` and is no call.
    pub(super) fn no_call_by_a_desk(&mut self, words: &[&[u8]], kind: &str) {
        let word = |place: usize| words.get(place).copied().unwrap_or_default();
        let call = String::from_utf8_lossy(word(2)).into_owned();
        let is_call = |word: &[u8]| CALLS.iter().any(|call| call.as_bytes() == word);
        let digits = |word: &[u8]| !word.is_empty() && word.iter().all(u8::is_ascii_digit);
        if kind == "desk takes a number and a call" {
            let what = match word(1) {
                b"" => "nothing behind it",
                number if digits(number) && word(2).is_empty() => "a number alone",
                number if digits(number) => "a number too high",
                word if is_call(word) => "a call without a number",
                _ => "no number",
            };
            count!(self, "error: {kind}: {what}");
        } else if kind.ends_with("is not a number from 0 to 4294967295") {
            count!(self, "error behind desk: not a number, {call}");
        } else if kind == "unknown call" {
            let what = match word(2) {
                b"desk" => "a second desk",
                [b'#', ..] => "a comment",
                word if digits(word) => "a second number",
                _ => "unknown call",
            };
            count!(self, "error behind desk: {what}");
        } else {
            count!(self, "error behind desk: {kind}");
        }
    }

    fn place_of(&self, code: u32) -> Option<usize> {
        let place = (code as usize).wrapping_sub(1);
        (place < PLACES && self.used[place]).then_some(place)
    }

    /// A call by a desk that is named, before it is counted otherwise. `book` is the book after it.
    pub(super) fn by_desk(
        &mut self,
        desk: u32,
        call: &str,
        numbers: &[u32],
        refusal: u64,
        book: &Book,
    ) {
        match refusal {
            0 => count!(self, "desk {}: {call} ok", sort(desk)),
            _ => count!(self, "desk {}: {call} refused {refusal}", sort(desk)),
        }
        let outside = self.is_outside(desk, call, numbers);
        assert!(refusal != 0 || !outside, "desk {desk}: {call} was accepted");
        assert!(refusal != 17 || outside, "desk {desk}: {call} was outside");
        self.which_region(desk, call, refusal);
        let first = numbers.first().copied().unwrap_or(0);
        match call {
            "set" | "undo" | "trial" | "benchmark" | "maximum" | "rebate" => {}
            "put" => self.put_by_desk(desk, numbers, refusal),
            _ if is_set(desk) && desk != ALL => {
                if let Some(place) = self.place_of(first) {
                    let stand = stand(desk, self.records[place][3]);
                    match refusal {
                        0 => count!(self, "{call} by a desk, tariff {stand}: ok"),
                        _ => count!(self, "{call} by a desk, tariff {stand}: refused {refusal}"),
                    }
                }
            }
            _ => {}
        }
        if call == "quote" && refusal == 17 && is_set(desk) {
            let region = 1u32.checked_shl(numbers[1]).unwrap_or(0);
            self.tally.one(if has(desk, region) {
                "quote refused 17, its region inside the desk"
            } else {
                "quote refused 17, its region outside the desk"
            });
        }
        if refusal == 17 {
            match self.to_all_fourteen(call, numbers, book) {
                0 => count!(self, "order: {call} 17 alone"),
                later => count!(self, "order: {call} 17 before {later}"),
            }
        } else if refusal > 0 && outside {
            count!(self, "order: {call} {refusal} before 17");
        }
        self.higher_bit(desk, call, numbers, refusal);
    }

    /// Each region alone, or alone left out.
    fn which_region(&mut self, desk: u32, call: &str, refusal: u64) {
        let call = CALLS.iter().position(|name| *name == call);
        let key = |region: u32| 100 * call.expect("a call") as u64 + u64::from(region);
        let what = match (sort(desk), refusal) {
            ("of one region", 0) => "calls accepted from a desk of one region, by region",
            ("of one region", 17) => "calls refused 17 to a desk of one region, by region",
            ("of all regions but one", 0) => {
                "calls accepted from a desk of all regions but one, by region"
            }
            ("of all regions but one", 17) => {
                "calls refused 17 to a desk of all regions but one, by region"
            }
            _ => return,
        };
        let region = match desk.count_ones() {
            1 => desk.trailing_zeros(),
            _ => (!desk).trailing_zeros(),
        };
        self.tally.different(what, key(region));
    }

    /// PUT looks at the old draft and the new tariff.
    fn put_by_desk(&mut self, desk: u32, numbers: &[u32], refusal: u64) {
        if !is_set(desk) || desk == ALL {
            return;
        }
        let regions = self
            .place_of(numbers[0])
            .map(|place| self.records[place][3]);
        let old = regions.map(|regions| stand_roughly(desk, regions));
        match refusal {
            6 => {}
            7 => {
                let old = old.expect("an open place");
                count!(self, "put by a desk: open tariff {old}: refused 7");
            }
            8 => {
                let old = old.unwrap_or("none");
                count!(self, "put by a desk: old draft {old}, no tariff: refused 8");
            }
            _ => {
                let old = old.unwrap_or("none");
                let new = stand_roughly(desk, numbers[4]);
                let answer = if refusal == 0 { "ok" } else { "refused 17" };
                count!(
                    self,
                    "put by a desk: old draft {old}, new tariff {new}: {answer}"
                );
            }
        }
    }

    /// What the same call answers to the desk with all fourteen: 0, or the number of a refusal.
    fn to_all_fourteen(&self, call: &str, numbers: &[u32], book: &Book) -> u32 {
        let number = |answer: Result<(), Refusal>| answer.map_or_else(Refusal::number, |()| 0);
        let of_open = |why: NotOpened| why.number();
        let first = numbers.first().copied().unwrap_or(0);
        let mut book = book.clone();
        match call {
            "set" | "trial" => number(book.set(numbers[0], numbers[1], numbers[2], &numbers[3..])),
            "undo" => match self.chance {
                Some(_) => 0,
                None => 15,
            },
            "put" => number(book.put(first, &numbers[1..])),
            "open" => book.open(first).map_or_else(of_open, |_| 0),
            "ask" => book.ask(first).map_or_else(of_open, |_| 0),
            "confirm" => number(book.confirm(first).map(drop)),
            "close" => number(book.close(first)),
            "drop" => number(book.drop_code(first)),
            "direct" => number(book.direct(first)),
            "benchmark" => {
                let of = book.benchmark(first, numbers[1], numbers[2], numbers[3]);
                number(of.map(drop))
            }
            "maximum" => {
                let of = book.maximum(first, numbers[1], numbers[2], numbers[3]);
                number(of.map(drop))
            }
            _ => number(
                book.quote(first, numbers[1], numbers[2], &numbers[3..])
                    .map(drop),
            ),
        }
    }

    /// Whether a call is outside a desk, by the tariffs that are read from the calls, whatever else is
    /// wrong with it.
    fn is_outside(&self, desk: u32, call: &str, numbers: &[u32]) -> bool {
        let first = numbers.first().copied().unwrap_or(0);
        let place = self.place_of(first);
        let old = place.is_some_and(|place| !has(desk, self.records[place][3]));
        match call {
            "set" | "undo" | "trial" | "direct" => desk != ALL,
            // What is outside it is refused with 19.
            "rebate" => false,
            "benchmark" | "maximum" => !is_set(desk) || first < 14 && !has(desk, 1 << first),
            "put" => {
                let new = Tariff::new(&numbers[1..]);
                !is_set(desk) || old || new.is_some_and(|new| !has(desk, new.regions()))
            }
            _ => !is_set(desk) || old,
        }
    }

    /// One bit above the fourteen, and nothing else that is wrong with the desk.
    fn higher_bit(&mut self, desk: u32, call: &str, numbers: &[u32], refusal: u64) {
        let higher = desk & !ALL;
        if refusal != 17 || higher.count_ones() != 1 {
            return;
        }
        let what = "higher bits that alone were outside the desk";
        if desk & ALL != 0 && !self.is_outside(desk & ALL, call, numbers) {
            self.tally.different(what, higher.trailing_zeros().into());
        }
    }

    /// A tariff was opened, by either road.
    pub(super) fn opened_by(&mut self, place: usize) {
        self.opened_by_part &= !(1 << place);
        self.opened_by_part |= u32::from(is_part(self.desk)) << place;
    }

    /// An open tariff was closed.
    pub(super) fn closed_by(&mut self, place: usize) {
        let opened_by_part = self.opened_by_part >> place & 1 == 1;
        match (opened_by_part, is_part(self.desk)) {
            (true, true) => self.tally.one("open by a part desk, close by one: ok"),
            (true, false) => self
                .tally
                .one("open by a part desk, close by all fourteen: ok"),
            (false, true) => self
                .tally
                .one("open by all fourteen, close by a part desk: ok"),
            (false, false) => {}
        }
    }
}
