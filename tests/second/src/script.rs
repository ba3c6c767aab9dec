//! Random scripts for the desk.
//!
//! The writer plays each call on a book of its own, so it knows which codes are open and
//! where the cap lies, and goes for the edges: tariffs at the cap and a mill to either
//! side, worst months that tie, sheets at the edge of each refusal.

mod desks;
mod directions;
mod edges;
mod lists;
mod marks;
mod noise;
mod orders;
mod rebates;
mod regions;
mod savings;
mod sheets;
mod splits;
mod tariffs;
mod trials;
mod two_books;
mod undos;

pub use edges::all_periods;
pub use lists::{Beginning, BEGINNINGS, BEGINNINGS_WITH_DESKS, LISTS, LISTS_WITH_DESKS};
pub(crate) use savings::SMNCC_EDGES;
pub(crate) use splits::{is_share_edge, DRAFTED};
pub use two_books::{two_books, Line, Said, TwoBooks};

use crate::book::{Account, Book, State};
use crate::desk::LINE_LIMIT;
use crate::random::Random;
use crate::regions::DeskRegions;
use crate::sheet::{
    field_range, field_value, operating_costs, COMMON_FIELDS, FIELDS, PEAK_SHARE, REGIONS, SMNCC,
};
use crate::tally::Tally;
use crate::tariff::{MONTH_LIMIT, RATE_LIMIT, RECORD, REGIONAL, STANDING_LIMIT, WHOLE};
use crate::{period_days, Breach, NotOpened, Refusal};

const MONEY: u32 = 100_000_000;
const ALL_REGIONS: u32 = (1 << REGIONS) - 1;

/// A part of a script is handed out when it has this many bytes.
const PART: usize = 1 << 16;

/// A cost sheet with its period.
#[derive(Clone, Debug)]
struct Dated {
    year: u32,
    month: u32,
    t: u32,
    fields: Vec<u32>,
}

/// The reference sheet of document 01, with the drafted split of Economy 7.
pub fn reference_fields() -> [u32; FIELDS] {
    let mut fields = [0; FIELDS];
    fields[0..4].copy_from_slice(&[0, 30_000_000, 0, 36_000_000]);
    fields[4..8].copy_from_slice(&[0, 1_000_000, 0, 1_000_000]);
    fields[8..12].copy_from_slice(&[1_000_000, 8_000_000, 1_000_000, 8_000_000]);
    fields[12..16].copy_from_slice(&[5_000_000, 9_000_000, 5_000_000, 9_000_000]);
    fields[16..22].copy_from_slice(&[10_000, 10_000, 20_000, 0, 400_000, 0]);
    fields[22..29].copy_from_slice(&[1_000, 100, 100, 100, 100, 100, 100]);
    fields[29..36].copy_from_slice(&[1_100, 100, 105, 100, 100, 100, 100]);
    fields[36] = 500_000;
    for pair in fields[37..93].chunks_mut(2) {
        pair.copy_from_slice(&[2_000_000, 12_000_000]);
    }
    fields[93..95].copy_from_slice(&[3_000, 4_000]);
    fields[PEAK_SHARE] = DRAFTED;
    fields
}

fn reference() -> Dated {
    Dated {
        year: 2023,
        month: 10,
        t: 3,
        fields: reference_fields().to_vec(),
    }
}

/// What can be asked of the writer next.
#[derive(Clone, Copy)]
enum Turn {
    Set,
    Trial,
    Put,
    Open,
    Close,
    Drop,
    Benchmark,
    Maximum,
    Quote,
    Edge,
    Fill,
    TwoFaults,
    FieldEnd,
    Splits,
    Regions,
    Undo,
    Undos,
    Ask,
    Confirm,
    Marks,
    Desks,
    Direct,
    Directions,
    Rebate,
}

/// Turns of a random script, by weight.
const TURNS: [(Turn, u64); 24] = [
    (Turn::Set, 34),
    (Turn::Trial, 24),
    (Turn::Put, 170),
    (Turn::Open, 190),
    (Turn::Close, 70),
    (Turn::Drop, 90),
    (Turn::Benchmark, 80),
    (Turn::Maximum, 80),
    (Turn::Quote, 190),
    (Turn::Edge, 45),
    (Turn::Fill, 1),
    (Turn::TwoFaults, 19),
    (Turn::FieldEnd, 3),
    (Turn::Splits, 8),
    (Turn::Regions, 12),
    (Turn::Undo, 20),
    (Turn::Undos, 9),
    (Turn::Ask, 40),
    (Turn::Confirm, 30),
    (Turn::Marks, 16),
    (Turn::Desks, 30),
    (Turn::Direct, 14),
    (Turn::Directions, 12),
    (Turn::Rebate, 36),
];

/// Turns of a speed script: one in a hundred is a sheet.
const SPEED_TURNS: [(Turn, u64); 8] = [
    (Turn::Set, 10),
    (Turn::Put, 130),
    (Turn::Open, 130),
    (Turn::Close, 100),
    (Turn::Drop, 80),
    (Turn::Benchmark, 100),
    (Turn::Maximum, 100),
    (Turn::Quote, 350),
];

fn turn(random: &mut Random, turns: &[(Turn, u64)]) -> Turn {
    let mut left = random.below(turns.iter().map(|&(_, weight)| weight).sum());
    for &(turn, weight) in turns {
        if left < weight {
            return turn;
        }
        left -= weight;
    }
    unreachable!("the weights add up")
}

/// Numbers that a careless program takes for small ones.
const FAR: [u32; 14] = [
    64,
    65,
    128,
    255,
    256,
    257,
    65_535,
    65_536,
    65_537,
    0x7fff_ffff,
    0x8000_0000,
    0x8000_0001,
    0xffff_fffe,
    0xffff_ffff,
];

/// Who makes the calls.
#[derive(Clone, Copy, Debug, PartialEq, Eq)]
enum Whose {
    /// A desk with all fourteen regions, which is not named.
    Unnamed,
    /// This desk.
    One(u32),
    /// The same, and one that is not named for some of SET, TRIAL and UNDO.
    Mostly(u32),
    /// For each call another desk, chosen for it.
    Each,
}

/// Writes a script part by part, whole lines in each, and keeps count of what it was written
/// to reach.
pub struct Writer {
    random: Random,
    book: Book,
    /// A book with the same sheet, for trying tariffs out at code 1.
    scratch: Book,
    sheet: Dated,
    /// The sheet before the last SET that was taken.
    before: Dated,
    records: [Option<[u32; RECORD]>; 32],
    breach: Option<(u32, Breach)>,
    /// Desks are named in some of the lines.
    desks: bool,
    whose: Whose,
    /// The set of regions that tariffs and questions are to be in, if there is one.
    within: Option<u32>,
    /// Odd spacing, zeros and line ends.
    quirks: bool,
    /// Calls to be written.
    limit: usize,
    calls: usize,
    /// Calls at the start that are made without a sheet, but for those that are taken back.
    bare: usize,
    /// The field to be spoilt next; they take their turns.
    spoilt: usize,
    /// The indexed term to be brought to its limit next.
    term: usize,
    /// The end of a field's range to be gone to next.
    field_end: usize,
    /// The OC of the four that is to be the lowest next.
    low: usize,
    /// What has been written and not handed out.
    text: Vec<u8>,
    ended: bool,
    tally: Tally,
}

/// A random list of `calls` calls, with some other lines between them.
pub fn script(seed: u64, calls: usize) -> Vec<u8> {
    Writer::new(seed, calls).flatten().collect()
}

impl Iterator for Writer {
    type Item = Vec<u8>;

    fn next(&mut self) -> Option<Vec<u8>> {
        while self.text.len() < PART && self.calls < self.limit {
            self.noise();
            match turn(&mut self.random, &TURNS) {
                // A while without a sheet; whatever SET is called now is refused or taken back.
                Turn::Set if self.calls < self.bare && self.random.one_in(3) => {
                    self.first_sheet_taken_back();
                }
                Turn::Set if self.calls < self.bare && self.desks && self.random.one_in(4) => {
                    self.for_all_fourteen();
                }
                Turn::Set if self.calls < self.bare => {
                    let mut dated = self.good_sheet();
                    self.spoil(&mut dated);
                    if self.scratch.clone().set_dated(&dated).is_err() {
                        self.set(&dated);
                    }
                }
                turn => self.take_by_some_desk(turn),
            }
        }
        if self.calls == self.limit && !self.ended {
            self.ended = true;
            if self.random.one_in(2) {
                self.text.pop();
            }
        }
        (!self.text.is_empty()).then(|| std::mem::take(&mut self.text))
    }
}

/// A script of exactly `lines` well-formed calls, as of a working day.
pub fn speed_script(seed: u64, lines: usize) -> Vec<u8> {
    let mut writer = Writer::plain_lines(seed, lines);
    writer.set(&reference());
    while writer.calls < lines {
        match turn(&mut writer.random, &SPEED_TURNS) {
            Turn::Set => {
                let mut dated = reference();
                writer.shift(&mut dated, true);
                writer.set(&dated);
            }
            Turn::Put => {
                let state = writer
                    .random
                    .pick(&[State::Empty, State::Empty, State::Draft]);
                let code = writer.code_in(state, 60);
                let record = writer.common_record();
                writer.put(code, &record);
            }
            Turn::Open => {
                let code = writer.code_in(State::Draft, 60);
                writer.open(code);
            }
            Turn::Close => {
                let code = writer.code_in(State::Open, 60);
                writer.close(code);
            }
            Turn::Drop => {
                let code = writer.code_in(State::Draft, 60);
                writer.drop_code(code);
            }
            turn => writer.take_plain(turn),
        }
    }
    writer.text
}

impl Book {
    fn set_dated(&mut self, dated: &Dated) -> Result<(), Refusal> {
        self.set_dated_by(DeskRegions::ALL, dated)
    }

    fn set_dated_by(&mut self, desk: DeskRegions, dated: &Dated) -> Result<(), Refusal> {
        self.set_by(desk, dated.year, dated.month, dated.t, &dated.fields)
    }

    fn trial_dated(&self, dated: &Dated) -> Result<u32, Refusal> {
        self.trial_dated_by(DeskRegions::ALL, dated)
    }

    fn trial_dated_by(&self, desk: DeskRegions, dated: &Dated) -> Result<u32, Refusal> {
        self.trial_by(desk, dated.year, dated.month, dated.t, &dated.fields)
    }
}

impl Dated {
    /// The numbers of a call that takes a sheet.
    fn numbers(&self) -> Vec<u32> {
        [&[self.year, self.month, self.t], &self.fields[..]].concat()
    }

    fn value(&self, field: usize) -> i64 {
        field_value(field, self.fields[field])
    }

    fn set_value(&mut self, field: usize, value: i64) {
        self.fields[field] = value as u32;
    }
}

impl Writer {
    /// A writer of a random list of `calls` calls, with some other lines between them.
    pub fn new(seed: u64, calls: usize) -> Writer {
        let mut writer = Writer::without_desks(seed, calls);
        writer.desks = true;
        writer
    }

    /// The same without the word `desk`.
    pub fn without_desks(seed: u64, calls: usize) -> Writer {
        let mut writer = Writer::plain_lines(seed, calls);
        writer.quirks = true;
        writer.bare = (calls / 20).min(1_900);
        writer
    }

    fn plain_lines(seed: u64, limit: usize) -> Writer {
        let mut scratch = Book::new();
        scratch
            .set_dated(&reference())
            .expect("the reference sheet");
        Writer {
            random: Random::new(seed),
            book: Book::new(),
            scratch,
            sheet: reference(),
            before: reference(),
            records: [None; 32],
            breach: None,
            desks: false,
            whose: Whose::Unnamed,
            within: None,
            quirks: false,
            limit,
            calls: 0,
            bare: 0,
            term: 0,
            spoilt: (seed % FIELDS as u64) as usize * 31 % FIELDS,
            field_end: (seed % FIELDS as u64) as usize * 31 % FIELDS,
            low: 0,
            text: Vec::new(),
            ended: false,
            tally: Tally::default(),
        }
    }

    pub fn calls(&self) -> usize {
        self.calls
    }

    /// What was written, as far as the writer had it in mind.
    pub fn tally(self) -> Tally {
        self.tally
    }

    /// Counts what the writer has in mind. A desk may be refused before it gets there.
    fn note(&mut self, what: &str) {
        if self.whose == Whose::Unnamed {
            self.tally.one(what);
        }
    }

    // Lines.

    fn call(&mut self, word: &str, numbers: &[u32]) {
        self.call_by_desk(word, numbers);
    }

    /// Writes a call, and gives the regions of the desk that makes it.
    fn call_by_desk(&mut self, word: &str, numbers: &[u32]) -> DeskRegions {
        let desk = self.desk_for(word, numbers);
        self.write_call(desk, word, numbers);
        desk.map_or(DeskRegions::ALL, DeskRegions::new)
    }

    fn write_call(&mut self, desk: Option<u32>, word: &str, numbers: &[u32]) {
        if self.calls == self.limit {
            return;
        }
        let mut line = String::with_capacity(32 + 8 * numbers.len());
        let odd = self.quirks && self.random.one_in(30);
        let zeros = self.quirks && self.random.one_in(40);
        if odd && self.random.one_in(2) {
            line.push_str(&" ".repeat(1 + self.random.index(3)));
        }
        if let Some(desk) = desk {
            line.push_str("desk");
            self.next_number(&mut line, odd, zeros, desk);
            self.spaces(&mut line, odd);
        }
        line.push_str(word);
        for &number in numbers {
            self.next_number(&mut line, odd, zeros, number);
        }
        if odd && self.random.one_in(2) {
            line.push_str("   ");
        }
        if line.len() >= LINE_LIMIT {
            return self.write_plain_call(desk, word, numbers);
        }
        if self.quirks && self.random.one_in(40) {
            line.push('\r');
        }
        self.calls += 1;
        self.line(line.as_bytes());
    }

    fn spaces(&mut self, line: &mut String, odd: bool) {
        line.push(' ');
        if odd && self.random.one_in(3) {
            line.push_str(&" ".repeat(1 + self.random.index(4)));
        }
    }

    fn next_number(&mut self, line: &mut String, odd: bool, zeros: bool, number: u32) {
        self.spaces(line, odd);
        if zeros && self.random.one_in(4) {
            line.push_str(&"0".repeat(1 + self.random.index(25)));
        }
        line.push_str(&number.to_string());
    }

    fn write_plain_call(&mut self, desk: Option<u32>, word: &str, numbers: &[u32]) {
        let line = plain_line(desk, word, numbers);
        assert!(line.len() <= LINE_LIMIT);
        self.calls += 1;
        self.line(&line);
    }

    fn line(&mut self, line: &[u8]) {
        self.text.extend_from_slice(line);
        self.text.push(b'\n');
    }

    fn set(&mut self, dated: &Dated) {
        let desk = self.call_by_desk("set", &dated.numbers());
        if self.book.set_dated_by(desk, dated).is_ok() {
            self.scratch.set_dated(dated).expect("a sheet taken before");
            self.before = std::mem::replace(&mut self.sheet, dated.clone());
            self.breach = None;
        }
    }

    fn undo(&mut self) {
        let desk = self.call_by_desk("undo", &[]);
        if self.book.undo_by(desk).is_ok() {
            // For the first sheet it is the reference sheet again.
            self.sheet = self.before.clone();
            let set = self.scratch.set_dated(&self.sheet);
            set.expect("a sheet taken before");
            self.breach = None;
        }
    }

    /// Gives the set of codes that would fall.
    fn trial(&mut self, dated: &Dated) -> Result<u32, Refusal> {
        let desk = self.call_by_desk("trial", &dated.numbers());
        self.book.trial_dated_by(desk, dated)
    }

    fn put(&mut self, code: u32, record: &[u32]) {
        let mut numbers = vec![code];
        numbers.extend_from_slice(record);
        let desk = self.call_by_desk("put", &numbers);
        if self.book.put_by(desk, code, record).is_ok() {
            self.records[code as usize - 1] = record.try_into().ok();
        }
    }

    fn open(&mut self, code: u32) {
        let desk = self.call_by_desk("open", &[code]);
        if let Err(NotOpened::OverCap(breach)) = self.book.open_by(desk, code) {
            self.breach = Some((code, breach));
        }
    }

    fn ask(&mut self, code: u32) {
        let desk = self.call_by_desk("ask", &[code]);
        if let Err(NotOpened::OverCap(breach)) = self.book.ask_by(desk, code) {
            self.breach = Some((code, breach));
        }
    }

    fn confirm(&mut self, code: u32) {
        let desk = self.call_by_desk("confirm", &[code]);
        let _ = self.book.confirm_by(desk, code);
    }

    fn direct(&mut self, code: u32) {
        let desk = self.call_by_desk("direct", &[code]);
        let _ = self.book.direct_by(desk, code);
    }

    fn close(&mut self, code: u32) {
        let desk = self.call_by_desk("close", &[code]);
        let _ = self.book.close_by(desk, code);
    }

    fn drop_code(&mut self, code: u32) {
        let desk = self.call_by_desk("drop", &[code]);
        if self.book.drop_code_by(desk, code).is_ok() {
            self.records[code as usize - 1] = None;
        }
    }

    fn quote(&mut self, code: u32, region: u32, method: u32, months: &[u32]) {
        let mut numbers = vec![code, region, method];
        numbers.extend_from_slice(months);
        self.call("quote", &numbers);
    }

    fn rebate(&mut self, accounts: &[Account]) {
        self.call("rebate", &rebates::numbers_of(accounts));
    }

    // Turns.

    fn take(&mut self, turn: Turn) {
        match turn {
            Turn::Set => self.any_set(),
            Turn::Trial => self.any_trial(),
            Turn::Put => self.any_put(),
            Turn::Open => {
                let code = self.code_in(State::Draft, 5);
                self.open(code);
                if self.random.one_in(2) {
                    self.follow_breach();
                }
            }
            Turn::Ask => {
                let code = self.code_in(State::Draft, 5);
                self.ask(code);
                if self.random.one_in(2) {
                    self.follow_breach();
                }
            }
            Turn::Confirm => {
                let code = self.code_to_confirm();
                self.confirm(code);
            }
            Turn::Close => {
                let code = self.code_in(State::Open, 3);
                self.close(code);
            }
            Turn::Drop => {
                let code = self.code_in(State::Draft, 3);
                self.drop_code(code);
            }
            Turn::Edge => self.edge(),
            Turn::Fill => match self.random.below(5) {
                0 => self.marks_of_32(),
                1..=2 => self.trials_of_32(),
                _ => self.fill(),
            },
            Turn::TwoFaults => self.two_faults(),
            Turn::FieldEnd => self.end_of_a_field(),
            Turn::Splits => self.splits(),
            Turn::Regions => self.regions(),
            Turn::Undo => self.undo(),
            Turn::Undos => self.undos(),
            Turn::Marks => self.marks(),
            Turn::Desks => self.desks(),
            Turn::Direct => {
                let code = self.code_in(State::Draft, 4);
                self.direct(code);
            }
            Turn::Directions => self.directions(),
            Turn::Rebate => self.any_rebate(),
            Turn::Benchmark | Turn::Maximum | Turn::Quote => {
                if self.random.one_in(4) {
                    self.take_odd(turn);
                } else {
                    self.take_plain(turn);
                }
            }
        }
    }

    /// Questions within their ranges.
    fn take_plain(&mut self, turn: Turn) {
        let region = self.region();
        let arrangement = self.random.between(0, 1);
        let method = self.random.between(0, 1);
        match turn {
            Turn::Benchmark => {
                let level = self.random.between(0, 1);
                self.call("benchmark", &[region, arrangement, method, level]);
            }
            Turn::Maximum => {
                let total = self.total();
                self.call("maximum", &[region, arrangement, method, total]);
            }
            _ => {
                let Some(code) = self.used_code() else {
                    return self.call("benchmark", &[region, arrangement, method, 0]);
                };
                self.plain_quote(code);
            }
        }
    }

    /// A quote of a used code, in a cell that it is offered in.
    fn plain_quote(&mut self, code: u32) {
        let record = self.record(code);
        let region = self.random_bit(record[3]);
        let method = self.random_bit(record[4]);
        let t = self.book.t().unwrap_or(3) as usize;
        let months = self.months(&record, t);
        self.quote(code, region, method, &months);
    }

    /// Questions with something out of its range.
    fn take_odd(&mut self, turn: Turn) {
        let mut region = self.region();
        let mut arrangement = self.random.between(0, 1);
        let mut method = self.random.between(0, 1);
        match turn {
            Turn::Benchmark => {
                let mut level = self.random.between(0, 1);
                match self.random.below(5) {
                    0 => region = self.past(14),
                    1 => arrangement = self.past(2),
                    2 => method = self.past(2),
                    3 => level = self.past(2),
                    _ => (region, level) = (self.past(14), self.past(2)),
                }
                self.call("benchmark", &[region, arrangement, method, level]);
            }
            Turn::Maximum => {
                let mut total = self.total();
                match self.random.below(6) {
                    0 => region = self.past(14),
                    1 => arrangement = self.past(2),
                    2 => method = self.past(2),
                    3 => total = 120_001,
                    4 => total = self.random.between(120_001, u32::MAX),
                    _ => total = u32::MAX,
                }
                self.call("maximum", &[region, arrangement, method, total]);
            }
            _ => {
                let way = self.random.below(13);
                let code = match way {
                    0 => self.bad_code(),
                    1 => self.code_in(State::Empty, 1_000),
                    _ => self.used_code().unwrap_or(1),
                };
                let record = self.used_record(code).unwrap_or(FREE);
                region = self.random_bit(record[3]);
                method = self.random_bit(record[4]);
                let t = self.book.t().unwrap_or(3) as usize;
                let mut months = self.months(&record, t);
                match way {
                    0 | 1 => {}
                    2 => region = self.past(14),
                    3 => region = self.random_bit(!record[3] & ALL_REGIONS),
                    4 => method = self.past(2),
                    5 => method = self.random_bit(!record[4] & 3),
                    6 => drop(months.pop()),
                    7 => months.push(0),
                    8 => {
                        let count = self.random.pick(&[0, 1, 11, 12, 13, 24, 100, 1_000]);
                        months = self.months(&record, count);
                    }
                    9 => *months.last_mut().unwrap() = MONTH_LIMIT + 1,
                    10 => {
                        let i = self.random.index(months.len());
                        months[i] = self.random.between(MONTH_LIMIT + 1, u32::MAX);
                    }
                    11 => months[0] = MONTH_LIMIT + 1,
                    _ => {
                        let i = self.random.index(months.len());
                        months[i] = u32::MAX;
                    }
                }
                self.quote(code, region, method, &months);
            }
        }
    }

    /// Quotes the months of the last answer 11, as they are or with one changed.
    fn follow_breach(&mut self) {
        let Some((code, breach)) = self.breach.take() else {
            return;
        };
        let mut months = breach.months().to_vec();
        self.quote(code, breach.region, breach.method, &months);
        let i = self.random.index(months.len());
        months[i] = match self.random.below(3) {
            0 => months[i].saturating_sub(1),
            1 => (months[i] + 1).min(MONTH_LIMIT),
            _ => self.random.between(0, MONTH_LIMIT),
        };
        self.quote(code, breach.region, breach.method, &months);
    }

    fn any_set(&mut self) {
        if self.random.one_in(2) {
            self.fewer_directions();
        }
        let mut dated = self.good_sheet();
        if self.random.one_in(4) {
            self.spoil(&mut dated);
            if self.random.one_in(4) {
                self.spoil(&mut dated);
            }
        }
        self.set(&dated);
        if self.random.one_in(10) {
            self.undo();
        }
    }

    fn any_put(&mut self) {
        let code = match self.random.below(20) {
            0 => self.bad_code(),
            1..=2 => self.code_in(State::Open, 30),
            3..=8 => self.code_in(State::Draft, 30),
            _ => self.code_in(State::Empty, 30),
        };
        if self.random.one_in(6) {
            let record = self.bad_record();
            self.put(code, &record);
        } else {
            let record = self.any_record();
            self.put(code, &record);
        }
    }

    /// A tariff at the cap, then a mill over it, at one place.
    fn edge(&mut self) {
        let code = self.code_to_put();
        let mut record = self.any_record();
        if self.book.t().is_some() {
            let Some((place, most)) = self.fit(&record) else {
                return self.put(code, &record);
            };
            record[place] = most;
            self.put(code, &record);
            let two_people = self.random.one_in(5);
            self.open_by(two_people, code);
            self.note(if two_people {
                "pairs: at the cap, then a mill over, by ask and confirm"
            } else {
                "pairs: at the cap, then a mill over"
            });
            if let Some(breach) = self.breach_of(&{
                let mut over = record;
                over[place] += 1;
                over
            }) {
                // The months that will exceed, while they still do not.
                let months = breach.months().to_vec();
                self.quote(code, breach.region, breach.method, &months);
            }
            if self.random.one_in(3) {
                self.open(code);
            }
            if self.random.one_in(3) {
                self.put(code, &record);
            }
            if self.random.one_in(2) {
                self.close(code);
                record[place] += 1;
                self.put(code, &record);
                self.open_by(two_people, code);
                self.follow_breach();
            }
        } else {
            self.put(code, &record);
            self.open_by_either_road(code);
        }
    }

    /// All 32 places filled and opened as far as they will.
    fn fill(&mut self) {
        for code in 1..=32 {
            if self.book.state(code) != Some(State::Open) {
                let record = self.any_record();
                self.put(code, &record);
                self.open_by_either_road(code);
            }
        }
        self.note("books with all 32 places used");
        let mut dated = self.sheet.clone();
        self.shift(&mut dated, false);
        self.set(&dated);
    }

    // Codes, regions, months.

    fn bad_code(&mut self) -> u32 {
        match self.random.below(4) {
            0 => 0,
            1 => 33,
            2 => 34,
            _ => self.random.pick(&FAR),
        }
    }

    /// A code whose place is in the state, if there is one; once in `n` any other code.
    fn code_in(&mut self, state: State, n: u64) -> u32 {
        let mut state = state;
        if self.random.one_in(n) {
            match self.random.below(4) {
                0 => return self.bad_code(),
                1 => return self.random.between(1, 32),
                2 => state = State::Empty,
                _ => state = self.random.pick(&[State::Draft, State::Open]),
            }
        }
        let start = self.random.between(0, 31);
        self.code_from(start, |book, code| book.state(code) == Some(state))
            .unwrap_or(start + 1)
    }

    /// The first code after a place for which the test holds, round the book: one that is within
    /// the regions, if there are such.
    fn code_from(&self, start: u32, test: impl Fn(&Book, u32) -> bool) -> Option<u32> {
        let codes = || (0..32).map(|i| (start + i) % 32 + 1);
        let mut met = codes().filter(|&code| test(&self.book, code));
        if self.within.is_some() {
            let mut inside = codes().filter(|&code| test(&self.book, code) && self.is_within(code));
            return inside.next().or_else(|| met.next());
        }
        met.next()
    }

    fn used_code(&mut self) -> Option<u32> {
        let start = self.random.between(0, 31);
        self.code_from(start, |book, code| book.state(code) != Some(State::Empty))
    }

    /// A code whose place takes a tariff, a draft's if there is one.
    fn code_to_put(&mut self) -> u32 {
        let mut code = self.code_in(State::Draft, 1_000);
        if !self.is_within(code) {
            code = self.code_in(State::Empty, 1_000);
        }
        if self.book.state(code) == Some(State::Open) {
            self.close(code);
        }
        code
    }

    /// The record in the place of a code.
    fn used_record(&self, code: u32) -> Option<[u32; RECORD]> {
        let index = (code as usize).checked_sub(1)?;
        *self.records.get(index)?
    }

    fn record(&self, code: u32) -> [u32; RECORD] {
        self.used_record(code).expect("a used code has a record")
    }

    fn region(&mut self) -> u32 {
        if let Some(region) = self.region_within() {
            return region;
        }
        if self.random.one_in(4) {
            self.random.pick(&[0, 13])
        } else {
            self.random.between(0, 13)
        }
    }

    fn past(&mut self, first: u32) -> u32 {
        if self.random.one_in(2) {
            first + self.random.pick(&[0, 0, 1, 2, 16, 30, 32])
        } else {
            self.random.pick(&FAR)
        }
    }

    /// The number of one of the bits of a set, or 5 of none.
    fn random_bit(&mut self, set: u32) -> u32 {
        let bits: Vec<u32> = (0..32).filter(|bit| set >> bit & 1 == 1).collect();
        if bits.is_empty() {
            5
        } else {
            self.random.pick(&bits)
        }
    }

    fn total(&mut self) -> u32 {
        match self.random.below(6) {
            0 => self.random.pick(&[0, 1, 119_999, 120_000]),
            1 => self.sheet.fields[93],
            _ => self.random.between(0, 120_000),
        }
    }

    /// Months of 0 to 10,000 kWh, the steps and their neighbours among them.
    fn months(&mut self, record: &[u32; RECORD], count: usize) -> Vec<u32> {
        let mut near = vec![0, 1, 9_999, MONTH_LIMIT];
        if record[0] == 1 {
            for &step in record[9..REGIONAL].iter().filter(|&&step| step > 0) {
                near.extend([step - 1, step, step + 1]);
            }
        }
        let like = self.random.below(5);
        let same = self.random.pick(&near);
        (0..count)
            .map(|_| match like {
                0 => same,
                1 | 2 => self.random.pick(&near),
                3 => self.random.between(0, 1_000),
                _ => self.random.between(0, MONTH_LIMIT),
            })
            .collect()
    }
}

/// A tariff that costs nothing.
const FREE: [u32; RECORD] = record_of(1, 1, 0, ALL_REGIONS, 3);

/// A record whose rates, steps and numbers by region are all 0.
const fn record_of(kind: u32, n: u32, standing: u32, regions: u32, methods: u32) -> [u32; RECORD] {
    let mut record = [0; RECORD];
    record[0] = kind;
    record[1] = n;
    record[2] = standing;
    record[3] = regions;
    record[4] = methods;
    record
}

/// A call with single spaces, and no zeros before its numbers.
fn plain_line(desk: Option<u32>, word: &str, numbers: &[u32]) -> Vec<u8> {
    let mut line = String::with_capacity(32 + 8 * numbers.len());
    if let Some(desk) = desk {
        line.push_str(&format!("desk {desk} "));
    }
    line.push_str(word);
    for number in numbers {
        line.push(' ');
        line.push_str(&number.to_string());
    }
    line.into_bytes()
}
