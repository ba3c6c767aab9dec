//! The book: a cost sheet, or none, and 32 places.

use crate::regions::DeskRegions;
use crate::sheet::{Breach, Sheet, SheetError, METHODS, REGIONS};
use crate::tariff::{Tariff, MONTH_LIMIT, WHOLE};

/// Places in the book; their codes are 1 to 32.
pub const PLACES: usize = 32;

const TOTAL_LIMIT: u32 = 120_000;

/// The most accounts of one rebate run.
pub const RUN_LIMIT: usize = 1_000_000;

/// A refusal that carries nothing but its number.
#[derive(Clone, Copy, Debug, PartialEq, Eq, Hash)]
#[repr(u8)]
pub enum Refusal {
    SheetLength = 1,
    FieldRange = 2,
    Period = 3,
    TermTooHigh = 4,
    BenchmarkFalls = 5,
    Code = 6,
    PlaceOpen = 7,
    Record = 8,
    PlaceEmpty = 9,
    NoSheet = 10,
    NotOpen = 12,
    Argument = 13,
    OcBelowZero = 14,
    NothingToUndo = 15,
    NotMarked = 16,
    OutsideDesk = 17,
}

impl Refusal {
    pub fn number(self) -> u32 {
        self as u32
    }
}

impl From<SheetError> for Refusal {
    fn from(error: SheetError) -> Refusal {
        match error {
            SheetError::Length => Refusal::SheetLength,
            SheetError::Field => Refusal::FieldRange,
            SheetError::Period => Refusal::Period,
            SheetError::Term => Refusal::TermTooHigh,
            SheetError::OcBelowZero => Refusal::OcBelowZero,
            SheetError::Falling => Refusal::BenchmarkFalls,
        }
    }
}

/// Why a tariff was not opened, or its draft not marked.
#[derive(Clone, Copy, Debug, PartialEq, Eq)]
pub enum NotOpened {
    Refused(Refusal),
    /// Refusal 11.
    OverCap(Breach),
}

impl NotOpened {
    pub fn number(&self) -> u32 {
        match self {
            NotOpened::Refused(refusal) => refusal.number(),
            NotOpened::OverCap(_) => 11,
        }
    }
}

impl From<Refusal> for NotOpened {
    fn from(refusal: Refusal) -> NotOpened {
        NotOpened::Refused(refusal)
    }
}

/// A Relevant Maximum Charge: mills as a whole number over 12 x m.
#[derive(Clone, Copy, Debug, PartialEq, Eq)]
pub struct Maximum {
    pub number: u64,
    pub denominator: u32,
}

/// A charge and its maximum, both 12,000 x m times the mills.
#[derive(Clone, Copy, Debug, PartialEq, Eq)]
pub struct Quote {
    pub charge: u64,
    pub maximum: u64,
}

/// What a household used of a tariff in the months of the period, and what it is owed.
#[derive(Clone, Copy, Debug, PartialEq, Eq)]
pub struct Account {
    pub code: u32,
    pub region: u32,
    pub method: u32,
    /// The number of its months.
    pub count: u32,
    /// The months, in kWh; the places past `count` may hold anything.
    pub months: [u32; 12],
    /// In mills; the run writes it.
    pub rebate: u64,
}

/// Why a rebate run was not done, with the place in the list of the first such account.
#[derive(Clone, Copy, Debug, PartialEq, Eq)]
pub enum NotRun {
    /// Refusal 18: its tariff is not open under a direction.
    NotDirected(usize),
    /// Refusal 19: QUOTE would refuse it, or it is past the most accounts of a run.
    NotQuoted(usize),
}

impl NotRun {
    pub fn number(&self) -> u32 {
        match self {
            NotRun::NotDirected(_) => 18,
            NotRun::NotQuoted(_) => 19,
        }
    }

    pub fn place(&self) -> usize {
        let (NotRun::NotDirected(place) | NotRun::NotQuoted(place)) = *self;
        place
    }
}

/// What a place holds.
#[derive(Clone, Copy, Debug, PartialEq, Eq)]
pub enum State {
    Empty,
    Draft,
    Open,
}

#[derive(Clone, Copy, Debug, PartialEq, Eq)]
enum Place {
    Empty,
    Draft(Tariff),
    Open(Tariff),
}

impl Place {
    fn tariff(&self) -> Option<&Tariff> {
        match self {
            Place::Empty => None,
            Place::Draft(tariff) | Place::Open(tariff) => Some(tariff),
        }
    }
}

/// How to take back a SET.
#[derive(Clone, Debug, PartialEq, Eq)]
struct Step {
    /// The sheet before it, or none.
    sheet: Option<Sheet>,
    /// The places whose open tariffs it made drafts, bit code - 1 for each.
    fallen: u32,
    /// The marks that it cleared, likewise.
    marks: u32,
}

#[derive(Clone, Debug, PartialEq, Eq)]
pub struct Book {
    sheet: Option<Sheet>,
    places: [Place; PLACES],
    /// The places whose drafts are marked, bit code - 1 for each.
    marks: u32,
    /// The places whose tariffs are under a direction, likewise. There is no step to take back that
    /// another set belongs to.
    directions: u32,
    /// How to take back the last SET, until a call is accepted that changes a place, marks it or
    /// puts it under a direction.
    step: Option<Step>,
}

impl Default for Book {
    fn default() -> Book {
        Book::new()
    }
}

impl Book {
    /// A fresh book: no sheet, all places empty.
    pub fn new() -> Book {
        Book {
            sheet: None,
            places: [Place::Empty; PLACES],
            marks: 0,
            directions: 0,
            step: None,
        }
    }

    /// Replaces the sheet; open tariffs that exceed under it become drafts, but for those under a
    /// direction, and no draft is marked any more.
    pub fn set_by(
        &mut self,
        desk: DeskRegions,
        year: u32,
        month: u32,
        t: u32,
        fields: &[u32],
    ) -> Result<(), Refusal> {
        all_fourteen(desk)?;
        let sheet = Sheet::new(year, month, t, fields)?;
        let mut fallen = 0;
        for (index, place) in self.places.iter_mut().enumerate() {
            if let Place::Open(tariff) = place {
                let directed = self.directions >> index & 1 == 1;
                if !directed && sheet.first_breach(tariff).is_some() {
                    *place = Place::Draft(*tariff);
                    fallen |= 1 << index;
                }
            }
        }
        self.step = Some(Step {
            sheet: self.sheet.replace(sheet),
            fallen,
            marks: std::mem::take(&mut self.marks),
        });
        Ok(())
    }

    /// Takes back the last SET, if no place has been changed or marked since: the sheet before it,
    /// or none, is in force again, what it made drafts is open, and the marks that it cleared are
    /// there. One SET can be taken back, and not the one before it.
    pub fn undo_by(&mut self, desk: DeskRegions) -> Result<(), Refusal> {
        all_fourteen(desk)?;
        let step = self.step.take().ok_or(Refusal::NothingToUndo)?;
        let Step {
            sheet,
            fallen,
            marks,
        } = step;
        (self.sheet, self.marks) = (sheet, marks);
        for (index, place) in self.places.iter_mut().enumerate() {
            if let Place::Draft(tariff) = place {
                if fallen >> index & 1 == 1 {
                    *place = Place::Open(*tariff);
                }
            }
        }
        Ok(())
    }

    /// The set of codes that SET would make drafts, bit code - 1 for each: it is done on a copy,
    /// and the book itself is untouched.
    pub fn trial_by(
        &self,
        desk: DeskRegions,
        year: u32,
        month: u32,
        t: u32,
        fields: &[u32],
    ) -> Result<u32, Refusal> {
        let mut copy = self.clone();
        copy.set_by(desk, year, month, t, fields)?;
        let mut fallen = 0;
        for code in 1..=PLACES as u32 {
            let (before, after) = (self.state(code), copy.state(code));
            if before == Some(State::Open) && after == Some(State::Draft) {
                fallen |= 1 << (code - 1);
            }
        }
        Ok(fallen)
    }

    /// Puts a tariff record into a place as a draft without a mark or a direction, over any draft
    /// that is the desk's own.
    pub fn put_by(&mut self, desk: DeskRegions, code: u32, numbers: &[u32]) -> Result<(), Refusal> {
        let index = index(code)?;
        let place = &self.places[index];
        if let Place::Open(_) = place {
            return Err(Refusal::PlaceOpen);
        }
        let tariff = Tariff::new(numbers).ok_or(Refusal::Record)?;
        if let Some(old) = place.tariff() {
            inside(desk, old)?;
        }
        inside(desk, &tariff)?;
        self.change(index, Place::Draft(tariff));
        self.directions &= !(1 << index);
        Ok(())
    }

    /// Puts a draft under a direction, whether it has one or not. Its mark stays as it is.
    pub fn direct_by(&mut self, desk: DeskRegions, code: u32) -> Result<(), Refusal> {
        all_fourteen(desk)?;
        let (index, _) = self.draft(desk, code)?;
        self.directions |= 1 << index;
        self.step = None;
        Ok(())
    }

    /// Opens a draft that is within the cap in all its cells, or under a direction, and gives their
    /// number, or 0.
    pub fn open_by(&mut self, desk: DeskRegions, code: u32) -> Result<u32, NotOpened> {
        let (index, &tariff) = self.draft_to_open(desk, code)?;
        self.change(index, Place::Open(tariff));
        Ok(self.cells(index, &tariff))
    }

    /// Marks a draft that OPEN would open, marked or not, and gives the number that OPEN would.
    pub fn ask_by(&mut self, desk: DeskRegions, code: u32) -> Result<u32, NotOpened> {
        let (index, tariff) = self.draft_to_open(desk, code)?;
        let cells = self.cells(index, tariff);
        self.marks |= 1 << index;
        self.step = None;
        Ok(cells)
    }

    /// Opens a marked draft, and gives the number that OPEN would. The cap needs no second look: the
    /// sheet is the one that the draft was marked under.
    pub fn confirm_by(&mut self, desk: DeskRegions, code: u32) -> Result<u32, Refusal> {
        let (index, &tariff) = self.draft(desk, code)?;
        if self.marks >> index & 1 == 0 {
            return Err(Refusal::NotMarked);
        }
        self.change(index, Place::Open(tariff));
        Ok(self.cells(index, &tariff))
    }

    /// Makes an open tariff a draft again, without a mark.
    pub fn close_by(&mut self, desk: DeskRegions, code: u32) -> Result<(), Refusal> {
        let (index, &tariff) = self.used(desk, code)?;
        if let Place::Draft(_) = self.places[index] {
            return Err(Refusal::NotOpen);
        }
        self.change(index, Place::Draft(tariff));
        Ok(())
    }

    /// Empties a place that holds a draft.
    pub fn drop_code_by(&mut self, desk: DeskRegions, code: u32) -> Result<(), Refusal> {
        let (index, _) = self.draft(desk, code)?;
        self.change(index, Place::Empty);
        self.directions &= !(1 << index);
        Ok(())
    }

    /// The Benchmark Maximum Charge in mills; level 0 is nil, 1 is m.
    pub fn benchmark_by(
        &self,
        desk: DeskRegions,
        region: u32,
        arrangement: u32,
        method: u32,
        level: u32,
    ) -> Result<u32, Refusal> {
        let (region, arrangement, method) = cell(region, arrangement, method)?;
        if level > 1 {
            return Err(Refusal::Argument);
        }
        own_region(desk, region)?;
        let sheet = self.sheet.as_ref().ok_or(Refusal::NoSheet)?;
        let benchmark = sheet.benchmark(region, arrangement, method);
        Ok(if level == 0 {
            benchmark.nil
        } else {
            benchmark.m
        })
    }

    /// The Relevant Maximum Charge for a total consumption of the period.
    pub fn maximum_by(
        &self,
        desk: DeskRegions,
        region: u32,
        arrangement: u32,
        method: u32,
        total: u32,
    ) -> Result<Maximum, Refusal> {
        let (region, arrangement, method) = cell(region, arrangement, method)?;
        if total > TOTAL_LIMIT {
            return Err(Refusal::Argument);
        }
        own_region(desk, region)?;
        let sheet = self.sheet.as_ref().ok_or(Refusal::NoSheet)?;
        Ok(Maximum {
            number: sheet.maximum(region, arrangement, method, u64::from(total)),
            denominator: 12 * sheet.m(arrangement),
        })
    }

    /// The charge of a tariff, draft or open, for a list of months, and its maximum.
    pub fn quote_by(
        &self,
        desk: DeskRegions,
        code: u32,
        region: u32,
        method: u32,
        months: &[u32],
    ) -> Result<Quote, Refusal> {
        let asked = self.asked(desk, code, region, method, months)?;
        Ok(Quote {
            charge: asked.scale() * asked.charge(),
            maximum: u64::from(WHOLE) * asked.maximum(),
        })
    }

    /// Writes into each account the rebate due: the charge less the maximum for its months in
    /// mills, rounded up, or 0. Gives their sum.
    pub fn rebate_by(&self, desk: DeskRegions, accounts: &mut [Account]) -> Result<u64, NotRun> {
        let mut not_directed = None;
        for (place, account) in accounts.iter().enumerate() {
            if place >= RUN_LIMIT || self.account(desk, account).is_err() {
                return Err(NotRun::NotQuoted(place));
            }
            if not_directed.is_none() && !self.is_open_under_a_direction(account.code) {
                not_directed = Some(place);
            }
        }
        if let Some(place) = not_directed {
            return Err(NotRun::NotDirected(place));
        }
        let mut total = 0;
        for account in accounts {
            let asked = self.account(desk, account);
            account.rebate = asked.expect("an account looked at before").rebate();
            total += account.rebate;
        }
        Ok(total)
    }

    /// What the place of a code holds; `None` for a code outside 1 to 32.
    pub fn state(&self, code: u32) -> Option<State> {
        let index = index(code).ok()?;
        Some(match self.places[index] {
            Place::Empty => State::Empty,
            Place::Draft(_) => State::Draft,
            Place::Open(_) => State::Open,
        })
    }

    /// Whether the place of a code holds a marked draft.
    pub fn is_marked(&self, code: u32) -> bool {
        index(code).is_ok_and(|index| self.marks >> index & 1 == 1)
    }

    /// Whether the place of a code holds a tariff under a direction.
    pub fn is_directed(&self, code: u32) -> bool {
        index(code).is_ok_and(|index| self.directions >> index & 1 == 1)
    }

    fn is_open_under_a_direction(&self, code: u32) -> bool {
        self.is_directed(code) && self.state(code) == Some(State::Open)
    }

    /// The months t of the sheet's period, if there is a sheet.
    pub fn t(&self) -> Option<u32> {
        self.sheet.as_ref().map(|sheet| sheet.t)
    }

    /// The tariff of a code, as a desk may use it: refusals 6, 9 and 17.
    fn used(&self, desk: DeskRegions, code: u32) -> Result<(usize, &Tariff), Refusal> {
        let index = index(code)?;
        let tariff = self.places[index].tariff().ok_or(Refusal::PlaceEmpty)?;
        inside(desk, tariff)?;
        Ok((index, tariff))
    }

    /// The same if it is a draft, and so 7 after them.
    fn draft(&self, desk: DeskRegions, code: u32) -> Result<(usize, &Tariff), Refusal> {
        let (index, tariff) = self.used(desk, code)?;
        if let Place::Open(_) = self.places[index] {
            return Err(Refusal::PlaceOpen);
        }
        Ok((index, tariff))
    }

    /// The same with all the checks of OPEN, and so 10 after them, and 11 without a direction.
    fn draft_to_open(&self, desk: DeskRegions, code: u32) -> Result<(usize, &Tariff), NotOpened> {
        let (index, tariff) = self.draft(desk, code)?;
        let sheet = self.sheet.as_ref().ok_or(Refusal::NoSheet)?;
        if !self.is_directed(code) {
            if let Some(breach) = sheet.first_breach(tariff) {
                return Err(NotOpened::OverCap(breach));
            }
        }
        Ok((index, tariff))
    }

    /// The number of cells in which the tariff of a place was found to be within the cap: none under
    /// a direction.
    fn cells(&self, index: usize, tariff: &Tariff) -> u32 {
        if self.directions >> index & 1 == 1 {
            0
        } else {
            tariff.cells()
        }
    }

    /// What a quote is asked for, with all the checks of QUOTE.
    fn asked<'a>(
        &'a self,
        desk: DeskRegions,
        code: u32,
        region: u32,
        method: u32,
        months: &'a [u32],
    ) -> Result<Asked<'a>, Refusal> {
        let place = &self.places[index(code)?];
        let tariff = place.tariff().ok_or(Refusal::PlaceEmpty)?;
        let sheet = self.sheet.as_ref().ok_or(Refusal::NoSheet)?;
        if !tariff.offers_region(region)
            || !tariff.offers_method(method)
            || months.len() != sheet.t as usize
            || months.iter().any(|&kwh| kwh > MONTH_LIMIT)
        {
            return Err(Refusal::Argument);
        }
        inside(desk, tariff)?;
        Ok(Asked {
            sheet,
            tariff,
            region: region as usize,
            method: method as usize,
            months,
        })
    }

    /// The quote of an account. More than twelve months are more than any t.
    fn account<'a>(
        &'a self,
        desk: DeskRegions,
        account: &'a Account,
    ) -> Result<Asked<'a>, Refusal> {
        let months = account.months.get(..account.count as usize);
        let months = months.ok_or(Refusal::Argument)?;
        self.asked(desk, account.code, account.region, account.method, months)
    }

    /// A place holds something else from now on, which has no mark. The last SET is there to stay.
    fn change(&mut self, index: usize, place: Place) {
        self.places[index] = place;
        self.marks &= !(1 << index);
        self.step = None;
    }
}

/// A tariff, draft or open, in one of its cells under the sheet in force, and t months.
struct Asked<'a> {
    sheet: &'a Sheet,
    tariff: &'a Tariff,
    region: usize,
    method: usize,
    months: &'a [u32],
}

impl Asked<'_> {
    /// 12 x m.
    fn scale(&self) -> u64 {
        12 * u64::from(self.sheet.m(self.tariff.arrangement()))
    }

    /// In thousandths of a mill.
    fn charge(&self) -> u64 {
        let standing = u64::from(self.tariff.standing(self.region)) * u64::from(self.sheet.days);
        let tiers = self.tariff.tiers(self.sheet.peak_share);
        let units: u64 = self.months.iter().map(|&kwh| tiers.month_charge(kwh)).sum();
        u64::from(WHOLE) * standing + units
    }

    /// 12 x m times the mills.
    fn maximum(&self) -> u64 {
        let total = self.months.iter().map(|&kwh| u64::from(kwh)).sum();
        let arrangement = self.tariff.arrangement();
        self.sheet
            .maximum(self.region, arrangement, self.method, total)
    }

    /// The charge less the maximum in whole mills, rounded up, or 0.
    fn rebate(&self) -> u64 {
        let (scale, whole) = (self.scale(), u64::from(WHOLE));
        let over = (scale * self.charge()).saturating_sub(whole * self.maximum());
        over.div_ceil(scale * whole)
    }
}

/// The calls as a desk with all fourteen regions makes them.
impl Book {
    pub fn set(&mut self, year: u32, month: u32, t: u32, fields: &[u32]) -> Result<(), Refusal> {
        self.set_by(DeskRegions::ALL, year, month, t, fields)
    }

    pub fn undo(&mut self) -> Result<(), Refusal> {
        self.undo_by(DeskRegions::ALL)
    }

    pub fn trial(&self, year: u32, month: u32, t: u32, fields: &[u32]) -> Result<u32, Refusal> {
        self.trial_by(DeskRegions::ALL, year, month, t, fields)
    }

    pub fn put(&mut self, code: u32, numbers: &[u32]) -> Result<(), Refusal> {
        self.put_by(DeskRegions::ALL, code, numbers)
    }

    pub fn direct(&mut self, code: u32) -> Result<(), Refusal> {
        self.direct_by(DeskRegions::ALL, code)
    }

    pub fn open(&mut self, code: u32) -> Result<u32, NotOpened> {
        self.open_by(DeskRegions::ALL, code)
    }

    pub fn ask(&mut self, code: u32) -> Result<u32, NotOpened> {
        self.ask_by(DeskRegions::ALL, code)
    }

    pub fn confirm(&mut self, code: u32) -> Result<u32, Refusal> {
        self.confirm_by(DeskRegions::ALL, code)
    }

    pub fn close(&mut self, code: u32) -> Result<(), Refusal> {
        self.close_by(DeskRegions::ALL, code)
    }

    pub fn drop_code(&mut self, code: u32) -> Result<(), Refusal> {
        self.drop_code_by(DeskRegions::ALL, code)
    }

    pub fn benchmark(
        &self,
        region: u32,
        arrangement: u32,
        method: u32,
        level: u32,
    ) -> Result<u32, Refusal> {
        self.benchmark_by(DeskRegions::ALL, region, arrangement, method, level)
    }

    pub fn maximum(
        &self,
        region: u32,
        arrangement: u32,
        method: u32,
        total: u32,
    ) -> Result<Maximum, Refusal> {
        self.maximum_by(DeskRegions::ALL, region, arrangement, method, total)
    }

    pub fn quote(
        &self,
        code: u32,
        region: u32,
        method: u32,
        months: &[u32],
    ) -> Result<Quote, Refusal> {
        self.quote_by(DeskRegions::ALL, code, region, method, months)
    }

    pub fn rebate(&self, accounts: &mut [Account]) -> Result<u64, NotRun> {
        self.rebate_by(DeskRegions::ALL, accounts)
    }
}

fn index(code: u32) -> Result<usize, Refusal> {
    let index = (code as usize).wrapping_sub(1);
    if index < PLACES {
        Ok(index)
    } else {
        Err(Refusal::Code)
    }
}

fn cell(region: u32, arrangement: u32, method: u32) -> Result<(usize, usize, usize), Refusal> {
    if region as usize >= REGIONS || arrangement > 1 || method as usize >= METHODS {
        return Err(Refusal::Argument);
    }
    Ok((region as usize, arrangement as usize, method as usize))
}

fn inside_or_17(is_inside: bool) -> Result<(), Refusal> {
    if is_inside {
        Ok(())
    } else {
        Err(Refusal::OutsideDesk)
    }
}

/// SET, TRIAL, UNDO and DIRECT are for a desk with all fourteen regions.
fn all_fourteen(desk: DeskRegions) -> Result<(), Refusal> {
    inside_or_17(desk.has_all())
}

/// A desk may use a tariff that is offered in its regions alone.
fn inside(desk: DeskRegions, tariff: &Tariff) -> Result<(), Refusal> {
    inside_or_17(desk.hold(tariff.regions()))
}

/// It may query its own regions.
fn own_region(desk: DeskRegions, region: usize) -> Result<(), Refusal> {
    inside_or_17(desk.hold(1 << region))
}
