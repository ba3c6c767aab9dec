//! Desks with regions: calls by desks of every make, tariffs that are inside a desk, half inside it
//! and outside, drafts of another desk, and marks and sheets that several desks have to do with.

use super::*;

/// Desks that are easily taken for one another: none, all fourteen, and sets with a higher bit.
const ODD_DESKS: [u32; 6] = [
    0,
    1 << REGIONS,
    ALL_REGIONS,
    ALL_REGIONS | 1 << REGIONS,
    u32::MAX,
    // All fourteen in 16 bits.
    65_536 | ALL_REGIONS,
];

/// How the regions of a tariff stand to those of a desk.
#[derive(Clone, Copy)]
enum Stands {
    Exactly,
    Inside,
    /// Some in the desk and some not.
    Half,
    /// All of the desk's and more.
    Wider,
    Outside,
}

/// Turns of a desk at its own work.
const WORK: [(Turn, u64); 16] = [
    (Turn::Put, 3),
    (Turn::Open, 4),
    (Turn::Ask, 3),
    (Turn::Confirm, 3),
    (Turn::Close, 3),
    (Turn::Drop, 2),
    (Turn::Benchmark, 1),
    (Turn::Maximum, 1),
    (Turn::Quote, 4),
    (Turn::Edge, 2),
    (Turn::Regions, 1),
    (Turn::Marks, 2),
    (Turn::Undos, 1),
    (Turn::Direct, 1),
    (Turn::Directions, 1),
    (Turn::Rebate, 2),
];

impl Writer {
    // Who makes a call.

    /// A turn, now and then by other desks than the one that is not named.
    pub(super) fn take_by_some_desk(&mut self, turn: Turn) {
        let simple = matches!(
            turn,
            Turn::Set
                | Turn::Trial
                | Turn::Put
                | Turn::Open
                | Turn::Ask
                | Turn::Confirm
                | Turn::Close
                | Turn::Drop
                | Turn::Benchmark
                | Turn::Maximum
                | Turn::Quote
                | Turn::TwoFaults
                | Turn::Undo
                | Turn::Direct
                | Turn::Rebate
        );
        // More of them in the while without a sheet, which is short.
        let seldom = if self.calls < self.bare { 3 } else { 7 };
        if self.desks && simple && self.random.one_in(seldom) {
            self.whose = Whose::Each;
        }
        self.take(turn);
        self.whose = Whose::Unnamed;
    }

    /// The desk to be named in a call, if one is.
    pub(super) fn desk_for(&mut self, word: &str, numbers: &[u32]) -> Option<u32> {
        match self.whose {
            Whose::Unnamed => None,
            Whose::One(desk) => Some(desk),
            // In the while without a sheet none is set.
            Whose::Mostly(desk) => {
                let for_all = ["set", "trial", "undo", "direct"].contains(&word);
                let unnamed = for_all && self.calls >= self.bare && self.random.one_in(2);
                (!unnamed).then_some(desk)
            }
            Whose::Each => {
                let about = self.regions_about(word, numbers);
                Some(self.desk_near(about))
            }
        }
    }

    /// The regions that a call is about, or none.
    fn regions_about(&self, word: &str, numbers: &[u32]) -> u32 {
        let first = numbers.first().copied().unwrap_or(0);
        let regions = match word {
            "set" | "trial" | "undo" | "direct" => ALL_REGIONS,
            "benchmark" | "maximum" => 1u32.checked_shl(first).unwrap_or(0),
            _ => {
                let old = self.used_record(first).map_or(0, |record| record[3]);
                let new = numbers.get(4).filter(|_| word == "put");
                old | new.unwrap_or(&0)
            }
        };
        regions & ALL_REGIONS
    }

    /// A desk that has these regions, or some of them, or none, or that is none.
    fn desk_near(&mut self, regions: u32) -> u32 {
        let any = self.random.between(1, ALL_REGIONS);
        let region = self.region();
        let regions = match regions {
            // It is about none.
            0 => self.random.pick(&[0, any, any, ALL_REGIONS]),
            _ => regions,
        };
        match self.random.below(20) {
            0..=4 => regions,
            5..=6 => regions | any,
            7..=8 => regions & !(1 << self.random_bit(regions)),
            9 => any & !regions,
            10 => 1 << region,
            11 => 1 << self.random_bit(regions),
            12 => ALL_REGIONS & !(1 << region),
            13 => ALL_REGIONS & !(1 << self.random_bit(regions)),
            14 => regions | self.higher_bit(),
            15 => any | self.higher_bit(),
            _ => self.random.pick(&ODD_DESKS),
        }
    }

    fn higher_bit(&mut self) -> u32 {
        1 << self.random.between(REGIONS as u32, 31)
    }

    /// Some of the regions, at least one.
    pub(super) fn some_of(&mut self, regions: u32) -> u32 {
        let some = regions & self.random.bits() as u32;
        if some == 0 {
            1 << self.random_bit(regions)
        } else {
            some
        }
    }

    /// A desk with at least one region, and without one.
    fn part_desk(&mut self) -> u32 {
        let region = self.region();
        match self.random.below(5) {
            0 => 1 << region,
            1 => ALL_REGIONS & !(1 << region),
            _ => self.random.between(1, ALL_REGIONS - 1),
        }
    }

    /// Makes some calls as this desk.
    pub(super) fn by(&mut self, whose: Whose, calls: impl FnOnce(&mut Writer)) {
        let before = std::mem::replace(&mut self.whose, whose);
        calls(self);
        self.whose = before;
    }

    // Where tariffs and questions are.

    pub(super) fn is_within(&self, code: u32) -> bool {
        let outside = |record: [u32; RECORD]| self.within.is_some_and(|set| record[3] & !set > 0);
        !self.used_record(code).is_some_and(outside)
    }

    pub(super) fn region_within(&mut self) -> Option<u32> {
        let within = self.within?;
        let stray = self.random.one_in(6);
        (!stray).then(|| self.random_bit(within))
    }

    /// The regions that a tariff is to be offered in, most of the time within those there are.
    pub(super) fn regions_within(&mut self, regions: u32) -> u32 {
        match self.within {
            Some(within) if !self.random.one_in(8) => match regions & within {
                0 => within,
                inside => inside,
            },
            _ => regions,
        }
    }

    /// Regions that stand so to a desk. It has some, and it has not all.
    fn regions_that(&mut self, stand: Stands, desk: u32) -> u32 {
        let others = ALL_REGIONS & !desk;
        match stand {
            Stands::Exactly => desk,
            Stands::Inside => self.some_of(desk),
            Stands::Half => self.some_of(desk) | self.some_of(others),
            Stands::Wider => desk | self.some_of(others),
            Stands::Outside => self.some_of(others),
        }
    }

    /// A tariff that is offered in these regions.
    fn record_in(&mut self, regions: u32) -> [u32; RECORD] {
        let mut record = if self.random.one_in(3) {
            self.any_record()
        } else {
            self.record_within()
        };
        record[3] = regions;
        for (region, number) in record[REGIONAL..].iter_mut().enumerate() {
            if regions >> region & 1 == 0 {
                *number = 0;
            }
        }
        record
    }

    /// Such a tariff as a draft at a code, put there by whoever may.
    pub(super) fn draft_in(&mut self, code: u32, regions: u32) {
        if self.book.state(code) == Some(State::Open) {
            self.close(code);
        }
        let record = self.record_in(regions);
        self.put(code, &record);
    }

    // Turns.

    /// Calls by desks, and what other desks make of them.
    pub(super) fn desks(&mut self) {
        if !self.desks {
            return;
        }
        match self.random.below(17) {
            16 => self.calls_on_no_tariff(),
            0..=4 => self.desk_at_work(),
            5..=6 => self.put_over(),
            7..=8 => self.calls_on_a_place(),
            9 => self.questions_of_a_region(),
            10..=11 => self.for_all_fourteen(),
            12..=13 => self.chance_and_desks(),
            _ => self.mark_and_desks(),
        }
        self.whose = Whose::Unnamed;
        self.within = None;
    }

    /// A while of calls by one desk, most of them on what is its own.
    fn desk_at_work(&mut self) {
        let desk = self.part_desk();
        self.work_of(Whose::Mostly(desk), desk, 8);
    }

    pub(super) fn work_of(&mut self, whose: Whose, desk: u32, most: u32) {
        self.whose = whose;
        self.within = Some(desk);
        for _ in 0..self.random.between(2, most) {
            let turn = turn(&mut self.random, &WORK);
            self.take(turn);
        }
    }

    /// PUT by a desk, at an empty place, over a draft of its own or of another desk, or where a
    /// tariff is open.
    fn put_over(&mut self) {
        let desk = self.part_desk();
        let code = self.random.between(1, 32);
        let old = self.random.below(5);
        let stand = self
            .random
            .pick(&[Stands::Inside, Stands::Half, Stands::Outside]);
        if old == 0 {
            self.close(code);
            self.drop_code(code);
        } else {
            let regions = self.regions_that(stand, desk);
            self.draft_in(code, regions);
        }
        match self.random.below(5) {
            0 => self.open(code),
            1 => self.ask(code),
            _ => {}
        }
        for _ in 0..1 + self.random.index(2) {
            let stand = self.random.pick(&[
                Stands::Exactly,
                Stands::Inside,
                Stands::Half,
                Stands::Outside,
            ]);
            let regions = self.regions_that(stand, desk);
            let mut record = self.record_in(regions).to_vec();
            if self.random.one_in(6) {
                record = self.bad_record();
            }
            let desk = match self.random.below(8) {
                0 => self.desk_near(desk),
                _ => desk,
            };
            self.by(Whose::One(desk), |writer| writer.put(code, &record));
        }
        if self.random.one_in(2) {
            self.confirm(code);
        }
        if self.used_record(code).is_some() && self.random.one_in(2) {
            self.plain_quote(code);
        }
    }

    /// A place that holds a tariff, or none, and any calls on it by a desk that has its regions or
    /// some of them or none.
    fn calls_on_a_place(&mut self) {
        let desk = self.part_desk();
        let stand = self.random.pick(&[
            Stands::Exactly,
            Stands::Inside,
            Stands::Half,
            Stands::Wider,
            Stands::Outside,
        ]);
        let code = self.random.between(1, 32);
        let regions = self.regions_that(stand, desk);
        self.draft_in(code, regions);
        match self.random.below(4) {
            0 => self.open(code),
            1 => self.ask(code),
            2 if self.random.one_in(4) => self.drop_code(code),
            _ => {}
        }
        let desk = match self.random.below(4) {
            0 => self.desk_near(regions),
            _ => desk,
        };
        self.whose = Whose::One(desk);
        for _ in 0..1 + self.random.index(4) {
            self.call_on(code);
        }
    }

    /// Calls on codes outside 1 to 32 and on empty places, by desks of every make.
    fn calls_on_no_tariff(&mut self) {
        let part = self.part_desk();
        for _ in 0..4 {
            let odd = self.random.pick(&ODD_DESKS);
            let desk = self.random.pick(&[odd, odd, part]);
            let code = match self.random.below(2) {
                0 => self.bad_code(),
                _ => self.code_in(State::Empty, 1_000),
            };
            self.by(Whose::One(desk), |writer| writer.call_on(code));
        }
    }

    /// A call on a code.
    pub(super) fn call_on(&mut self, code: u32) {
        match self.random.below(10) {
            0 => self.open(code),
            1 => self.ask(code),
            2 => self.confirm(code),
            3 => self.close(code),
            4 => self.drop_code(code),
            8 => self.direct(code),
            9 => self.rebate_of(code),
            5 => {
                let record = match self.used_record(code) {
                    Some(record) if !self.random.one_in(4) => record.to_vec(),
                    _ => self.bad_record(),
                };
                self.put(code, &record);
            }
            _ if self.used_record(code).is_none() => self.quote(code, 0, 1, &[0, 0, 0]),
            6 => self.plain_quote(code),
            _ => {
                let months = self.random.index(14);
                let region = self.region();
                self.quote(code, region, 1, &vec![0; months]);
            }
        }
    }

    /// A region asked for by the desk that has it alone, by those that have the regions beside it, and
    /// by the one that has all others.
    fn questions_of_a_region(&mut self) {
        let region = self.region();
        let alone = 1 << region;
        let desks = [
            alone,
            ALL_REGIONS & !alone,
            1 << ((region + 1) % 14),
            1 << ((region + 13) % 14),
            self.higher_bit() | alone,
        ];
        for _ in 0..3 {
            let desk = self.random.pick(&desks);
            let arrangement = self.random.between(0, 1);
            let method = self.random.between(0, 1);
            let mut last = self.random.between(0, 1);
            if self.random.one_in(5) {
                last = 120_001;
            }
            let call = self.random.pick(&["benchmark", "maximum"]);
            self.by(Whose::One(desk), |writer| {
                writer.call(call, &[region, arrangement, method, last]);
            });
        }
    }

    /// A desk that is not the one with all fourteen, most of the time.
    fn another_desk(&mut self) -> u32 {
        loop {
            let desk = match self.random.below(3) {
                0 => self.part_desk(),
                _ => self.desk_near(ALL_REGIONS),
            };
            if desk != ALL_REGIONS || self.calls >= self.bare {
                return desk;
            }
        }
    }

    /// SET, TRIAL and UNDO by a desk that may not use them, and what they would have done.
    pub(super) fn for_all_fourteen(&mut self) {
        let desk = self.another_desk();
        let with_a_step = self.calls >= self.bare && self.random.one_in(2);
        if with_a_step {
            let dated = self.other_sheet();
            self.set(&dated);
        }
        self.whose = Whose::One(desk);
        for _ in 0..1 + self.random.index(2) {
            let dated = self.good_or_bad_sheet();
            match self.random.below(4) {
                0 => self.set(&dated),
                1 => drop(self.trial(&dated)),
                2 => self.two_faults_of_a_sheet(),
                _ => self.undo(),
            }
        }
        self.whose = Whose::Unnamed;
        match self.random.below(3) {
            0 => self.undo(),
            1 => self.take_plain(Turn::Benchmark),
            _ => {}
        }
    }

    /// A sheet, calls by a desk, taken or refused, and UNDO.
    fn chance_and_desks(&mut self) {
        let desk = self.part_desk();
        if self.calls >= self.bare {
            let dated = self.other_sheet();
            self.set(&dated);
        }
        self.whose = Whose::One(desk);
        self.within = Some(desk);
        for _ in 0..1 + self.random.index(2) {
            self.any_call();
        }
        self.whose = Whose::Unnamed;
        self.undo();
    }

    /// A draft that one desk asks for and another confirms, and desks that may not between them.
    fn mark_and_desks(&mut self) {
        let desk = self.part_desk();
        let code = self.random.between(1, 32);
        let regions = self.some_of(desk);
        self.draft_in(code, regions);
        for step in 0..3 {
            let wider = self.regions_that(Stands::Wider, regions);
            let whose = [
                Whose::Unnamed,
                Whose::One(ALL_REGIONS),
                Whose::One(desk),
                Whose::One(regions),
                Whose::One(wider),
            ];
            let whose = self.random.pick(&whose);
            match step {
                0 => self.by(whose, |writer| writer.ask(code)),
                1 => self.between_desks(code, desk),
                _ => self.by(whose, |writer| writer.confirm(code)),
            }
        }
        if self.random.one_in(2) {
            self.by(Whose::Each, |writer| writer.call_on(code));
        }
    }

    /// What comes between the ASK of a code by one desk and its CONFIRM by another.
    fn between_desks(&mut self, code: u32, desk: u32) {
        match self.random.below(6) {
            0 => {}
            1 => self.by(Whose::Mostly(desk), |writer| writer.between(code)),
            2 => {
                // A desk without one of the regions.
                let regions = self.record(code)[3];
                let region = self.random_bit(regions);
                let other = ALL_REGIONS & !(1 << region);
                self.by(Whose::One(other), |writer| writer.call_on(code));
            }
            3 => {
                let other = self.random.pick(&ODD_DESKS);
                let other = if other == ALL_REGIONS { 0 } else { other };
                self.by(Whose::One(other), |writer| writer.call_on(code));
            }
            4 => self.by(Whose::Mostly(desk), Writer::set_and_undo),
            _ => self.for_all_fourteen(),
        }
    }
}
