//! Two books with the same tariffs, states, marks, directions and period, whose sheets differ in network fields
//! alone, and the same calls on both: by a desk that has none of those regions, which has to get the
//! same answers from both, and by one that has such a region.

use super::*;
use crate::desk::Desk;

const NETWORK: std::ops::Range<usize> = 37..93;

/// Who says a line.
#[derive(Clone, Copy, Debug, PartialEq, Eq)]
pub enum Said {
    /// A desk with all fourteen, to bring the books about.
    ToBuild,
    /// The desk that has none of the regions in which the sheets differ.
    Without,
    /// A desk that has one of them.
    With,
}

/// A line, the same for both books but for a sheet to build with, and this desk's two answers.
pub struct Line {
    pub said: Said,
    /// The network field in which the sheets differ, if there is just one.
    pub field: Option<usize>,
    pub texts: [Vec<u8>; 2],
    /// Without their line feeds; empty where there is none.
    pub answers: [Vec<u8>; 2],
}

/// Both books, one pair after the other, from the first line to the last.
pub struct TwoBooks {
    pub lines: Vec<Line>,
    writer: Writer,
    desks: [Desk; 2],
    /// The field that is to differ next.
    field: usize,
    alone: Option<usize>,
    /// How many pairs have a SET to take back in the one book and not in the other.
    pub with_a_step: u64,
    /// How many of the desks that have none of the regions are no set of regions.
    pub odd_desks: u64,
}

/// So many pairs of books. Each begins with all places empty.
pub fn two_books(seed: u64, pairs: usize) -> TwoBooks {
    let mut both = TwoBooks {
        lines: Vec::new(),
        writer: Writer::plain_lines(seed, usize::MAX),
        desks: [Desk::new(), Desk::new()],
        field: seed as usize * 17 % NETWORK.len(),
        alone: None,
        with_a_step: 0,
        odd_desks: 0,
    };
    for _ in 0..pairs {
        both.pair();
    }
    both
}

impl TwoBooks {
    /// All the lines for the one book, or for the other.
    pub fn script(&self, book: usize) -> Vec<u8> {
        let mut script = Vec::new();
        for line in &self.lines {
            script.extend_from_slice(&line.texts[book]);
            script.push(b'\n');
        }
        script
    }

    fn pair(&mut self) {
        let (regions, other) = self.sheets();
        let writer = &mut self.writer;
        let others = ALL_REGIONS & !regions;
        let desk = match writer.random.below(3) {
            0 => others,
            _ => writer.some_of(others),
        };
        let region = 1 << writer.random_bit(regions);
        self.tariffs(desk, region);
        self.step(&other);

        let without = self.named(desk);
        self.writer.work_of(Whose::One(without), desk, 8);
        self.writer.calls_of(without);
        self.said(Said::Without);

        let with = desk | region;
        let within = match self.writer.random.below(3) {
            0 => with,
            1 => region,
            _ => region | self.writer.some_of(desk),
        };
        self.writer.cap_of(with, region);
        self.writer.work_of(Whose::One(with), within, 8);
        self.writer.calls_of(with);
        self.said(Said::With);

        self.writer.whose = Whose::Unnamed;
        self.writer.within = None;
        for code in 1..=32 {
            let is_empty = |desk: &Desk| desk.book().state(code) == Some(State::Empty);
            if !self.desks.iter().all(is_empty) {
                self.writer.close(code);
                self.writer.drop_code(code);
            }
        }
        self.said(Said::ToBuild);
    }

    /// The desk, or now and then one that is no set of regions.
    fn named(&mut self, desk: u32) -> u32 {
        let writer = &mut self.writer;
        if !writer.random.one_in(10) {
            return desk;
        }
        self.odd_desks += 1;
        let higher = 1 << writer.random.between(REGIONS as u32, 31);
        writer
            .random
            .pick(&[0, 16_384, 32_767, u32::MAX, desk | higher])
    }

    /// Where there is no mark to be cleared, the sheet of the one book is set again now and then, so
    /// that there is something to take back in that one alone.
    fn step(&mut self, other: &Dated) {
        let book = self.desks[1].book();
        let marked = (1..=32).any(|code| book.is_marked(code));
        if marked || self.writer.random.one_in(2) {
            return;
        }
        self.with_a_step += 1;
        self.writer.call("benchmark", &[0, 0, 0, 0]);
        let set = plain_line(None, "set", &other.numbers());
        self.take(Said::ToBuild, |line, book| match book {
            0 => line.to_vec(),
            _ => set.clone(),
        });
    }

    /// Two sheets that differ in network fields alone, set. Gives the set of their regions, which is
    /// not all fourteen, and the second sheet.
    fn sheets(&mut self) -> (u32, Dated) {
        let field = NETWORK.start + self.field;
        self.field = (self.field + 1) % NETWORK.len();
        let region = 1 << ((field - NETWORK.start) / 4);
        let (one, other, regions) = loop {
            let writer = &mut self.writer;
            let mut one = reference();
            match writer.random.below(4) {
                0 => {}
                1 => writer.spread(&mut one),
                2 => writer.plain(&mut one),
                _ => one = writer.good_sheet(),
            }
            let mut other = one.clone();
            if other.fields.len() != FIELDS {
                continue;
            }
            writer.another_cost(&mut other, field);
            let mut regions = region;
            if writer.random.one_in(4) {
                regions |= writer.random.between(1, ALL_REGIONS - 1);
                let cost = |field: &usize| regions >> ((field - NETWORK.start) / 4) & 1 == 1;
                for field in NETWORK.filter(cost) {
                    if writer.random.one_in(3) {
                        writer.another_cost(&mut other, field);
                    }
                }
            }
            let taken = |dated: &Dated| Book::new().set_dated(dated).is_ok();
            if regions != ALL_REGIONS && one.fields != other.fields && taken(&one) && taken(&other)
            {
                break (one, other, regions);
            }
        };
        self.alone = (regions == region).then_some(field);
        self.writer.set(&one);
        let set = plain_line(None, "set", &other.numbers());
        self.take(Said::ToBuild, |line, book| match book {
            0 => line.to_vec(),
            _ => set.clone(),
        });
        (regions, other)
    }

    /// Tariffs in regions of the desk and in others, that one region among them; drafts, marked ones
    /// and open ones, with a direction and without one, alike in both books.
    fn tariffs(&mut self, desk: u32, region: u32) {
        for _ in 0..self.writer.random.between(2, 7) {
            let writer = &mut self.writer;
            let code = writer.random.between(1, 32);
            if writer.used_record(code).is_some() {
                continue;
            }
            let inside = writer.some_of(desk);
            let any = writer.random.between(1, ALL_REGIONS);
            let regions = writer
                .random
                .pick(&[inside, inside, desk, region, region | inside, any]);
            writer.draft_in(code, regions);
            let mut record = writer.record(code);
            if let Some((place, most)) = writer.fit(&record) {
                // At the cap by the sheet of the one book.
                record[place] = most;
                writer.put(code, &record);
            }
            let directed = writer.random.one_in(3);
            if directed {
                writer.direct(code);
            }
            match writer.random.below(5) {
                _ if directed && writer.random.one_in(2) => writer.open(code),
                0 => writer.open(code),
                1..=2 => writer.ask(code),
                _ => {}
            }
            if writer.random.one_in(6) {
                writer.direct(code);
            }
        }
        self.said(Said::ToBuild);
        for code in 1..=32 {
            if self.unlike(code) {
                // A draft without a mark or a direction in both.
                self.writer.close(code);
                let record = self.writer.record(code);
                self.writer.put(code, &record);
            }
        }
        self.said(Said::ToBuild);
        assert!(!(1..=32).any(|code| self.unlike(code)), "two books alike");
    }

    /// Whether the place of a code is not the same in the one book as in the other.
    fn unlike(&self, code: u32) -> bool {
        let [one, other] = [self.desks[0].book(), self.desks[1].book()];
        one.state(code) != other.state(code)
            || one.is_marked(code) != other.is_marked(code)
            || one.is_directed(code) != other.is_directed(code)
    }

    /// What the writer has written goes to both.
    fn said(&mut self, said: Said) {
        self.take(said, |line, _| line.to_vec());
    }

    /// The same, each line as it is for one book and for the other.
    fn take(&mut self, said: Said, text_for: impl Fn(&[u8], usize) -> Vec<u8>) {
        let written = std::mem::take(&mut self.writer.text);
        for line in written.split_inclusive(|&byte| byte == b'\n') {
            let line = line.strip_suffix(b"\n").unwrap_or(line);
            let texts = [text_for(line, 0), text_for(line, 1)];
            let mut answers = [Vec::new(), Vec::new()];
            for book in 0..2 {
                self.desks[book].line(&texts[book], &mut answers[book]);
                answers[book].pop();
            }
            if said == Said::Without {
                let line = String::from_utf8_lossy(line);
                assert_eq!(answers[0], answers[1], "two books answer {line}");
            }
            self.lines.push(Line {
                said,
                field: self.alone,
                texts,
                answers,
            });
        }
    }
}

impl Writer {
    /// Another network cost in a field.
    fn another_cost(&mut self, dated: &mut Dated, field: usize) {
        let cost = dated.fields[field];
        let step = self.random.pick(&[1, 1, 2, 1_000, 300_000, 3_000_000]);
        let less = self.random.one_in(2) && cost >= step;
        dated.fields[field] = if less {
            cost - step
        } else {
            (cost + step).min(MONEY)
        };
    }

    /// Tariffs at the cap of one of a desk's regions, by the sheet of the one book.
    fn cap_of(&mut self, desk: u32, region: u32) {
        self.whose = Whose::One(desk);
        self.within = Some(region);
        for _ in 0..self.random.below(3) {
            self.edge();
        }
    }

    /// Calls of every kind by a desk. It may not have all fourteen, or its sheets are taken.
    fn calls_of(&mut self, desk: u32) {
        self.whose = Whose::One(desk);
        let all = desk == ALL_REGIONS;
        for _ in 0..3 {
            self.take_plain(Turn::Benchmark);
            self.take_plain(Turn::Maximum);
            self.take_plain(Turn::Quote);
        }
        for _ in 0..self.random.between(2, 10) {
            let mut code = self.any_code();
            if self.random.one_in(2) {
                // Inside the desk or not.
                let start = self.random.between(0, 31);
                let codes = (0..32).map(|i| (start + i) % 32 + 1);
                let mut used = codes.filter(|&code| self.used_record(code).is_some());
                code = used.next().unwrap_or(code);
            }
            match self.random.below(10) {
                0 if !all => self.undo(),
                1 if !all => {
                    let dated = self.good_or_bad_sheet();
                    self.set(&dated);
                }
                2 if !all => {
                    let dated = self.good_or_bad_sheet();
                    let _ = self.trial(&dated);
                }
                _ => self.call_on(code),
            }
        }
    }
}
