//! All lists of up to four calls on one code: ASK, CONFIRM, OPEN, CLOSE, PUT, DROP, SET, UNDO and
//! DIRECT in every order, from several beginnings. After each list stand calls that show what it left.
//!
//! And all lists of up to three such calls by two desks with a region each, one that has both, and
//! the one with all fourteen.

use std::ops::Range;

use super::*;

/// What a book holds before each of the lists. The SETs of a list take these two sheets in turn, its
/// PUTs these two tariffs.
pub struct Beginning {
    pub name: &'static str,
    calls: &'static [Begin],
    sheets: [Sheets; 2],
    standing: [u32; 2],
    desks: bool,
}

#[derive(Clone, Copy)]
enum Begin {
    Set(Sheets),
    /// A flat tariff with this standing charge.
    Put(u32),
    /// The same in these regions.
    PutIn(u32, u32),
    Open,
    Ask,
    Direct,
}

/// The reference sheet, and one with a lower SMNCC.
#[derive(Clone, Copy)]
enum Sheets {
    Mild,
    Tight,
}

/// The standing charge at the cap of the mild sheet, which is over that of the tight one.
const AT_THE_CAP: u32 = 23_960;
/// One within the cap of both sheets.
const LOW: u32 = 23_000;
/// One over the cap of both.
const HIGH: u32 = 23_961;

use Begin::{Ask, Direct, Open, Put, PutIn, Set};
use Sheets::{Mild, Tight};

pub const BEGINNINGS: [Beginning; 7] = [
    Beginning {
        name: "a draft",
        calls: &[Set(Mild), Put(AT_THE_CAP)],
        sheets: [Tight, Mild],
        standing: [AT_THE_CAP, LOW],
        desks: false,
    },
    Beginning {
        name: "a marked draft",
        calls: &[Set(Mild), Put(LOW), Ask],
        sheets: [Mild, Tight],
        standing: [LOW, AT_THE_CAP],
        desks: false,
    },
    Beginning {
        name: "an open tariff",
        calls: &[Set(Mild), Put(AT_THE_CAP), Open],
        sheets: [Tight, Mild],
        standing: [AT_THE_CAP, LOW],
        desks: false,
    },
    Beginning {
        name: "a draft over the cap, and a sheet to take back",
        calls: &[Set(Mild), Put(AT_THE_CAP), Set(Tight)],
        sheets: [Mild, Tight],
        standing: [LOW, AT_THE_CAP],
        desks: false,
    },
    Beginning {
        name: "a mark that a sheet cleared, which can be taken back",
        calls: &[Set(Mild), Put(LOW), Ask, Set(Mild)],
        sheets: [Tight, Mild],
        standing: [AT_THE_CAP, LOW],
        desks: false,
    },
    Beginning {
        name: "an open tariff under a direction, and a sheet to take back",
        calls: &[Set(Mild), Put(HIGH), Direct, Open, Set(Tight)],
        sheets: [Mild, Tight],
        standing: [HIGH, AT_THE_CAP],
        desks: false,
    },
    Beginning {
        name: "a fresh book",
        calls: &[],
        sheets: [Mild, Tight],
        standing: [AT_THE_CAP, LOW],
        desks: false,
    },
];

/// The desk of region 0, that of region 1, and one that has both.
const FIRST: u32 = 1;
const SECOND: u32 = 2;
const BOTH: u32 = FIRST | SECOND;

/// The same for lists with desks.
pub const BEGINNINGS_WITH_DESKS: [Beginning; 9] = [
    Beginning {
        name: "a draft of the one",
        calls: &[Set(Mild), PutIn(FIRST, AT_THE_CAP)],
        sheets: [Tight, Mild],
        standing: [LOW, AT_THE_CAP],
        desks: true,
    },
    Beginning {
        name: "a marked draft of the one",
        calls: &[Set(Mild), PutIn(FIRST, LOW), Ask],
        sheets: [Mild, Tight],
        standing: [LOW, AT_THE_CAP],
        desks: true,
    },
    Beginning {
        name: "an open tariff of the one",
        calls: &[Set(Mild), PutIn(FIRST, AT_THE_CAP), Open],
        sheets: [Tight, Mild],
        standing: [AT_THE_CAP, LOW],
        desks: true,
    },
    Beginning {
        name: "a draft of both",
        calls: &[Set(Mild), PutIn(BOTH, LOW)],
        sheets: [Tight, Mild],
        standing: [AT_THE_CAP, LOW],
        desks: true,
    },
    Beginning {
        name: "an open tariff of both",
        calls: &[Set(Mild), PutIn(BOTH, AT_THE_CAP), Open],
        sheets: [Tight, Mild],
        standing: [AT_THE_CAP, LOW],
        desks: true,
    },
    Beginning {
        name: "a tariff of the one that fell, and the sheet to take back",
        calls: &[Set(Mild), PutIn(FIRST, AT_THE_CAP), Open, Set(Tight)],
        sheets: [Mild, Tight],
        standing: [LOW, AT_THE_CAP],
        desks: true,
    },
    Beginning {
        name: "a mark of both that a sheet cleared, which can be taken back",
        calls: &[Set(Mild), PutIn(BOTH, LOW), Ask, Set(Mild)],
        sheets: [Tight, Mild],
        standing: [AT_THE_CAP, LOW],
        desks: true,
    },
    Beginning {
        name: "a marked draft of the one under a direction",
        calls: &[Set(Mild), PutIn(FIRST, HIGH), Direct, Ask],
        sheets: [Tight, Mild],
        standing: [HIGH, LOW],
        desks: true,
    },
    Beginning {
        name: "a fresh book",
        calls: &[],
        sheets: [Mild, Tight],
        standing: [AT_THE_CAP, LOW],
        desks: true,
    },
];

/// The calls of the lists.
const CALLS: usize = 9;
const CALLS_WITH_DESKS: usize = 19;

/// The lists of none to four of nine calls.
pub const LISTS: usize = 1 + 9 + 81 + 729 + 6_561;
/// The lists of none to three of 19 calls.
pub const LISTS_WITH_DESKS: usize = 1 + 19 + 361 + 6_859;

/// The calls of a list, each a number below so many.
fn list(mut number: usize, calls: usize) -> Vec<usize> {
    let mut length = 0;
    while number >= calls.pow(length) {
        number -= calls.pow(length);
        length += 1;
    }
    let call = |place: u32| number / calls.pow(place) % calls;
    (0..length).map(call).collect()
}

impl Beginning {
    /// The scripts of these lists, each for a program of its own, and how many lists are in each:
    /// as many as leave a book that can be brought to this beginning again.
    pub fn scripts(&self, lists: Range<usize>) -> Vec<(u64, Vec<u8>)> {
        let mut scripts = Vec::new();
        let mut writer = Writer::plain_lines(0, usize::MAX);
        let mut count = 0;
        for number in lists.clone() {
            for &call in self.calls {
                writer.begin(call);
            }
            if self.desks {
                writer.list_with_desks(self, &list(number, CALLS_WITH_DESKS));
                writer.show_with_desks();
            } else {
                writer.list(self, &list(number, CALLS));
                writer.show();
            }
            writer.close(1);
            writer.drop_code(1);
            count += 1;
            let again = !self.calls.is_empty() || writer.book == Book::new();
            if !again || number + 1 == lists.end {
                let written = std::mem::replace(&mut writer, Writer::plain_lines(0, usize::MAX));
                scripts.push((std::mem::take(&mut count), written.text));
            }
        }
        scripts
    }
}

impl Writer {
    fn begin(&mut self, call: Begin) {
        match call {
            Set(Mild) => self.set(&reference()),
            Set(Tight) => {
                let mut dated = reference();
                dated.fields[SMNCC] = 480_000;
                self.set(&dated);
            }
            Put(standing) => self.begin(PutIn(ALL_REGIONS, standing)),
            PutIn(regions, standing) => {
                let mut record = record_of(1, 1, standing, regions, 3);
                record[5] = 18_000;
                self.put(1, &record);
            }
            Open => self.open(1),
            Ask => self.ask(1),
            Direct => self.direct(1),
        }
    }

    fn list(&mut self, beginning: &Beginning, calls: &[usize]) {
        let (mut sheets, mut standing) = (
            beginning.sheets.into_iter().cycle(),
            beginning.standing.into_iter().cycle(),
        );
        for call in calls {
            match call {
                0 => self.ask(1),
                1 => self.confirm(1),
                2 => self.open(1),
                3 => self.close(1),
                4 => self.drop_code(1),
                5 => self.undo(),
                8 => self.direct(1),
                6 => self.begin(Put(standing.next().expect("no end of them"))),
                _ => self.begin(Set(sheets.next().expect("no end of them"))),
            }
        }
    }

    /// What the place holds, whether it is marked, whether a SET can be taken back, and whether it is
    /// under a direction: the last CONFIRM is for a mark that has come back.
    fn show(&mut self) {
        self.quote(1, 0, 1, &[0, 0, 0]);
        self.confirm(1);
        self.undo();
        self.confirm(1);
        self.run();
        self.open(1);
        self.call("benchmark", &[0, 0, 1, 0]);
    }

    /// A rebate run over a household that uses nothing.
    fn run(&mut self) {
        self.rebate(&[Account {
            code: 1,
            region: 0,
            method: 1,
            count: 3,
            months: [0; 12],
            rebate: 0,
        }]);
    }

    fn list_with_desks(&mut self, beginning: &Beginning, calls: &[usize]) {
        let (mut sheets, mut standing) = (
            beginning.sheets.into_iter().cycle(),
            beginning.standing.into_iter().cycle(),
        );
        for call in calls {
            let desk = match call {
                0..=5 | 16 => Some(FIRST),
                6..=11 => Some(SECOND),
                12 | 18 => Some(BOTH),
                _ => None,
            };
            self.whose = desk.map_or(Whose::Unnamed, Whose::One);
            match call {
                0 | 6 | 12 => self.ask(1),
                1 | 7 => self.confirm(1),
                2 | 8 => self.open(1),
                3 | 9 => self.close(1),
                4 | 10 => self.drop_code(1),
                5 | 11 | 13 => {
                    let standing = standing.next().expect("no end of them");
                    self.begin(PutIn(desk.unwrap_or(BOTH), standing));
                }
                16 => self.begin(PutIn(BOTH, LOW)),
                14 => self.undo(),
                17 | 18 => self.direct(1),
                _ => self.begin(Set(sheets.next().expect("no end of them"))),
            }
            self.whose = Whose::Unnamed;
        }
    }

    /// The same as `show`, and which desk's tariff it is.
    fn show_with_desks(&mut self) {
        for desk in [FIRST, SECOND] {
            self.whose = Whose::One(desk);
            self.quote(1, 0, 1, &[0, 0, 0]);
            self.quote(1, 1, 1, &[0, 0, 0]);
            self.run();
        }
        self.undo();
        self.whose = Whose::Unnamed;
        self.confirm(1);
        self.undo();
        self.confirm(1);
        self.open(1);
        self.call("benchmark", &[0, 0, 1, 0]);
    }
}
