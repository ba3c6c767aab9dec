//! Demand 3 with UNDO, ASK, CONFIRM and DIRECT among the calls (M-105, M-106, M-108). A slow reading of
//! a whole list of calls stands beside the book: sheet, tariffs, open codes, marks and directions are
//! read from the calls alone, as if an accepted UNDO and the SET that it takes back were not there, and
//! so is whether there is something to take back. An accepted CONFIRM counts as an accepted OPEN. What a
//! sheet, a tariff or the two together are worth is asked of fresh books.
//!
//! An open tariff without a direction falls by a SET exactly when it exceeds; one with a direction falls
//! by none. The direction asked for is the one at the time of the SET.
//!
//! With desks among the calls (M-107) the answer is that to the desk with all fourteen regions, or 17
//! where that comes before it.

mod common;

use common::{reference, tariff, ALL};
use second::random::Random;
use second::{Account, Book, DeskRegions, NotOpened, Refusal, State, Tariff};

/// Calls; sheets and tariffs are those of `Stock`, by their numbers there.
#[derive(Clone, Copy, Debug, PartialEq)]
enum Call {
    Set(usize),
    Trial(usize),
    Put(u32, usize),
    Open(u32),
    Ask(u32),
    Confirm(u32),
    Close(u32),
    Drop(u32),
    Direct(u32),
    Undo,
    Benchmark,
    Maximum,
    Quote(u32),
    /// A run over one account of the code.
    Rebate(u32),
}

/// 0 or the number of the refusal, and the values that come with it.
type Answer = (u32, Vec<u64>);

/// A call that was made, and whether it was accepted.
#[derive(Clone, Copy)]
struct Made {
    call: Call,
    accepted: bool,
}

/// The sheets and the tariffs of the lists.
struct Stock {
    sheets: Vec<(u32, u32, u32, Vec<u32>)>,
    tariffs: Vec<Vec<u32>>,
}

fn in_regions(regions: u32, standing: u32) -> Vec<u32> {
    let mut record = tariff(1, standing, &[18_000], &[]);
    record[3] = regions;
    record.to_vec()
}

fn stock() -> Stock {
    let with = |field: usize, word: u32| {
        let mut sheet = reference();
        sheet[field] = word;
        sheet
    };
    Stock {
        sheets: vec![
            (2023, 10, 3, reference()),
            // 23,960 a day falls, 23,000 does not.
            (2023, 10, 3, with(36, 480_000)),
            (2023, 10, 1, reference()),
            // 23,000 falls too.
            (2023, 10, 3, with(89, 1_500_000)),
            // Economy 7 at 18,000 and 12,250 is within the cap of this one alone.
            (2023, 10, 3, with(95, 579)),
            (2024, 1, 12, with(36, 4_294_467_296)),
            // Refused: 1, 2, 3, 5, 14.
            (2023, 10, 3, reference()[..95].to_vec()),
            (2023, 10, 3, with(93, 0)),
            (2023, 13, 3, reference()),
            (2023, 10, 3, with(37, 100_000_000)),
            (2023, 10, 3, with(36, 4_194_967_296)),
        ],
        tariffs: vec![
            tariff(1, 23_960, &[18_000], &[]).to_vec(),
            tariff(1, 23_000, &[18_000], &[]).to_vec(),
            tariff(2, 23_000, &[18_000, 12_250], &[]).to_vec(),
            tariff(1, 0, &[0], &[]).to_vec(),
            // Over the cap of every sheet.
            tariff(1, 1_000_000, &[18_000], &[]).to_vec(),
            // Refused: 8.
            vec![1, 1],
            // In region 0, in region 13, and in both. In 13 they fall by sheet 3.
            in_regions(1, 23_960),
            in_regions(8_192, 23_000),
            in_regions(8_193, 23_960),
        ],
    }
}

fn values<T>(answer: Result<T, Refusal>, list: impl Fn(T) -> Vec<u64>) -> Answer {
    match answer {
        Ok(value) => (0, list(value)),
        Err(refusal) => (refusal.number(), Vec::new()),
    }
}

fn cells_or_breach(answer: Result<u32, NotOpened>) -> Answer {
    match answer {
        Ok(cells) => (0, vec![cells.into()]),
        Err(NotOpened::Refused(refusal)) => (refusal.number(), Vec::new()),
        Err(NotOpened::OverCap(breach)) => {
            let months = breach.months().iter().map(|&kwh| u64::from(kwh));
            let cell = [breach.region.into(), breach.method.into(), breach.excess];
            (11, cell.into_iter().chain(months).collect())
        }
    }
}

impl Stock {
    /// The book's own answer to the desk with all fourteen.
    fn make(&self, book: &mut Book, call: Call) -> Answer {
        self.make_by(book, ALL, call)
    }

    /// The same to any desk.
    fn make_by(&self, book: &mut Book, desk: u32, call: Call) -> Answer {
        let desk = DeskRegions::new(desk);
        let sheet = |number: usize| &self.sheets[number];
        match call {
            Call::Set(number) => {
                let (year, month, t, fields) = sheet(number);
                let set = book.set_by(desk, *year, *month, *t, fields);
                values(set, |()| Vec::new())
            }
            Call::Trial(number) => {
                let (year, month, t, fields) = sheet(number);
                let trial = book.trial_by(desk, *year, *month, *t, fields);
                values(trial, |set| vec![set.into()])
            }
            Call::Put(code, number) => {
                let put = book.put_by(desk, code, &self.tariffs[number]);
                values(put, |()| Vec::new())
            }
            Call::Open(code) => cells_or_breach(book.open_by(desk, code)),
            Call::Ask(code) => cells_or_breach(book.ask_by(desk, code)),
            Call::Confirm(code) => values(book.confirm_by(desk, code), |cells| vec![cells.into()]),
            Call::Close(code) => values(book.close_by(desk, code), |()| Vec::new()),
            Call::Drop(code) => values(book.drop_code_by(desk, code), |()| Vec::new()),
            Call::Direct(code) => values(book.direct_by(desk, code), |()| Vec::new()),
            Call::Undo => values(book.undo_by(desk), |()| Vec::new()),
            Call::Benchmark => {
                let benchmark = book.benchmark_by(desk, 0, 0, 1, 0);
                values(benchmark, |charge| vec![charge.into()])
            }
            Call::Maximum => values(book.maximum_by(desk, 13, 1, 0, 300), |maximum| {
                vec![maximum.number, maximum.denominator.into()]
            }),
            Call::Quote(code) => values(book.quote_by(desk, code, 0, 1, &[100; 3]), |quote| {
                vec![quote.charge, quote.maximum]
            }),
            Call::Rebate(code) => {
                let mut accounts = [Account {
                    code,
                    region: 0,
                    method: 1,
                    count: 3,
                    months: [100; 12],
                    rebate: 0,
                }];
                match book.rebate_by(desk, &mut accounts) {
                    Ok(total) => (0, vec![total, accounts[0].rebate]),
                    Err(refusal) => (refusal.number(), vec![refusal.place() as u64]),
                }
            }
        }
    }

    /// A fresh book with this sheet, if there is one, and this tariff as a draft at a code.
    fn fresh(&self, sheet: Option<usize>, at: Option<(u32, usize)>) -> Book {
        let mut book = Book::new();
        for call in sheet
            .map(Call::Set)
            .into_iter()
            .chain(at.map(|(code, number)| Call::Put(code, number)))
        {
            assert_eq!(self.make(&mut book, call).0, 0);
        }
        book
    }

    /// Whether a tariff is over the cap of a sheet.
    fn exceeds(&self, sheet: usize, tariff: usize) -> bool {
        let mut book = self.fresh(Some(sheet), Some((1, tariff)));
        self.make(&mut book, Call::Open(1)).0 == 11
    }
}

// What is read from the calls.

/// The place in the list of the SET that UNDO would take back after these calls: no PUT, OPEN, ASK,
/// CONFIRM, CLOSE, DROP or DIRECT has been accepted since, and no UNDO.
fn to_take_back(made: &[Made]) -> Option<usize> {
    let last = made.iter().rposition(|made| {
        made.accepted
            && matches!(
                made.call,
                Call::Set(_)
                    | Call::Put(..)
                    | Call::Open(_)
                    | Call::Ask(_)
                    | Call::Confirm(_)
                    | Call::Close(_)
                    | Call::Drop(_)
                    | Call::Direct(_)
                    | Call::Undo
            )
    })?;
    matches!(made[last].call, Call::Set(_)).then_some(last)
}

/// The calls without each accepted UNDO and the SET that it takes back.
fn effective(made: &[Made]) -> Vec<Made> {
    let mut there = vec![true; made.len()];
    for (place, undo) in made.iter().enumerate() {
        if undo.accepted && undo.call == Call::Undo {
            let set = to_take_back(&made[..place]).expect("something to take back");
            (there[place], there[set]) = (false, false);
        }
    }
    let places = (0..made.len()).filter(|&place| there[place]);
    places.map(|place| made[place]).collect()
}

/// The accepted ones of the calls that are left, oldest first.
fn accepted(made: &[Made]) -> Vec<Call> {
    let left = effective(made);
    let accepted = left.iter().filter(|made| made.accepted);
    accepted.map(|made| made.call).collect()
}

/// The sheet in force is that of the last accepted SET.
fn sheet(made: &[Made]) -> Option<usize> {
    accepted(made).iter().rev().find_map(|call| match call {
        Call::Set(number) => Some(*number),
        _ => None,
    })
}

/// The tariff of a code is that of its last accepted PUT with no DROP accepted since.
fn tariff_of(made: &[Made], code: u32) -> Option<usize> {
    let last = accepted(made)
        .into_iter()
        .rev()
        .find(|call| matches!(call, Call::Put(of, _) | Call::Drop(of) if *of == code));
    match last {
        Some(Call::Put(_, number)) => Some(number),
        _ => None,
    }
}

/// A code is under a direction when a DIRECT of it was accepted and, since the last such, no PUT or DROP
/// of it.
fn directed_by(calls: &[Call], code: u32) -> bool {
    let given = calls.iter().rposition(|&call| call == Call::Direct(code));
    given.is_some_and(|given| {
        let mut since = calls[given..].iter();
        !since.any(|call| matches!(call, Call::Put(of, _) | Call::Drop(of) if *of == code))
    })
}

fn is_directed(made: &[Made], code: u32) -> bool {
    directed_by(&accepted(made), code)
}

/// A code is open when an OPEN or CONFIRM of it was accepted and, since the last such, no CLOSE, PUT or
/// DROP of it and no SET with whose sheet its tariff exceeds, unless it was under a direction by then.
fn is_open(stock: &Stock, made: &[Made], code: u32) -> bool {
    let calls = accepted(made);
    let opens = |call: &Call| [Call::Open(code), Call::Confirm(code)].contains(call);
    let Some(opened) = calls.iter().rposition(opens) else {
        return false;
    };
    (opened..calls.len()).all(|place| match calls[place] {
        Call::Close(of) | Call::Put(of, _) | Call::Drop(of) => of != code,
        Call::Set(_) if directed_by(&calls[..place], code) => true,
        // With no tariff, or another one by now, it is not open whatever the sheet was.
        Call::Set(number) => {
            let tariff = tariff_of(made, code);
            tariff.is_some_and(|tariff| !stock.exceeds(number, tariff))
        }
        _ => true,
    })
}

/// A code is marked when an ASK of it was accepted and, since the last such, no SET, no PUT or DROP of
/// it, and no OPEN or CONFIRM of it, since an open tariff has no mark.
fn is_marked(made: &[Made], code: u32) -> bool {
    let calls = accepted(made);
    let Some(asked) = calls.iter().rposition(|&call| call == Call::Ask(code)) else {
        return false;
    };
    calls[asked..].iter().all(|&call| match call {
        Call::Put(of, _) | Call::Drop(of) | Call::Open(of) | Call::Confirm(of) => of != code,
        Call::Set(_) => false,
        _ => true,
    })
}

fn state(stock: &Stock, made: &[Made], code: u32) -> State {
    match tariff_of(made, code) {
        None => State::Empty,
        Some(_) if is_open(stock, made, code) => State::Open,
        Some(_) => State::Draft,
    }
}

/// The answer that a call's checks give for what is read from the calls before it.
fn answer(stock: &Stock, made: &[Made], call: Call) -> Answer {
    let sheet = sheet(made);
    // Where the place is not open, or it does not matter: as on a fresh book.
    let as_fresh = |code: Option<u32>| {
        let at = code.and_then(|code| Some((code, tariff_of(made, code)?)));
        let mut book = stock.fresh(sheet, at);
        stock.make(&mut book, call)
    };
    match call {
        Call::Undo => match to_take_back(made) {
            Some(_) => (0, Vec::new()),
            None => (15, Vec::new()),
        },
        Call::Trial(number) => {
            let refusal = stock.make(&mut Book::new(), Call::Set(number)).0;
            if refusal > 0 {
                return (refusal, Vec::new());
            }
            let falls = |code: &u32| {
                let may = is_open(stock, made, *code) && !is_directed(made, *code);
                let tariff = tariff_of(made, *code).filter(|_| may);
                tariff.is_some_and(|tariff| stock.exceeds(number, tariff))
            };
            let set: u64 = (1..=32).filter(falls).map(|code| 1 << (code - 1)).sum();
            (0, vec![set])
        }
        Call::Put(code, _)
        | Call::Open(code)
        | Call::Ask(code)
        | Call::Confirm(code)
        | Call::Drop(code)
        | Call::Direct(code)
            if is_open(stock, made, code) =>
        {
            (7, Vec::new())
        }
        Call::Close(code) if is_open(stock, made, code) => (0, Vec::new()),
        // A direction is about 11 and the cells alone.
        Call::Open(code) | Call::Ask(code) if is_directed(made, code) => match sheet {
            Some(_) => (0, vec![0]),
            None => (10, Vec::new()),
        },
        Call::Confirm(code) if is_marked(made, code) && is_directed(made, code) => (0, vec![0]),
        // The cells are those that OPEN would answer.
        Call::Confirm(code) if is_marked(made, code) => {
            let at = tariff_of(made, code).map(|tariff| (code, tariff));
            let opened = stock.make(&mut stock.fresh(sheet, at), Call::Open(code));
            assert_eq!(opened.0, 0, "a marked draft over the cap");
            opened
        }
        Call::Put(code, _)
        | Call::Open(code)
        | Call::Ask(code)
        | Call::Confirm(code)
        | Call::Close(code)
        | Call::Drop(code)
        | Call::Direct(code)
        | Call::Quote(code) => as_fresh(Some(code)),
        Call::Rebate(code) => {
            let quote = answer(stock, made, Call::Quote(code));
            rebate(stock, made, code, quote)
        }
        Call::Set(_) | Call::Benchmark | Call::Maximum => as_fresh(None),
    }
}

/// The answer to a run over one account, whose quote is this.
fn rebate(stock: &Stock, made: &[Made], code: u32, quote: Answer) -> Answer {
    let (0, [charge, maximum]) = (quote.0, &quote.1[..]) else {
        return (19, vec![0]);
    };
    if !is_open(stock, made, code) || !is_directed(made, code) {
        return (18, vec![0]);
    }
    let tariff = tariff_of(made, code).expect("an open tariff");
    let kind = stock.tariffs[tariff][0];
    // The sheets have the m of the reference sheet.
    let scale = 12_000 * if kind == 1 { 3_000 } else { 4_000 };
    let mut rebate = charge.saturating_sub(*maximum) / scale;
    if rebate * scale + maximum < *charge {
        rebate += 1;
    }
    (0, vec![rebate, rebate])
}

/// Whether a call is outside a desk, by the tariffs that are read from the calls.
fn is_outside(stock: &Stock, made: &[Made], desk: u32, call: Call) -> bool {
    let not_in = |regions: u32| !(1..=ALL).contains(&desk) || regions & !desk > 0;
    let of = |tariff: usize| {
        let tariff = Tariff::new(&stock.tariffs[tariff]);
        tariff.is_some_and(|tariff| not_in(tariff.regions()))
    };
    let old = |code: u32| not_in(0) || tariff_of(made, code).is_some_and(of);
    match call {
        Call::Set(_) | Call::Trial(_) | Call::Undo | Call::Direct(_) => desk != ALL,
        // It is its quotes that are.
        Call::Rebate(_) => false,
        Call::Put(code, new) => old(code) || of(new),
        Call::Benchmark => not_in(1),
        Call::Maximum => not_in(1 << 13),
        Call::Open(code)
        | Call::Ask(code)
        | Call::Confirm(code)
        | Call::Close(code)
        | Call::Drop(code)
        | Call::Quote(code) => old(code),
    }
}

/// The answer to a desk: that to the one with all fourteen if it is one of the refusals that come
/// before 17, or if the call is not outside the desk.
fn answer_to(stock: &Stock, made: &[Made], desk: u32, call: Call) -> Answer {
    if let Call::Rebate(code) = call {
        let quote = answer_to(stock, made, desk, Call::Quote(code));
        return rebate(stock, made, code, quote);
    }
    let to_all = answer(stock, made, call);
    let before_17: &[u32] = match call {
        Call::Set(_) | Call::Trial(_) | Call::Undo | Call::Direct(_) => &[],
        Call::Put(..) => &[6, 7, 8],
        Call::Benchmark | Call::Maximum => &[13],
        Call::Quote(_) => &[6, 9, 10, 13],
        _ => &[6, 9],
    };
    if !before_17.contains(&to_all.0) && is_outside(stock, made, desk, call) {
        return (17, Vec::new());
    }
    to_all
}

/// The places of the book against what is read from the calls.
fn assert_places(stock: &Stock, made: &[Made], book: &Book, codes: &[u32]) {
    let list = || made.iter().map(|made| made.call).collect::<Vec<_>>();
    for &code in codes {
        let read = state(stock, made, code);
        assert_eq!(
            book.state(code),
            Some(read),
            "code {code} after {:?}",
            list()
        );
        let marked = is_marked(made, code);
        assert_eq!(
            book.is_marked(code),
            marked,
            "code {code} after {:?}",
            list()
        );
        let directed = is_directed(made, code);
        assert_eq!(
            book.is_directed(code),
            directed,
            "code {code} after {:?}",
            list()
        );
    }
}

/// Makes a call on the book, and compares the answer.
fn step(stock: &Stock, made: &mut Vec<Made>, book: &mut Book, call: Call) -> Answer {
    step_by(stock, made, book, ALL, call)
}

/// The same by any desk.
fn step_by(stock: &Stock, made: &mut Vec<Made>, book: &mut Book, desk: u32, call: Call) -> Answer {
    let read = answer_to(stock, made, desk, call);
    let given = stock.make_by(book, desk, call);
    let list = || made.iter().map(|made| made.call).collect::<Vec<_>>();
    assert_eq!(given, read, "desk {desk}, {call:?} after {:?}", list());
    made.push(Made {
        call,
        accepted: given.0 == 0,
    });
    given
}

fn random_call(random: &mut Random, stock: &Stock) -> Call {
    let code = match random.below(20) {
        0 => random.pick(&[0, 33]),
        _ => random.between(1, 3),
    };
    let sheet = random.index(stock.sheets.len());
    let tariff = random.index(stock.tariffs.len());
    match random.below(43) {
        0..=6 => Call::Set(sheet),
        7 => Call::Trial(sheet),
        8..=10 => Call::Put(code, tariff),
        11..=15 => Call::Open(code),
        16..=17 => Call::Close(code),
        18 => Call::Drop(code),
        19 => Call::Benchmark,
        20 => Call::Maximum,
        21 => Call::Quote(code),
        22..=27 => Call::Ask(code),
        28..=32 => Call::Confirm(code),
        33..=35 => Call::Direct(code),
        36..=37 => Call::Rebate(code),
        _ => Call::Undo,
    }
}

/// A sheet, and tariffs that are open under it.
const OPEN_AT_FIRST: [Call; 5] = [
    Call::Set(0),
    Call::Put(1, 0),
    Call::Open(1),
    Call::Put(2, 1),
    Call::Open(2),
];

/// A sheet, and a tariff that is open under a direction, over the cap of every sheet.
const DIRECTED_AT_FIRST: [Call; 4] = [
    Call::Set(0),
    Call::Put(1, 4),
    Call::Direct(1),
    Call::Open(1),
];

#[test]
fn long_lists_read_from_the_calls_alone() {
    let stock = stock();
    let mut random = Random::new(105);
    let (mut taken_back, mut refused, mut came_back, mut firsts) = (0, 0, 0, 0);
    let (mut asked, mut confirmed, mut not_marked, mut marks_back) = (0, 0, 0, 0);
    let (mut directed, mut stayed, mut rebates, mut later) = (0, 0, 0, 0);
    for _ in 0..12_000 {
        let mut made = Vec::new();
        let mut book = Book::new();
        let begin: &[Call] = match random.below(5) {
            0..=1 => &OPEN_AT_FIRST,
            2 => &DIRECTED_AT_FIRST,
            _ => &[],
        };
        for &call in begin {
            step(&stock, &mut made, &mut book, call);
        }
        for _ in 0..random.between(1, 40) {
            let open = |book: &Book| {
                let codes = 1..=3;
                codes
                    .filter(|&code| book.state(code) == Some(State::Open))
                    .count()
            };
            let marks = |book: &Book| (1..=3).filter(|&code| book.is_marked(code)).count();
            let before = open(&book);
            let call = random_call(&mut random, &stock);
            let answer = step(&stock, &mut made, &mut book, call);
            let over = |sheet: usize, code: u32| {
                let tariff = tariff_of(&made, code).expect("a used code");
                stock.exceeds(sheet, tariff)
            };
            match (call, answer.0) {
                (Call::Set(sheet), 0) => {
                    let open = |code: &u32| book.state(*code) == Some(State::Open);
                    let mut codes = (1..=3).filter(open);
                    stayed += usize::from(codes.any(|code| over(sheet, code)));
                }
                (Call::Direct(code), 0) => {
                    directed += 1;
                    let calls = accepted(&made);
                    let mut since = calls.iter().rev().skip(1);
                    let last = since.find(|call| !matches!(call, Call::Open(_) | Call::Ask(_)));
                    if let Some(Call::Set(sheet)) = last {
                        later += usize::from(over(*sheet, code));
                    }
                }
                (Call::Rebate(_), 0) => rebates += usize::from(answer.1[0] > 0),
                (Call::Undo, 0) => {
                    taken_back += 1;
                    came_back += open(&book) - before;
                    firsts += usize::from(book.t().is_none());
                    marks_back += marks(&book);
                }
                (Call::Undo, _) => refused += 1,
                (Call::Ask(_), 0) => asked += 1,
                (Call::Confirm(_), 0) => confirmed += 1,
                (Call::Confirm(_), 16) => not_marked += 1,
                _ => {}
            }
        }
        let codes: Vec<u32> = (1..=32).collect();
        assert_places(&stock, &made, &book, &codes);
    }
    let met = [taken_back, refused, came_back, firsts];
    assert!(
        taken_back > 5_000 && refused > 10_000 && came_back > 500 && firsts > 1_000,
        "{met:?}"
    );
    let met = [asked, confirmed, not_marked, marks_back];
    assert!(
        asked > 2_000 && confirmed > 300 && not_marked > 2_000 && marks_back > 100,
        "{met:?}"
    );
    let met = [directed, stayed, rebates, later];
    assert!(
        directed > 3_000 && stayed > 300 && rebates > 100 && later > 300,
        "{met:?}"
    );
}

/// All lists of these calls up to a length, after some calls to begin with.
fn all_lists(
    stock: &Stock,
    made: &mut Vec<Made>,
    book: &Book,
    calls: &[(u32, Call)],
    length: usize,
) -> usize {
    assert_places(stock, made, book, &[1]);
    if length == 0 {
        return 1;
    }
    let mut lists = 1;
    for &(desk, call) in calls {
        let mut book = book.clone();
        step_by(stock, made, &mut book, desk, call);
        lists += all_lists(stock, made, &book, calls, length - 1);
        made.pop();
    }
    lists
}

#[test]
fn all_short_lists_read_from_the_calls_alone() {
    let stock = stock();
    // A tariff that falls by sheet 1 and not by sheet 0, and a sheet that is refused.
    let calls = [
        Call::Set(0),
        Call::Set(1),
        Call::Set(8),
        Call::Trial(1),
        Call::Put(1, 0),
        Call::Open(1),
        Call::Close(1),
        Call::Drop(1),
        Call::Benchmark,
        Call::Undo,
    ];
    let begins: [&[Call]; 2] = [&[], &OPEN_AT_FIRST[..3]];
    for begin in begins {
        let (mut made, mut book) = (Vec::new(), Book::new());
        for &call in begin {
            step(&stock, &mut made, &mut book, call);
        }
        let calls = calls.map(|call| (ALL, call));
        let lists = all_lists(&stock, &mut made, &book, &calls, 5);
        assert_eq!(lists, 111_111);
    }
}

#[test]
fn all_short_lists_of_asks_and_confirms_read_from_the_calls_alone() {
    let stock = stock();
    let calls = [
        Call::Set(0),
        Call::Set(1),
        Call::Put(1, 0),
        Call::Open(1),
        Call::Ask(1),
        Call::Confirm(1),
        Call::Close(1),
        Call::Drop(1),
        Call::Undo,
    ];
    // A draft that is asked for, and one whose mark a sheet cleared.
    let asked = [Call::Set(0), Call::Put(1, 0), Call::Ask(1), Call::Set(1)];
    let begins: [&[Call]; 4] = [&[], &asked[..2], &asked[..3], &asked];
    for begin in begins {
        let (mut made, mut book) = (Vec::new(), Book::new());
        for &call in begin {
            step(&stock, &mut made, &mut book, call);
        }
        let calls = calls.map(|call| (ALL, call));
        let lists = all_lists(&stock, &mut made, &book, &calls, 5);
        assert_eq!(lists, 66_430);
    }
}

#[test]
fn all_short_lists_of_directions_read_from_the_calls_alone() {
    let stock = stock();
    let calls = [
        Call::Set(0),
        Call::Set(1),
        Call::Put(1, 0),
        Call::Open(1),
        Call::Ask(1),
        Call::Confirm(1),
        Call::Close(1),
        Call::Drop(1),
        Call::Direct(1),
        Call::Undo,
    ];
    // A draft over the cap of every sheet, one under a direction, asked for, and open; a tariff that
    // fell, and one that was given a direction then.
    let over = [
        Call::Set(0),
        Call::Put(1, 4),
        Call::Direct(1),
        Call::Ask(1),
        Call::Confirm(1),
        Call::Set(1),
    ];
    let fell = [
        Call::Set(0),
        Call::Put(1, 0),
        Call::Open(1),
        Call::Set(1),
        Call::Direct(1),
    ];
    let begins = [
        (5, &[][..]),
        (4, &over[..2]),
        (5, &over[..3]),
        (4, &over[..4]),
    ];
    let more = [
        (4, &over[..5]),
        (4, &over[..]),
        (4, &fell[..4]),
        (4, &fell[..]),
    ];
    for (length, begin) in begins.into_iter().chain(more) {
        let (mut made, mut book) = (Vec::new(), Book::new());
        for &call in begin {
            step(&stock, &mut made, &mut book, call);
        }
        let calls = calls.map(|call| (ALL, call));
        let lists = all_lists(&stock, &mut made, &book, &calls, length);
        assert_eq!(lists, [11_111, 111_111][length - 4]);
    }
}

/// Reading F5, written out.
#[test]
fn a_direction_given_later_brings_back_nothing_that_fell() {
    let stock = stock();
    let list = [
        (Call::Set(0), State::Empty),
        (Call::Put(1, 0), State::Draft),
        (Call::Open(1), State::Open),
        // It falls.
        (Call::Set(1), State::Draft),
        (Call::Direct(1), State::Draft),
        (Call::Set(0), State::Draft),
        (Call::Open(1), State::Open),
        // And now it does not.
        (Call::Set(1), State::Open),
        (Call::Set(5), State::Open),
        (Call::Undo, State::Open),
        (Call::Close(1), State::Draft),
        (Call::Put(1, 0), State::Draft),
        (Call::Set(0), State::Draft),
        (Call::Open(1), State::Open),
        (Call::Set(1), State::Draft),
    ];
    let (mut made, mut book) = (Vec::new(), Book::new());
    for (call, after) in list {
        assert_eq!(step(&stock, &mut made, &mut book, call).0, 0, "{call:?}");
        assert_eq!(state(&stock, &made, 1), after, "{call:?}");
        assert_places(&stock, &made, &book, &[1]);
    }
}

/// Desks that have region 0, region 13, both, all but one or all, and such that are none.
const DESKS: [u32; 11] = [
    ALL,
    ALL,
    1,
    8_192,
    8_193,
    8_193,
    16_382,
    0,
    16_384,
    32_767,
    1 << 31 | 8_193,
];

#[test]
fn long_lists_with_desks_read_from_the_calls_alone() {
    let stock = stock();
    let mut random = Random::new(107);
    let (mut outside, mut by_part, mut fell, mut back) = (0, 0, 0, 0);
    for _ in 0..8_000 {
        let mut made = Vec::new();
        let mut book = Book::new();
        if random.one_in(2) {
            for call in [
                Call::Set(0),
                Call::Put(1, 6),
                Call::Open(1),
                Call::Put(2, 8),
            ] {
                step(&stock, &mut made, &mut book, call);
            }
        }
        for _ in 0..random.between(1, 40) {
            let open = |book: &Book| {
                let open = |code: &u32| book.state(*code) == Some(State::Open);
                (1..=3).filter(open).count()
            };
            let before = open(&book);
            let mut call = random_call(&mut random, &stock);
            if let Call::Put(_, tariff) = &mut call {
                if random.one_in(2) {
                    *tariff = random.pick(&[6, 7, 8]);
                }
            }
            let desk = match call {
                Call::Set(_) | Call::Undo if random.one_in(2) => ALL,
                _ => random.pick(&DESKS),
            };
            let answer = step_by(&stock, &mut made, &mut book, desk, call);
            outside += usize::from(answer.0 == 17);
            by_part += usize::from(answer.0 == 0 && desk != ALL);
            match call {
                Call::Set(_) => fell += before - open(&book),
                Call::Undo => back += open(&book) - before,
                _ => {}
            }
        }
        let codes: Vec<u32> = (1..=32).collect();
        assert_places(&stock, &made, &book, &codes);
    }
    let met = [outside, by_part, fell, back];
    assert!(
        outside > 30_000 && by_part > 3_000 && fell > 300 && back > 100,
        "{met:?}"
    );
}

/// Two desks with a region each, and the one with all fourteen.
#[test]
fn all_short_lists_with_desks_read_from_the_calls_alone() {
    let stock = stock();
    let mut calls = Vec::new();
    for desk in [1, 8_192] {
        for call in [
            Call::Open(1),
            Call::Ask(1),
            Call::Confirm(1),
            Call::Close(1),
            Call::Drop(1),
        ] {
            calls.push((desk, call));
        }
    }
    calls.extend([
        (1, Call::Put(1, 6)),
        (1, Call::Put(1, 8)),
        (8_192, Call::Put(1, 7)),
        (8_193, Call::Put(1, 8)),
        (8_193, Call::Ask(1)),
        (ALL, Call::Set(0)),
        (ALL, Call::Set(3)),
        (ALL, Call::Undo),
        (ALL, Call::Direct(1)),
        (8_193, Call::Direct(1)),
    ]);
    let begins: [&[Call]; 4] = [
        &[],
        &[Call::Set(0), Call::Put(1, 6), Call::Ask(1)],
        &[Call::Set(0), Call::Put(1, 7), Call::Open(1)],
        &[Call::Set(0), Call::Put(1, 8), Call::Open(1), Call::Set(3)],
    ];
    for begin in begins {
        let (mut made, mut book) = (Vec::new(), Book::new());
        for &call in begin {
            step(&stock, &mut made, &mut book, call);
        }
        let lists = all_lists(&stock, &mut made, &book, &calls, 4);
        assert_eq!(lists, 1 + 20 + 400 + 8_000 + 160_000);
    }
}
