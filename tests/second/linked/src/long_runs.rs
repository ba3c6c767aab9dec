//! Rebate runs of a million accounts, and of one more.

use second::{DeskRegions, State, RUN_LIMIT};

use crate::call::{before_the_run, for_second, run_by_second, Answer, Call, Word};
use crate::compared::{different, same_accounts, same_words, Compared};
use crate::Account;

impl Compared<'_> {
    /// Long lists made of the accounts of a run that was accepted, if QUOTE takes an account of this
    /// book that is not open under a direction, too.
    pub(crate) fn million_accounts(&mut self, run: &Call, some: &[Account]) -> Result<(), String> {
        let desk = run.desk;
        let other = match self.not_under_a_direction(desk, some) {
            Some(other) if some.len() > 4 => other,
            _ => return Ok(()),
        };
        self.long_runs -= 1;
        let refused = Account {
            count: 13,
            ..some[0]
        };
        let list = some.iter().copied().cycle();
        let mut list: Vec<Account> = list.take(RUN_LIMIT + 1).collect();
        let last = RUN_LIMIT - 1;
        let between = self.random.index(last);
        self.long_run(desk, &mut list, RUN_LIMIT, "1,000,000 accounts: ok")?;
        self.long_run(
            desk,
            &mut list,
            RUN_LIMIT + 1,
            "1,000,001 accounts: refused 19",
        )?;
        for (place, account, what) in [
            (last, refused, "1,000,000 accounts: 19 in the last"),
            (between, refused, "1,000,001 accounts: 19 before the limit"),
            (last, other, "1,000,000 accounts: 18 in the last"),
            (0, other, "1,000,001 accounts: 19 behind an 18"),
        ] {
            let before = std::mem::replace(&mut list[place], account);
            let length = RUN_LIMIT + usize::from(place < last);
            self.long_run(desk, &mut list, length, what)?;
            list[place] = before;
        }
        Ok(())
    }

    /// An account that QUOTE takes, with a tariff that is not open under a direction.
    fn not_under_a_direction(&self, desk: u32, some: &[Account]) -> Option<Account> {
        let desk = DeskRegions::new(desk);
        let codes = (1..=32).filter(|&code| {
            let open = self.book.state(code) == Some(State::Open);
            !(open && self.book.is_directed(code))
        });
        let mut accounts = codes.filter_map(|code| {
            let record = self.records[code as usize - 1]?;
            Some(Account {
                code,
                region: record[3].trailing_zeros(),
                method: record[4].trailing_zeros(),
                ..*some.first()?
            })
        });
        accounts.find(|account| {
            let run = run_by_second(&self.book, desk, &mut [for_second(account)]);
            run.refusal == 18
        })
    }

    /// A run over the first accounts of a list.
    fn long_run(
        &mut self,
        desk: u32,
        list: &mut [Account],
        length: usize,
        what: &str,
    ) -> Result<(), String> {
        for (place, account) in list.iter_mut().enumerate() {
            account.rebate = before_the_run(place);
        }
        let mut expected_list: Vec<second::Account> = list.iter().map(for_second).collect();
        let expected_run = &mut expected_list[..length];
        let expected = run_by_second(&self.book, DeskRegions::new(desk), expected_run);
        self.before.clear();
        self.before.extend_from_slice(self.image.book());
        let mut call = Call {
            desk,
            word: Word::Rebate,
            numbers: Vec::new(),
        };
        let book = self.image.book();
        let answer = self.library.call(book, &mut call, &mut list[..length]);
        if answer != Answer::Run(expected) {
            return Err(different(what, &Answer::Run(expected), &answer));
        }
        // What stands behind the run, too.
        same_accounts(&expected_list, list)?;
        same_words(
            "a long run changed the book",
            &self.before,
            self.image.book(),
        )?;
        self.tally.one(&format!("rebate runs of {what}"));
        if expected.refusal == 0 {
            self.tally.add("accounts in rebate runs", length as u64);
        }
        Ok(())
    }
}
