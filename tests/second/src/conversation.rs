//! Conversations: the other program has to answer each line before it gets the next one.
//!
//! A script is sent in pieces: line by line, in halves, several lines at once, lines and the
//! half of another. After each piece the program owes just what this desk has answered to
//! all that was sent so far: its answers have to come before anything more is sent, and
//! nothing may come for a line that is still without its line feed. At the end the input is
//! closed after a line without a line feed, which is then answered.

use std::time::Duration;

use crate::desk::{Desk, LINE_LIMIT};
use crate::program::{text, Program, Running};
use crate::random::Random;
use crate::script::script;
use crate::tally::Tally;

/// How long nothing may come where nothing is owed, most of the time and now and then.
const PAUSE: Duration = Duration::from_millis(1);
const LONG_PAUSE: Duration = Duration::from_millis(20);

/// Lines that have no answer.
const SILENT: [&[u8]; 8] = [
    b"",
    b"\r",
    b" ",
    b"     \r",
    b"#",
    b"# open 1",
    b"   #open 33\r",
    b"#\xff\x00\r#",
];

/// Lines that have an answer whatever the book holds.
const ANSWERED: [&[u8]; 28] = [
    b"open 33",
    b"open",
    b"opens 1",
    b"  close   0 \r",
    b"quote 33 0 0 4294967296",
    b"\xff",
    b"benchmark 14 0 0 0\r",
    b"put 0000000000000000000000033",
    b"trial 2023 10 3",
    b"trial 2023 10\r",
    b"undo",
    b" undo  1\r",
    b"ask 33",
    b"ask",
    b"  confirm   0 \r",
    b"confirm 1 x",
    b"direct 33",
    b"direct",
    b"rebate",
    b" rebate  \r",
    b"rebate 1 2 3",
    b"desk 0 rebate",
    b"desk 3 open 33",
    b"  desk   0  undo \r",
    b"desk",
    b"desk 16383\r",
    b"desk 4294967296 undo",
    b"desk 3 # open 1",
];

struct Conversation {
    random: Random,
    running: Running,
    desk: Desk,
    /// The line sent last, whole or begun, and its number.
    line: Vec<u8>,
    number: u64,
    tally: Tally,
}

/// Holds a conversation of about so many calls. `Err` names the line that went wrong.
pub fn converse(program: &Program, seed: u64, calls: usize) -> Result<Tally, String> {
    let mut talk = Conversation {
        random: Random::new(seed),
        running: program.start()?,
        desk: Desk::new(),
        line: Vec::new(),
        number: 0,
        tally: Tally::default(),
    };
    let script = script(seed, calls);
    let mut lines: Vec<Vec<u8>> = Vec::new();
    for line in script.split(|&byte| byte == b'\n') {
        lines.push(line.to_vec());
        if talk.random.one_in(6) {
            lines.push(talk.random.pick(&SILENT).to_vec());
        }
        if talk.random.one_in(40) {
            lines.push(talk.line_at_the_limit());
        }
    }
    let mut rest = &lines[..];
    while !rest.is_empty() {
        let taken = match talk.random.below(20) {
            0..=11 => talk.whole_line(&rest[0])?,
            12..=14 => talk.line_in_pieces(&rest[0], 2)?,
            15..=16 => talk.line_in_pieces(&rest[0], 3)?,
            17..=18 => talk.several_lines(rest)?,
            _ => talk.lines_and_a_half(rest)?,
        };
        rest = &rest[taken..];
    }
    talk.last_line()
}

impl Conversation {
    /// Sends a piece and waits for what is owed after it. True if something was owed.
    fn say(&mut self, piece: &[u8]) -> Result<bool, String> {
        let mut owed = Vec::new();
        // The lines that are owed an answer, by their names.
        let mut lines = Vec::new();
        for part in piece.split_inclusive(|&byte| byte == b'\n') {
            if self.line.is_empty() || self.line.ends_with(b"\n") {
                self.line.clear();
                self.number += 1;
            }
            self.line.extend_from_slice(part);
            let before = owed.len();
            self.desk.feed(part, &mut owed);
            if owed.len() > before {
                lines.push(self.name());
                if self.line.starts_with(b"trial ") {
                    self.tally.one("trials answered in conversation");
                }
                if self.line.starts_with(b"undo\n") {
                    self.tally.one("undos answered in conversation");
                }
                if self.line.starts_with(b"ask ") {
                    self.tally.one("asks answered in conversation");
                }
                if self.line.starts_with(b"confirm ") {
                    self.tally.one("confirms answered in conversation");
                }
                if self.line.starts_with(b"direct ") {
                    self.tally.one("directs answered in conversation");
                }
                if self.line.starts_with(b"rebate") {
                    self.tally.one("rebates answered in conversation");
                }
                if self.line.starts_with(b"desk ") {
                    self.tally.one("lines of desks answered in conversation");
                }
            }
        }
        self.running.send(piece.to_vec());
        if owed.is_empty() {
            self.pause()?;
        } else {
            self.answers(&owed, &lines)?;
            self.silence(Duration::ZERO)?;
        }
        Ok(!owed.is_empty())
    }

    /// What the line sent last is called in a report.
    fn name(&self) -> String {
        let end = if self.line.ends_with(b"\n") {
            ""
        } else {
            " (without its line feed)"
        };
        format!("line {}: {}{end}", self.number, text(&self.line))
    }

    fn answers(&mut self, owed: &[u8], lines: &[String]) -> Result<(), String> {
        self.running.answers(owed).map_err(|difference| {
            format!(
                "{}\n  expected: {}\n  answered: {}",
                lines[difference.after], difference.expected, difference.answered
            )
        })
    }

    fn silence(&mut self, pause: Duration) -> Result<(), String> {
        self.running
            .silence(pause)
            .map_err(|problem| format!("{}\n  {problem}", self.name()))
    }

    /// Waits where nothing is owed.
    fn pause(&mut self) -> Result<(), String> {
        let pause = if self.random.one_in(25) {
            self.tally.one("long waits in which nothing came");
            LONG_PAUSE
        } else {
            PAUSE
        };
        self.silence(pause)
    }

    fn whole_line(&mut self, line: &[u8]) -> Result<usize, String> {
        let answered = self.say(&with_feed(line))?;
        self.tally.one(if answered {
            "lines sent one by one, answered before the next"
        } else {
            "silent lines sent one by one"
        });
        self.count_limit(line);
        Ok(1)
    }

    fn count_limit(&mut self, line: &[u8]) {
        if (LINE_LIMIT - 1..=LINE_LIMIT + 2).contains(&line.len()) {
            self.tally
                .one("lines of 16,383 to 16,386 bytes in conversation");
        }
    }

    /// A line with its feed cut into pieces, one of them perhaps the feed alone.
    fn line_in_pieces(&mut self, line: &[u8], count: usize) -> Result<usize, String> {
        let line_with_feed = with_feed(line);
        let cuts = self.cuts(&line_with_feed, count - 1);
        if cuts.len() + 1 < count {
            return self.whole_line(line);
        }
        let mut start = 0;
        for &cut in &cuts {
            self.say(&line_with_feed[start..cut])?;
            start = cut;
        }
        let answered = self.say(&line_with_feed[start..])?;
        self.tally.one(match (answered, count) {
            (false, _) => "silent lines sent in pieces",
            (true, 2) => "lines sent in two pieces",
            (true, _) => "lines sent in three pieces",
        });
        if start + 1 == line_with_feed.len() {
            self.tally.one("line feeds sent alone");
            if line.ends_with(b"\r") {
                self.tally
                    .one("line feeds sent alone after a carriage return");
            }
        }
        self.count_limit(line);
        Ok(1)
    }

    /// Places to cut a line at, rising; fewer if it is too short.
    fn cuts(&mut self, line: &[u8], count: usize) -> Vec<usize> {
        let mut cuts = Vec::new();
        for _ in 0..4 * count {
            let cut = match self.random.below(4) {
                0 => 1,
                1 => line.len() - 1,
                _ => 1 + self.random.index(line.len()),
            };
            if cuts.len() < count && cut > 0 && cut < line.len() && !cuts.contains(&cut) {
                cuts.push(cut);
            }
        }
        cuts.sort_unstable();
        cuts
    }

    fn several_lines(&mut self, rest: &[Vec<u8>]) -> Result<usize, String> {
        let count = (2 + self.random.index(9)).min(rest.len());
        let together: Vec<u8> = rest[..count]
            .iter()
            .flat_map(|line| with_feed(line))
            .collect();
        if self.say(&together)? {
            self.tally.one("writes of several lines");
            self.tally
                .add("lines sent in writes of several", count as u64);
        }
        Ok(count)
    }

    /// Whole lines and the beginning of another in one write, then its end.
    fn lines_and_a_half(&mut self, rest: &[Vec<u8>]) -> Result<usize, String> {
        let count = (1 + self.random.index(3)).min(rest.len() - 1);
        let Some(last) = rest.get(count).filter(|last| !last.is_empty() && count > 0) else {
            return self.whole_line(&rest[0]);
        };
        let last = with_feed(last);
        let cut = 1 + self.random.index(last.len() - 1);
        let mut together: Vec<u8> = rest[..count]
            .iter()
            .flat_map(|line| with_feed(line))
            .collect();
        together.extend_from_slice(&last[..cut]);
        let answered = self.say(&together)?;
        // Nothing for the beginning, however long it stands there.
        self.pause()?;
        let then = self.say(&last[cut..])?;
        if answered && then {
            self.tally.one("writes of lines and the half of another");
        }
        Ok(count + 1)
    }

    /// A line next to the longest that is taken.
    fn line_at_the_limit(&mut self) -> Vec<u8> {
        let mut line = self
            .random
            .pick(&[
                &b"open 33 "[..],
                b"#",
                b"",
                b"close 1",
                b"trial 1 2 3",
                b"undo",
                b"ask 33",
                b"confirm 33",
                b"direct 33",
                b"rebate",
                b"desk 3 open 33",
                b"desk 0 undo",
                b"desk 16383",
            ])
            .to_vec();
        let length = LINE_LIMIT - 1 + self.random.index(4);
        line.resize(length, b' ');
        if self.random.one_in(2) {
            *line.last_mut().expect("a long line") = b'\r';
        }
        line
    }

    /// A line without a line feed, answered at the end of the input and not before.
    fn last_line(mut self) -> Result<Tally, String> {
        let line = match self.random.below(6) {
            0 => self.random.pick(&SILENT).to_vec(),
            1 => self.line_at_the_limit(),
            _ => self.random.pick(&ANSWERED).to_vec(),
        };
        if !line.is_empty() {
            self.say(&line)?;
        }
        let mut owed = Vec::new();
        self.desk.finish(&mut owed);
        self.running.close();
        if !owed.is_empty() {
            self.answers(&owed, &[self.name()])?;
        }
        self.tally.one(if owed.is_empty() {
            "silent last lines"
        } else {
            "last lines without a line feed, answered at the end"
        });
        self.tally.one("conversations");
        self.running.end()?;
        Ok(self.tally)
    }
}

fn with_feed(line: &[u8]) -> Vec<u8> {
    let mut line = line.to_vec();
    line.push(b'\n');
    line
}
