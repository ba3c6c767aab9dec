//! A fuzz of bytes, most of it around 16,384 bytes, the longest line that is taken, and around
//! 65,536 bytes, where buffers end.
//!
//! Each case is one input: lines next to the longest, lines whose ends fall on, just before
//! and just after such offsets, inputs that end there, bytes of all values, spoilt scripts,
//! very many lines. It reaches the program from a file, in one write or in pieces, and the
//! whole output has to be that of this desk.

use std::fs::File;

use crate::desk::{Desk, ACCOUNT, LINE_LIMIT};
use crate::program::Program;
use crate::random::Random;
use crate::script::{reference_fields, script};
use crate::tally::Tally;

/// Where buffers end, besides the longest line.
const BUFFER: usize = 65_536;

/// How far from such an offset a line's end is put.
const OFF: [i64; 7] = [-3, -2, -1, 0, 1, 2, 3];

/// What a line next to the longest can be made of.
const LONG_LINES: [&str; 9] = [
    "a comment",
    "blank",
    "a call, then spaces",
    "spaces, then a call",
    "a call with spaces between",
    "a call with zeros",
    "many numbers",
    "any bytes",
    "a rebate run",
];

/// The months of the period, and so of an account, in long rebate runs.
const RUN_MONTHS: u32 = 9;

/// Makes inputs from a seed.
pub struct Fuzz {
    seed: u64,
    /// Lines of a random script.
    lines: Vec<Vec<u8>>,
}

struct Case<'a> {
    random: Random,
    lines: &'a [Vec<u8>],
    input: Vec<u8>,
    sort: &'static str,
    tally: &'a mut Tally,
}

impl Fuzz {
    pub fn new(seed: u64) -> Fuzz {
        let script = script(seed, 3_000);
        let lines = script.split(|&byte| byte == b'\n');
        Fuzz {
            seed,
            lines: lines
                .filter(|line| line.len() < 1_200)
                .map(<[u8]>::to_vec)
                .collect(),
        }
    }

    /// The input of a case.
    pub fn input(&self, number: u64) -> Vec<u8> {
        self.case(number, &mut Tally::default()).input
    }

    fn case<'a>(&'a self, number: u64, tally: &'a mut Tally) -> Case<'a> {
        let mut case = Case {
            random: Random::new(self.seed.wrapping_mul(1_000_003).wrapping_add(number)),
            lines: &self.lines,
            input: Vec::new(),
            sort: "",
            tally,
        };
        case.sort = case.make();
        case
    }

    /// Runs one case. `Err` tells the difference, and how to have the input.
    pub fn run(&self, program: &Program, number: u64, tally: &mut Tally) -> Result<(), String> {
        let Case {
            mut random,
            input,
            sort,
            ..
        } = self.case(number, tally);
        let mut desk = Desk::new();
        let mut expected = Vec::new();
        desk.feed(&input, &mut expected);
        desk.finish(&mut expected);
        let some_line = |test: fn(&[u8]) -> bool| input.split(|&byte| byte == b'\n').any(test);
        let trial = some_line(|line| line.starts_with(b"trial "));
        let undo = some_line(|line| line == b"undo");
        let ask = some_line(|line| line.starts_with(b"ask "));
        let confirm = some_line(|line| line.starts_with(b"confirm "));
        let direct = some_line(|line| line.starts_with(b"direct "));
        let rebate = some_line(|line| line.starts_with(b"rebate "));
        let desk = some_line(|line| line.starts_with(b"desk "));

        let ways = ["from a file", "in one write", "in pieces"];
        let way = random.index(ways.len());
        let mut running = match way {
            0 => program.start_on_file(self.file(number, &input)?)?,
            1 => {
                let mut running = program.start()?;
                running.send(input);
                running
            }
            _ => {
                let mut running = program.start()?;
                for piece in pieces(&mut random, &input) {
                    running.send(piece.to_vec());
                }
                running
            }
        };
        running.close();
        let outcome = running
            .answers(&expected)
            .map_err(|difference| {
                format!(
                    "answer {}\n  expected: {}\n  answered: {}",
                    difference.after + 1,
                    difference.expected,
                    difference.answered
                )
            })
            .and_then(|()| running.end());
        outcome.map_err(|problem| {
            format!(
                "fuzz case {number} ({sort}, {}), {problem}\n  its input: generate --fuzz {} {number}",
                ways[way], self.seed
            )
        })?;
        tally.one("fuzz: cases");
        if trial {
            tally.one("fuzz: inputs with a trial");
        }
        if undo {
            tally.one("fuzz: inputs with an undo");
        }
        if ask {
            tally.one("fuzz: inputs with an ask");
        }
        if confirm {
            tally.one("fuzz: inputs with a confirm");
        }
        if direct {
            tally.one("fuzz: inputs with a direct");
        }
        if rebate {
            tally.one("fuzz: inputs with a rebate");
        }
        if desk {
            tally.one("fuzz: inputs with a desk");
        }
        tally.one(&format!("fuzz: {sort}"));
        tally.one(&format!("fuzz: inputs read {}", ways[way]));
        Ok(())
    }

    /// A file that holds the input, and is gone when it is closed.
    fn file(&self, number: u64, input: &[u8]) -> Result<File, String> {
        let name = format!("second-fuzz-{}-{}-{number}", std::process::id(), self.seed);
        let path = std::env::temp_dir().join(name);
        std::fs::write(&path, input)
            .and_then(|()| File::open(&path))
            .and_then(|file| std::fs::remove_file(&path).map(|()| file))
            .map_err(|error| format!("{}: {error}", path.display()))
    }
}

/// Cuts an input into pieces, some at the offsets of interest.
fn pieces<'a>(random: &mut Random, input: &'a [u8]) -> Vec<&'a [u8]> {
    let mut pieces = Vec::new();
    let mut rest = input;
    while !rest.is_empty() {
        let size = match random.below(6) {
            // No end of small pieces.
            _ if pieces.len() > 300 => BUFFER,
            0 => 1,
            1 => 1 + random.index(100),
            2 => LINE_LIMIT - 1 + random.index(3),
            3 => BUFFER - 1 + random.index(3),
            _ => 1 + random.index(20_000),
        };
        let (piece, after) = rest.split_at(size.min(rest.len()));
        pieces.push(piece);
        rest = after;
    }
    pieces
}

impl Case<'_> {
    /// Makes the input; the answer is its sort.
    fn make(&mut self) -> &'static str {
        match self.random.below(64) {
            0..=15 => self.long_lines(),
            16..=35 => self.ends_at_edges(),
            36..=45 => self.ends_of_input(),
            46..=53 => self.any_bytes(),
            54..=61 => self.spoilt_script(),
            _ => self.many_lines(),
        }
    }

    fn put_line(&mut self, line: &[u8]) {
        self.input.extend_from_slice(line);
        self.input.push(b'\n');
    }

    fn some_lines(&mut self, most: usize) {
        for _ in 0..self.random.index(most + 1) {
            let line = self.random.index(self.lines.len());
            let lines = self.lines;
            self.put_line(&lines[line]);
        }
    }

    /// Lines up to just this length of the input.
    fn pad_to(&mut self, length: usize) {
        while self.input.len() + 1_300 < length {
            if self.random.one_in(30) && self.input.len() + LINE_LIMIT + 10 < length {
                let line = self.long_line();
                self.put_line(&line);
            } else {
                self.some_lines(1);
            }
        }
        let left = length.saturating_sub(self.input.len());
        if left > 0 {
            let byte = self.random.pick(b"# #");
            let mut line = vec![byte; left - 1];
            if byte == b' ' && left > 10 {
                line[..6].copy_from_slice(b"open 0");
            }
            self.put_line(&line);
        }
    }

    /// Something that tells the number of its line.
    fn tell_line(&mut self) {
        self.put_line(b"open");
    }

    /// A line of 16,383 to 16,386 bytes, or further from the longest.
    fn long_line(&mut self) -> Vec<u8> {
        let length = match self.random.below(10) {
            0 => self
                .random
                .pick(&[LINE_LIMIT - 2, 2 * LINE_LIMIT, 2 * LINE_LIMIT + 1]),
            1 => BUFFER - 1 + self.random.index(3),
            _ => LINE_LIMIT - 1 + self.random.index(4),
        };
        let kind = self.random.index(LONG_LINES.len());
        let mut line = self.line_of(kind, length);
        let ended = self.random.one_in(3);
        if ended {
            line[length - 1] = b'\r';
        }
        if (LINE_LIMIT - 1..=LINE_LIMIT + 2).contains(&length) {
            let end = if ended {
                ", with a carriage return"
            } else {
                ""
            };
            self.tally
                .one(&format!("fuzz: lines of {length} bytes{end}"));
            self.tally
                .one(&format!("fuzz: long lines, {}", LONG_LINES[kind]));
        }
        line
    }

    fn line_of(&mut self, kind: usize, length: usize) -> Vec<u8> {
        let calls: [&[u8]; 18] = [
            b"desk 3 open 33",
            b"desk 0 rebate 1 0 1 3 0 0 0 0 0 0 0 0 0 0 0 0",
            b"rebate 1 0 1 3 0 0 0 0 0 0 0 0 0 0 0 0",
            b"rebate 1 0",
            b"direct 33",
            b"desk 0 undo",
            b"desk 16383 benchmark 13 1 1 1",
            b"desk 4294967295 confirm x",
            b"desk 3",
            b"open 33",
            b"ask 33",
            b"confirm 1",
            b"close 1",
            b"benchmark 13 1 1 1",
            b"quote 1 0 1 100 100 100",
            b"put 2 1 1 0 16383 3 0 0 0 0 0 0 0 0 0 0 0 0 0 0 0 0 0 0 0 0 0 0",
            b"maximum 0 0 0 120000",
            b"trial 2023 10 3",
        ];
        let call = self.random.pick(&calls);
        let mut line = Vec::new();
        match kind {
            0 => line.push(b'#'),
            1 => {}
            2 => line.extend_from_slice(call),
            3 => {
                line.resize(length - call.len(), b' ');
                line.extend_from_slice(call);
            }
            4 | 5 => {
                let space = call.iter().position(|&byte| byte == b' ');
                let (word, numbers) = call.split_at(space.expect("a call with a number") + 1);
                line.extend_from_slice(word);
                let filling = if kind == 4 { b' ' } else { b'0' };
                line.resize(length - numbers.len(), filling);
                line.extend_from_slice(numbers);
            }
            6 => {
                let calls: [&[u8]; 11] = [
                    b"rebate",
                    b"desk 3 rebate",
                    b"set",
                    b"put",
                    b"quote",
                    b"trial",
                    b"undo",
                    b"ask",
                    b"desk",
                    b"desk 16383 set",
                    b"desk 3 put",
                ];
                line.extend_from_slice(self.random.pick(&calls));
                while line.len() + 11 < length {
                    line.push(b' ');
                    let number = self.random.any_size(u32::MAX);
                    line.extend_from_slice(number.to_string().as_bytes());
                }
            }
            7 => {
                while line.len() < length {
                    line.push(match self.random.bits() as u8 {
                        b'\n' => b'#',
                        byte => byte,
                    });
                }
            }
            _ => self.run_of(length, &mut line),
        }
        line.resize(length, b' ');
        line
    }

    /// As many accounts as a line of this length holds, of one digit a number, and now and then one
    /// that is too much, or a number.
    fn run_of(&mut self, length: usize, line: &mut Vec<u8>) {
        let desk: &[u8] = self.random.pick(&[b"", b"", b"desk 16383 ", b"desk 1 "]);
        line.extend_from_slice(desk);
        line.extend_from_slice(b"rebate");
        let account = |random: &mut Random| {
            let mut numbers = [0; ACCOUNT];
            numbers[..4].copy_from_slice(&[1, 0, 1, RUN_MONTHS]);
            for kwh in &mut numbers[4..] {
                *kwh = random.between(0, 9);
            }
            numbers
        };
        let mut accounts = 0;
        while line.len() + 2 * ACCOUNT <= length {
            for number in account(&mut self.random) {
                line.extend_from_slice(format!(" {number}").as_bytes());
            }
            accounts += 1;
        }
        // Zeros before the first number take up the rest, or spaces, or one number more.
        let rest = length - line.len();
        match self.random.below(3) {
            0 => {}
            1 => {
                let first = desk.len() + b"rebate ".len();
                line.splice(first..first, vec![b'0'; rest]);
            }
            _ if rest > 1 => line.extend_from_slice(b" 1"),
            _ => {}
        }
        if accounts == 511 {
            self.tally.one("fuzz: rebate runs of 511 accounts");
        }
    }

    /// Lines next to the longest, with calls between them.
    fn long_lines(&mut self) -> &'static str {
        if self.random.one_in(2) {
            self.book_for_a_run();
        }
        for _ in 0..1 + self.random.index(5) {
            self.some_lines(10);
            let line = self.long_line();
            self.put_line(&line);
            self.tell_line();
        }
        if self.random.one_in(3) {
            let line = self.long_line();
            self.input.extend(line);
        } else {
            self.some_lines(10);
        }
        "inputs with long lines"
    }

    /// A book in which the long rebate runs are accepted, with rebates of up to nine digits.
    fn book_for_a_run(&mut self) {
        let mut set = format!("set 2023 10 {RUN_MONTHS}");
        for number in reference_fields() {
            set.push_str(&format!(" {number}"));
        }
        self.put_line(set.as_bytes());
        let standing = self.random.pick(&[20_000, 23_960, 1_000_000]);
        let zeros = " 0".repeat(14);
        let put = format!("put 1 1 2 {standing} 1 3 20000 15000 0 0 1 0 0 0{zeros}");
        self.put_line(put.as_bytes());
        self.put_line(b"direct 1");
        self.put_line(b"open 1");
    }

    /// An offset of interest after this length.
    fn edge(&mut self, length: usize) -> usize {
        let (size, most) = self.random.pick(&[(LINE_LIMIT, 3), (BUFFER, 2)]);
        size * (length / size + 1 + self.random.index(most))
    }

    /// Lines that end on, just before and just after an offset, or are cut by it.
    fn ends_at_edges(&mut self) -> &'static str {
        for _ in 0..3 {
            let mut line = match self.random.below(6) {
                0 => self.long_line(),
                1 => b"open 33".to_vec(),
                2 => b"# passed over".to_vec(),
                3 => b"".to_vec(),
                _ => self.lines[self.random.index(self.lines.len())].clone(),
            };
            if self.random.one_in(3) {
                line.push(b'\r');
            }
            let edge = self.edge(self.input.len() + line.len() + 20);
            let off = self.random.pick(&OFF);
            let cut = self.random.one_in(4);
            let start = if cut {
                edge as i64 - self.random.index(line.len() + 1) as i64
            } else {
                edge as i64 + off - (line.len() as i64 + 1)
            };
            self.pad_to(start as usize);
            self.put_line(&line);
            if !cut {
                let size = if edge.is_multiple_of(BUFFER) {
                    "65,536"
                } else {
                    "16,384"
                };
                let what = format!("fuzz: line ends at a multiple of {size} {off:+}");
                self.tally.one(&what);
            }
            match self.input.get(edge - 1..=edge) {
                Some([b'0'..=b'9', b'0'..=b'9']) => {
                    self.tally.one("fuzz: numbers cut at such an offset")
                }
                Some(b"\r\n") => self
                    .tally
                    .one("fuzz: a carriage return and its line feed cut at such an offset"),
                _ => {}
            }
            self.tell_line();
        }
        self.some_lines(20);
        self.tell_line();
        "inputs with lines that end at an offset"
    }

    /// Inputs whose length is next to an offset, their last line with and without its feed.
    fn ends_of_input(&mut self) -> &'static str {
        let edge = self.edge(0);
        let off = self.random.pick(&OFF);
        let length = (edge as i64 + off) as usize;
        let mut line = match self.random.below(5) {
            0 => self.long_line(),
            1 => b"#".to_vec(),
            2 => b"open 33 ".to_vec(),
            _ => self.lines[self.random.index(self.lines.len())].clone(),
        };
        line.truncate(length);
        if self.random.one_in(3) && !line.is_empty() {
            *line.last_mut().expect("a byte") = b'\r';
        }
        if self.random.one_in(2) && line.len() < length {
            line.push(b'\n');
        }
        self.pad_to(length - line.len());
        self.input.extend_from_slice(&line);
        self.tally.one(if self.input.ends_with(b"\n") {
            "fuzz: inputs that end at an offset with a feed"
        } else {
            "fuzz: inputs that end at an offset without a feed"
        });
        self.tally
            .one(&format!("fuzz: inputs that end at an offset {off:+}"));
        "inputs of such a length"
    }

    /// Bytes of all values, with calls between them.
    fn any_bytes(&mut self) -> &'static str {
        let length = match self.random.below(3) {
            0 => self.random.index(3_000),
            1 => LINE_LIMIT - 2 + self.random.index(LINE_LIMIT),
            _ => self.random.index(3 * BUFFER),
        };
        // How often a byte is a line feed by intent.
        let feeds = self.random.pick(&[5, 60, 3_000, 60_000]);
        let values = self
            .random
            .pick(&[&b"open 1\r# 0"[..], b"desk 30 undo", b"", b""]);
        let mut seen = [false; 256];
        while self.input.len() < length {
            let byte = if self.random.one_in(feeds) {
                b'\n'
            } else if values.is_empty() {
                self.random.bits() as u8
            } else {
                self.random.pick(values)
            };
            seen[usize::from(byte)] = true;
            self.input.push(byte);
            if byte == b'\n' && self.random.one_in(2) {
                self.some_lines(3);
            }
        }
        if seen == [true; 256] {
            self.tally.one("fuzz: inputs with all 256 bytes");
        }
        "inputs of any bytes"
    }

    /// A script with bytes changed, taken out and put in.
    fn spoilt_script(&mut self) -> &'static str {
        let lines = 20 + self.random.index(600);
        for _ in 0..lines {
            self.some_lines(1);
        }
        for _ in 0..1 + self.random.index(60) {
            if self.input.is_empty() {
                break;
            }
            let place = self.random.index(self.input.len());
            match self.random.below(4) {
                0 => drop(self.input.remove(place)),
                1 => self
                    .input
                    .insert(place, self.random.pick(b"\n\r #0\x00\t9")),
                2 => self.input[place] = self.random.bits() as u8,
                _ => self.input[place] = self.random.pick(b"\n\r #0123456789"),
            }
        }
        if self.random.one_in(2) {
            let length = self.random.index(self.input.len() + 1);
            self.input.truncate(length);
        }
        "inputs of spoilt scripts"
    }

    /// Very many lines, so that their numbers are large.
    fn many_lines(&mut self) -> &'static str {
        let count = match self.random.below(4) {
            0 => LINE_LIMIT - 2 + self.random.index(4),
            1 => BUFFER - 2 + self.random.index(4),
            2 => 99_998 + self.random.index(4),
            _ => 999_998 + self.random.index(4),
        };
        let line = self.random.pick(&[&b"\n"[..], b"#\n", b"\r\n"]);
        self.input = line.repeat(count);
        self.tell_line();
        self.tell_line();
        self.some_lines(10);
        "inputs of very many lines"
    }
}
