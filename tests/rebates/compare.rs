//! The program rebates beside the second implementation, on random books and files of accounts.
//!
//!     compare PROGRAM DESK GENERATE FOLDER
//!
//! DESK and GENERATE are commands of tests/second; FOLDER is for the files. Each case is a script and a CSV file, both made here from a
//! fixed seed. The desk is asked what the calls of the script are answered and what the accounts are owed, in as many lines as they take,
//! and from that and the rules of programs/README.md follows all that the program has to write: every byte on standard output, the
//! status, and the message up to where the words of a refusal begin. The files are spoilt in many cases; a reader of its own tells
//! here which line is wrong.

use std::collections::BTreeMap;
use std::fs::{self, File};
use std::path::{Path, PathBuf};
use std::process::{exit, Command, Stdio};

const CASES: u64 = 700;
const SCRIPTS: u64 = 200;
const LONGEST_LINE: usize = 16384;
const REFERENCE: &str = "0 30000000 0 36000000 0 1000000 0 1000000 1000000 8000000 1000000 8000000 5000000 9000000 5000000 9000000 \
    10000 10000 20000 0 400000 0 1000 100 100 100 100 100 100 1100 100 105 100 100 100 100 500000";

/// Numbers by splitmix64.
struct Random(u64);

impl Random {
    fn next(&mut self) -> u64 {
        self.0 = self.0.wrapping_add(0x9e37_79b9_7f4a_7c15);
        let mut z = self.0;
        z = (z ^ (z >> 30)).wrapping_mul(0xbf58_476d_1ce4_e5b9);
        z = (z ^ (z >> 27)).wrapping_mul(0x94d0_49bb_1331_11eb);
        z ^ (z >> 31)
    }
    /// From low to high, both among them.
    fn from(&mut self, low: u64, high: u64) -> u64 {
        low + self.next() % (high - low + 1)
    }
    fn percent(&mut self, chance: u64) -> bool {
        self.next() % 100 < chance
    }
    fn one<'a, T>(&mut self, list: &'a [T]) -> &'a T {
        &list[self.next() as usize % list.len()]
    }
}

/// A tariff that the script puts under a direction and opens.
struct Tariff {
    code: u64,
    regions: u64,
    methods: u64,
    steps: Vec<u64>,
}

struct Book {
    lines: Vec<String>,
    t: u64,
    tariffs: Vec<Tariff>,
}

fn sheet(r: &mut Random, t: u64) -> String {
    let mut fields: Vec<u64> = REFERENCE.split(' ').map(|f| f.parse().unwrap()).collect();
    for _ in 0..14 {
        for level in [2_000_000, 12_000_000, 2_000_000, 12_000_000] {
            fields.push(level + if r.percent(50) { r.from(0, 900_000) } else { 0 });
        }
    }
    fields.extend([r.from(2000, 5000), r.from(3000, 6000), r.from(0, 1000)]);
    fields[29] = r.from(900, 1400);
    fields[36] = if r.percent(30) { (1 << 32) - r.from(1, 400_000) } else { r.from(0, 900_000) };
    if r.percent(3) {
        let wrong = r.from(0, 95) as usize;
        fields[wrong] = 3_000_000_000; // refused: 2
    }
    let fields: Vec<String> = fields.iter().map(u64::to_string).collect();
    format!("set {} {} {} {}", r.from(2018, 2099), r.from(1, 12), t, fields.join(" "))
}

fn put(r: &mut Random, code: u64) -> (String, Tariff) {
    let kind = r.from(1, 3);
    let n = match kind {
        1 => r.from(1, 4),
        2 => 2,
        _ => r.from(2, 4),
    };
    let regions = if r.percent(60) { 16383 } else { r.from(1, 16383) };
    let methods = if r.percent(70) { 3 } else { r.from(1, 3) };
    let standing = r.from(0, 60_000);
    let mut record = vec![kind, n, standing, regions, methods];
    for i in 0..4 {
        record.push(if i < n { r.from(5_000, 40_000) } else { 0 });
    }
    let mut steps: Vec<u64> = match kind {
        1 => {
            let mut steps = Vec::new();
            let mut last = 0;
            for _ in 1..n {
                last += r.from(1, 600);
                steps.push(last);
            }
            steps
        }
        2 => vec![],
        _ => {
            let mut shares: Vec<u64> = (1..n).map(|_| r.from(0, 1000 / (n - 1))).collect();
            shares.push(1000 - shares.iter().sum::<u64>());
            shares
        }
    };
    let tiers = if kind == 1 { steps.clone() } else { vec![] };
    steps.resize(4, 0);
    record.extend(steps);
    for region in 0..14 {
        record.push(if regions >> region & 1 == 1 && r.percent(30) { r.from(0, 5_000) } else { 0 });
    }
    if r.percent(2) {
        record.pop(); // refused: 8
    }
    let record: Vec<String> = record.iter().map(u64::to_string).collect();
    (format!("put {} {}", code, record.join(" ")), Tariff { code, regions, methods, steps: tiers })
}

fn book(r: &mut Random) -> Book {
    let t = r.from(1, 12);
    let mut b = Book { lines: vec![], t, tariffs: vec![] };
    let sheet_first = r.percent(70);
    if sheet_first {
        b.lines.push(sheet(r, t));
    }
    let mut codes: Vec<u64> = (1..=32).collect();
    for _ in 0..r.from(1, 8) {
        let code = codes.swap_remove(r.next() as usize % codes.len());
        let (line, tariff) = put(r, code);
        b.lines.push(line);
        let directed = r.percent(85);
        if directed {
            b.lines.push(format!("direct {code}"));
        }
        if directed || r.percent(50) {
            b.tariffs.push(tariff);
        }
    }
    if !sheet_first && !r.percent(5) {
        b.lines.push(sheet(r, t));
    }
    for i in 0..b.tariffs.len() {
        let code = b.tariffs[i].code;
        if r.percent(70) {
            b.lines.push(format!("open {code}"));
        } else if r.percent(90) {
            b.lines.push(format!("ask {code}"));
            b.lines.push(format!("confirm {code}"));
        }
        match r.from(0, 19) {
            0 => b.lines.push(format!("close {code}")),
            1 => b.lines.push(format!("quote {code} 0 1 1 2 3")),
            2 => b.lines.push(format!("rebate {code} 0 1 3 {}", vec!["1"; 12].join(" "))),
            3 => b.lines.push("maximum 0 0 99 0".into()),
            4 => b.lines.push("# a comment".into()),
            5 => b.lines.push(String::new()),
            _ => {}
        }
    }
    match r.from(0, 9) {
        0 => {
            let other = r.from(1, 12);
            b.lines.push(sheet(r, other));
            b.lines.push("undo".into());
        }
        1 => b.lines.push(sheet(r, t)), // nothing under a direction falls
        2 => b.lines.push(sheet(r, t).replacen("set", "trial", 1)),
        _ => {}
    }
    if r.percent(4) {
        let at = r.next() as usize % (b.lines.len() + 1);
        b.lines.insert(at, r.one(&["opne 1", "open", "desk 1", "put x", "open 4294967296", "drop 33", "desk 1 undo"]).to_string());
    }
    for line in &mut b.lines {
        if !line.is_empty() && !line.starts_with('#') && r.percent(10) {
            *line = format!("desk 16383  {line} ");
        }
    }
    b
}

fn month(r: &mut Random, tariff: Option<&Tariff>) -> u64 {
    match r.from(0, 9) {
        0 => 0,
        1 => 10_000,
        2 => r.from(0, 10),
        3 | 4 => match tariff {
            Some(tariff) if !tariff.steps.is_empty() => (r.one(&tariff.steps) + r.from(0, 2)).saturating_sub(1).min(10_000),
            _ => r.from(0, 10_000),
        },
        5 | 6 => r.from(0, 10_000),
        _ => r.from(0, 500),
    }
}

fn bits(r: &mut Random, set: u64, most: u64) -> u64 {
    let set: Vec<u64> = (0..most).filter(|bit| set >> bit & 1 == 1).collect();
    *r.one(&set)
}

/// A CSV file with accounts of these tariffs.
fn accounts(r: &mut Random, b: &Book) -> Vec<u8> {
    let count = match r.from(0, 19) {
        0 => 0,
        1 => r.from(500, 2500),
        _ => r.from(1, 40),
    };
    let columns = r.from(b.t, 12) as usize;
    let end = if r.percent(30) { "\r\n" } else { "\n" };
    let quotes = *r.one(&[0, 5, 50, 100]);
    let faults = r.percent(35);
    let mut file = String::new();
    if r.percent(10) {
        file.push('\u{feff}');
    }
    file += *r.one(&["account,code,region,method", "Account,Code,Region,Method", "\"account\",\"code\",\"REGION\",method"]);
    for m in 1..=columns {
        file += &if r.percent(20) { format!(",\"month, {m}\"") } else { format!(",month {m}") };
    }
    for place in 0..count {
        file += end;
        file += match r.from(0, 11) {
            0 => "\"Smith, J.\"",
            1 => "\"the \"\"old\"\" mill\"",
            2 => "\"two\nlines\"",
            3 => "\"\r\n\"",
            4 => "",
            5 => "Llŷn 7",
            6 => "\"\"",
            _ => "A",
        };
        if file.ends_with('A') {
            file += &place.to_string();
        }
        let tariff = if b.tariffs.is_empty() || r.percent(2) && faults { None } else { Some(r.one(&b.tariffs)) };
        let mut numbers = match tariff {
            Some(tariff) => vec![tariff.code, bits(r, tariff.regions, 14), bits(r, tariff.methods, 2)],
            None => vec![r.from(1, 32), r.from(0, 13), r.from(0, 1)],
        };
        numbers.extend((0..b.t).map(|_| month(r, tariff)));
        if faults && r.percent(1 + 60 / (count + 1)) {
            let at = r.next() as usize % numbers.len();
            match r.from(0, 4) {
                0 if b.t > 1 => drop(numbers.pop()),
                1 if numbers.len() < columns + 3 => numbers.push(0),
                2 => numbers[0] = *r.one(&[0, 33, 4_294_967_295]),
                3 => numbers[at] = *r.one(&[10_001, 14, 2, 4_294_967_295]),
                _ => numbers[1] = r.from(0, 13),
            }
        }
        for i in 0..columns + 3 {
            let number = numbers.get(i).map_or(String::new(), u64::to_string);
            let zeros = if r.percent(2) && !number.is_empty() { "00" } else { "" };
            file += &if r.percent(quotes) { format!(",\"{zeros}{number}\"") } else { format!(",{zeros}{number}") };
        }
    }
    file += match r.from(0, 19) {
        0 => "\r",
        1..=4 => "",
        _ => end,
    };
    let mut file = file.into_bytes();
    if r.percent(30) {
        for _ in 0..r.from(1, 3) {
            let at = r.next() as usize % file.len();
            let byte = *r.one(b"\"\",,\n\r0139aA -.\0");
            match r.from(0, 9) {
                0..=3 => file.insert(at, byte),
                4..=6 => file[at] = byte,
                7 | 8 => drop(file.remove(at)),
                _ => file.truncate(at.max(1)),
            }
        }
    }
    file
}

/// An account as it was read: where its line begins and where its last cell ends, and the numbers of a rebate.
struct Row {
    line: usize,
    end: usize,
    numbers: [u32; 15],
    months: usize,
}

struct Cell {
    line: usize,
    text: Vec<u8>,
}

fn number(text: &[u8]) -> Option<u32> {
    if text.is_empty() || !text.iter().all(u8::is_ascii_digit) {
        return None;
    }
    let text = std::str::from_utf8(text).unwrap().trim_start_matches('0');
    if text.is_empty() { Some(0) } else { text.parse().ok() }
}

/// The end of the header and the accounts, or the line that is wrong.
fn read_csv(file: &[u8]) -> Result<(usize, Vec<Row>), usize> {
    let mut at = if file.starts_with(b"\xEF\xBB\xBF") { 3 } else { 0 };
    if at == file.len() {
        return Err(1);
    }
    let (mut line, mut header, mut rows, mut columns) = (1, None, Vec::new(), 0);
    while at < file.len() {
        let begin = line;
        let mut cells = Vec::new();
        let mut cell = Cell { line, text: vec![] };
        let (mut inside, mut closed, mut first) = (None, false, true);
        // one byte after the other; None is the end of the file
        let end = loop {
            let byte = file.get(at).copied();
            let line_end = match byte {
                None => Some(0),
                Some(b'\n') => Some(1),
                Some(b'\r') if file.get(at + 1) == Some(&b'\n') => Some(2),
                Some(b'\r') if at + 1 == file.len() => Some(1),
                _ => None,
            };
            if let Some(opened) = inside {
                match byte {
                    None => return Err(opened),
                    Some(b'"') if file.get(at + 1) == Some(&b'"') => {
                        cell.text.push(b'"');
                        at += 1;
                    }
                    Some(b'"') => {
                        inside = None;
                        closed = true;
                    }
                    Some(byte) => {
                        cell.text.push(byte);
                        line += usize::from(byte == b'\n');
                    }
                }
            } else if line_end.is_some() || byte == Some(b',') {
                cells.push(std::mem::replace(&mut cell, Cell { line, text: vec![] }));
                (closed, first) = (false, true);
                if let Some(bytes) = line_end {
                    let end = at;
                    line += usize::from(bytes > 0 && file[at + bytes - 1] == b'\n');
                    at += bytes;
                    break end;
                }
                at += 1;
                continue;
            } else if closed {
                return Err(line);
            } else if byte == Some(b'"') && first {
                inside = Some(line);
            } else if byte == Some(b'"') {
                return Err(line);
            } else {
                cell.text.push(byte.unwrap());
            }
            first = false;
            at += 1;
        };
        if header.is_none() {
            columns = cells.len();
            if !(5..=16).contains(&columns) {
                return Err(1);
            }
            for (cell, name) in cells.iter().zip(["account", "code", "region", "method"]) {
                if !cell.text.eq_ignore_ascii_case(name.as_bytes()) {
                    return Err(cell.line);
                }
            }
            header = Some(end);
            continue;
        }
        if cells.len() != columns {
            return Err(begin);
        }
        let months = cells[4..].iter().rposition(|cell| !cell.text.is_empty()).map_or(0, |last| last + 1);
        let mut numbers = [0; 15];
        for (i, cell) in cells[1..4 + months].iter().enumerate() {
            numbers[i] = number(&cell.text).ok_or(cell.line)?;
        }
        rows.push(Row { line: begin, end, numbers, months });
    }
    Ok((header.unwrap(), rows))
}

fn plural(count: usize) -> &'static str {
    if count == 1 { "" } else { "s" }
}

struct Tools {
    program: PathBuf,
    desk: PathBuf,
    folder: PathBuf,
    counts: BTreeMap<String, u64>,
    case: String,
}

impl Tools {
    fn fail(&self, what: &str) -> ! {
        eprintln!("compare: {}: {what}; the files are in {}", self.case, self.folder.display());
        exit(1)
    }

    fn count(&mut self, what: &str) {
        *self.counts.entry(what.to_string()).or_default() += 1;
    }

    fn file(&self, name: &str) -> PathBuf {
        self.folder.join(name)
    }

    /// The desk's answers to a script.
    fn ask(&self, script: &[u8]) -> Vec<String> {
        fs::write(self.file("calls.txt"), script).unwrap();
        let input = File::open(self.file("calls.txt")).unwrap();
        let output = Command::new(&self.desk).stdin(Stdio::from(input)).output().unwrap();
        String::from_utf8(output.stdout).unwrap().lines().map(str::to_string).collect()
    }

    /// What the program has to say, where it ends with 1, or else what comes out; and the messages, or how the last one begins.
    fn expected(&mut self, script: &[u8], csv: &[u8], allow: bool) -> Result<(Vec<u8>, String), String> {
        let answers = self.ask(script);
        let mut answer = answers.iter();
        let (book, sheet) = (self.file("book.txt"), self.file("accounts.csv"));
        let (book, sheet) = (book.display(), sheet.display());
        let (mut refused, mut first) = (0, 0);
        for (i, line) in script.split(|&byte| byte == b'\n').enumerate() {
            let words = line.strip_suffix(b"\r").unwrap_or(line).split(|&byte| byte == b' ');
            let words: Vec<&[u8]> = words.filter(|word| !word.is_empty()).collect();
            if line.len() <= LONGEST_LINE && words.first().map_or(true, |word| word[0] == b'#') {
                continue;
            }
            let answer = answer.next().unwrap_or_else(|| self.fail("the desk has too few answers"));
            if let Some(error) = answer.strip_prefix(&format!("error line {}: ", i + 1)) {
                self.count("scripts with a line that is no call");
                return Err(format!("rebates: {book}:{}: {error}\n", i + 1));
            }
            let call = if words[0] == b"desk" { words[2] } else { words[0] };
            let question = [&b"trial"[..], b"benchmark", b"maximum", b"quote", b"rebate"].contains(&call);
            if let (Some(number), false) = (answer.strip_prefix("refused "), question) {
                if !allow {
                    self.count("scripts with a refused call");
                    return Err(format!("rebates: {book}:{}: refused {}: ", i + 1, number.split(' ').next().unwrap()));
                }
                refused += 1;
                first = if refused == 1 { i + 1 } else { first };
            }
        }
        let mut said = String::new();
        if refused > 0 {
            self.count("scripts with refused calls passed over");
            said = format!("rebates: {book}: {refused} refused call{} passed over, the first in line {first}\n", plural(refused));
        }
        let (header, rows) = match read_csv(csv) {
            Ok(read) => read,
            Err(line) => {
                self.count("files with a wrong line");
                return Err(format!("{said}rebates: {sheet}:{line}: "));
            }
        };
        // the accounts as lines for the desk, as many as fit into each
        let mut calls = script.to_vec();
        calls.push(b'\n');
        let mut begins = vec![0];
        let mut line = String::from("rebate");
        for (place, row) in rows.iter().enumerate() {
            let mut numbers = row.numbers[..3].to_vec();
            numbers.push(row.months as u32);
            numbers.extend(&row.numbers[3..]);
            let account: String = numbers.iter().map(|n| format!(" {n}")).collect();
            if line.len() + account.len() > LONGEST_LINE {
                calls.extend(format!("{line}\n").bytes());
                begins.push(place);
                line = "rebate".into();
            }
            line += &account;
        }
        calls.extend(format!("{line}\n").bytes());
        let all = self.ask(&calls);
        let runs = &all[all.len() - begins.len()..];
        for number in [19, 18] {
            for (run, begin) in runs.iter().zip(&begins) {
                let Some(place) = run.strip_prefix(&format!("refused {number} ")) else { continue };
                let row = &rows[begin + place.parse::<usize>().unwrap()];
                let mut message = format!("{said}rebates: {sheet}:{}: refused {number}: ", row.line);
                if number == 19 {
                    let months: String = row.numbers[3..3 + row.months].iter().map(|n| format!(" {n}")).collect();
                    let [code, region, method, ..] = row.numbers;
                    let quote = self.ask(&[script, format!("\nquote {code} {region} {method}{months}\n").as_bytes()].concat());
                    let by = quote.last().unwrap().strip_prefix("refused ").unwrap().to_string();
                    message += &format!("quote refuses by {by}: ");
                    self.count(&format!("runs refused by 19, {by} of quote"));
                } else {
                    self.count("runs refused by 18");
                }
                return Err(message);
            }
        }
        let mut rebates: Vec<u64> = Vec::new();
        let mut total = 0;
        for run in runs {
            let mut numbers = run.strip_prefix("ok ").unwrap_or_else(|| self.fail(run)).split(' ').map(|n| n.parse::<u64>().unwrap());
            total += numbers.next().unwrap();
            rebates.extend(numbers);
        }
        let mut output = csv[..header].to_vec();
        output.extend(b",rebate in mills,rebate in pounds rounded up to a penny");
        let (mut from, mut pence) = (header, 0);
        for (row, mills) in rows.iter().zip(&rebates) {
            let paid = mills.div_ceil(1000);
            output.extend(&csv[from..row.end]);
            output.extend(format!(",{mills},{}.{:02}", paid / 100, paid % 100).bytes());
            from = row.end;
            pence += paid;
            self.count(if *mills > 0 { "accounts with a rebate" } else { "accounts with none" });
        }
        output.extend(&csv[from..]);
        self.count("runs accepted");
        let pounds = format!("{}.{:02} pounds, each rounded up to a penny", pence / 100, pence % 100);
        Ok((output, format!("{said}rebates: {} account{}, {total} mills in all; {pounds}\n", rows.len(), plural(rows.len()))))
    }

    fn try_case(&mut self, script: &[u8], csv: &[u8], allow: bool) {
        fs::write(self.file("book.txt"), script).unwrap();
        fs::write(self.file("accounts.csv"), csv).unwrap();
        let expected = self.expected(script, csv, allow);
        let mut command = Command::new(&self.program);
        if allow {
            command.arg("--allow-refused");
        }
        let got = command.arg(self.file("book.txt")).arg(self.file("accounts.csv")).stdin(Stdio::null()).output().unwrap();
        let said = String::from_utf8_lossy(&got.stderr).to_string();
        match expected {
            Ok((output, message)) => {
                if got.status.code() != Some(0) || said != message {
                    self.fail(&format!("status 0 and {message:?} expected, {} and {said:?} came", got.status));
                }
                if got.stdout != output {
                    fs::write(self.file("expected"), output).unwrap();
                    fs::write(self.file("came"), got.stdout).unwrap();
                    self.fail("the output differs from that expected");
                }
            }
            Err(message) => {
                // the message is one line, and its words after the beginning are the program's own
                let words = said.strip_prefix(&message).unwrap_or("");
                let whole = message.ends_with('\n') && words.is_empty() || words.len() > 1 && words.find('\n') == Some(words.len() - 1);
                if got.status.code() != Some(1) || !said.starts_with(&message) || !whole || !got.stdout.is_empty() {
                    let bytes = got.stdout.len();
                    self.fail(&format!("status 1, no output and {message:?} expected, {}, {bytes} bytes and {said:?} came", got.status));
                }
            }
        }
    }
}

fn main() {
    let arguments: Vec<String> = std::env::args().collect();
    let [_, program, desk, generate, folder] = &arguments[..] else {
        eprintln!("usage: compare PROGRAM DESK GENERATE FOLDER");
        exit(2)
    };
    let mut tools =
        Tools { program: program.into(), desk: desk.into(), folder: folder.into(), counts: BTreeMap::new(), case: String::new() };
    for seed in 1..=CASES {
        tools.case = format!("case {seed}");
        let r = &mut Random(seed);
        let b = book(r);
        let end = if r.percent(30) { "\r\n" } else { "\n" };
        let csv = accounts(r, &b);
        let allow = r.percent(50);
        tools.try_case((b.lines.join(end) + if r.percent(50) { end } else { "" }).as_bytes(), &csv, allow);
    }
    // scripts of all sorts, lines that are no calls among them, with the header of no accounts
    let all = Command::new(Path::new(generate)).args(["28", "20000"]).output().unwrap().stdout;
    let lines: Vec<&[u8]> = all.split(|&byte| byte == b'\n').collect();
    let r = &mut Random(28);
    for script in 0..SCRIPTS {
        tools.case = format!("script {script}");
        let from = r.next() as usize % lines.len();
        let to = lines.len().min(from + r.from(1, 60) as usize);
        tools.try_case(&lines[from..to].join(&b'\n'), b"account,code,region,method,month 1\n", r.percent(80));
    }
    for (what, least) in [
        ("accounts with a rebate", 5000),
        ("accounts with none", 2000),
        ("files with a wrong line", 50),
        ("runs accepted", 200),
        ("runs refused by 18", 20),
        ("runs refused by 19, 10 of quote", 5),
        ("runs refused by 19, 13 of quote", 20),
        ("runs refused by 19, 6 of quote", 5),
        ("runs refused by 19, 9 of quote", 5),
        ("scripts with a line that is no call", 50),
        ("scripts with a refused call", 50),
        ("scripts with refused calls passed over", 50),
    ] {
        let met = tools.counts.get(what).copied().unwrap_or(0);
        println!("{met:8}  {what}");
        if met < least {
            tools.case = "all cases".into();
            tools.fail(&format!("{what}: {met}, and {least} are needed"));
        }
    }
    println!("{:8}  cases, alike", CASES + SCRIPTS);
}
