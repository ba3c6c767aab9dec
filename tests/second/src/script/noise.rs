//! Lines of a random script that are no calls.

use super::*;

impl Writer {
    pub(super) fn noise(&mut self) {
        if !self.random.one_in(24) {
            return;
        }
        let line = match self.random.below(if self.desks { 31 } else { 24 }) {
            0 => b"".to_vec(),
            1 => b"\r".to_vec(),
            2 => b"     ".to_vec(),
            3 => b"# a comment".to_vec(),
            4 => b"   #open 1".to_vec(),
            5..=7 => self.unknown_call(),
            8..=12 => self.not_a_number(),
            13..=21 => self.wrong_count(),
            22 if self.random.one_in(2) => self.minus_sign(),
            22 => self.junk(),
            23 if self.random.one_in(3) => self.long_line(),
            23 => b"#".to_vec(),
            _ => self.no_call_by_a_desk(),
        };
        self.line(&line);
    }

    /// A line that begins with `desk` and is no call.
    pub(super) fn no_call_by_a_desk(&mut self) -> Vec<u8> {
        const NO_DESK: [&[u8]; 20] = [
            b"desk",
            b"   desk   ",
            b"desk open 1",
            b"desk undo",
            b"desk desk 3 open 1",
            b"desk # open 1",
            b"desk x open 1",
            b"desk -1 open 1",
            b"desk +1 open 1",
            b"desk 1.5 open 1",
            b"desk 0x3 open 1",
            b"desk 3# open 1",
            b"desk 4294967296 open 1",
            b"desk 04294967296 open x",
            b"desk 18446744073709551619 open 1",
            b"desk 3\r open 1",
            b"desk 3\topen 1",
            b"desk x",
            b"desk 4294967296",
            b"desk x xs",
        ];
        const NO_CALL: [&[u8]; 6] = [
            b"",
            b" ",
            b" desk",
            b" desk 3 open 1",
            b" desk x open 1",
            b" 3 open 1",
        ];
        const COMMENTS: [&[u8]; 4] = [b" #", b" # open 1", b" #open 1", b" # desk 3 open 1"];
        let desk = self.desk_to_write();
        let behind = match self.random.below(16) {
            0..=2 => return self.random.pick(&NO_DESK).to_vec(),
            3..=4 => self.random.pick(&NO_CALL).to_vec(),
            5 => self.random.pick(&COMMENTS).to_vec(),
            6..=7 => [b" ", &self.unknown_call()[..]].concat(),
            8..=10 => [b" ", &self.not_a_number()[..]].concat(),
            11..=14 => [b" ", &self.wrong_count()[..]].concat(),
            _ => {
                let long = self.long_line();
                let mut line = [&desk[..], b" ", &long].concat();
                line.truncate(long.len());
                return line;
            }
        };
        [desk, behind].concat()
    }

    /// `desk` and a number.
    fn desk_to_write(&mut self) -> Vec<u8> {
        let desk = match self.random.below(3) {
            0 => self.random.pick(&[0, ALL_REGIONS, u32::MAX]),
            _ => self.random.between(0, 2 * ALL_REGIONS),
        };
        format!("desk {desk}").into_bytes()
    }

    pub(super) fn unknown_call(&mut self) -> Vec<u8> {
        const WORDS: [&[u8]; 44] = [
            b"DESK 3 open 1",
            b"desks 3 open 1",
            b"des 3 open 1",
            b"desk3 open 1",
            b"desk\t3 open 1",
            b"SET 2023 10 3",
            b"TRIAL 2023 10 3",
            b"trials 2023 10 3",
            b"tria 2023 10 3",
            b"UNDO",
            b"undos",
            b"und",
            b"undo1",
            b"ASK 1",
            b"asks 1",
            b"as 1",
            b"ask1",
            b"CONFIRM 1",
            b"confirms 1",
            b"confir 1",
            b"confirm# 1",
            b"DIRECT 1",
            b"directs 1",
            b"direc 1",
            b"direct1",
            b"REBATE",
            b"rebates",
            b"rebat",
            b"rebate#",
            b"Open 1",
            b"opens 1",
            b"ope 1",
            b"quit",
            b"help",
            b"1",
            b"open\t1",
            b"\topen 1",
            b"open\r 1",
            b"\xef\xbb\xbfopen 1",
            b"open\x00 1",
            b"-",
            b"benchmarks 0 0 0 0",
            b"drop# 1",
            b"\r\r",
        ];
        self.random.pick(&WORDS).to_vec()
    }

    pub(super) fn not_a_number(&mut self) -> Vec<u8> {
        const WORDS: [&[u8]; 18] = [
            b"+1",
            b"-1",
            b"1.0",
            b"1,000",
            b"0x10",
            b"1e3",
            b"4294967296",
            b"04294967296",
            b"4294967297",
            b"42949672950",
            b"18446744073709551617",
            b"340282366920938463463374607431768211457",
            b"one",
            b"1_000",
            b"1\t2",
            b"#",
            b"\xc2\xb2",
            b"1\r",
        ];
        const CALLS: [&str; 14] = [
            "set",
            "undo",
            "trial",
            "put",
            "open",
            "ask",
            "confirm",
            "close",
            "drop",
            "benchmark",
            "maximum",
            "quote",
            "direct",
            "rebate",
        ];
        let call = self.random.pick(&CALLS);
        let bad = self.random.pick(&WORDS);
        let count = match call {
            "set" | "trial" => self.random.pick(&[1, 2, 3, 99]),
            "rebate" => self.random.pick(&[1, 15, 16, 32, 48]),
            _ => 1 + self.random.index(15),
        };
        let place = self.random.index(count);
        let mut line = call.as_bytes().to_vec();
        for i in 0..count {
            line.push(b' ');
            if i == place {
                line.extend_from_slice(bad);
            } else {
                line.extend_from_slice(self.random.between(0, 99).to_string().as_bytes());
            }
        }
        // A last word "1\r" would be the number 1 with a line end.
        if line.ends_with(b"\r") {
            line.push(b' ');
        }
        line
    }

    /// A saving on the reference sheet, written with a minus sign.
    pub(super) fn minus_sign(&mut self) -> Vec<u8> {
        let mut line = self.random.pick(&["set", "trial"]).to_string();
        for (i, number) in reference().numbers().into_iter().enumerate() {
            line.push_str(if i == 3 + SMNCC { " -" } else { " " });
            line.push_str(&number.to_string());
        }
        self.note("sheets with a minus sign before SMNCC");
        line.into_bytes()
    }

    pub(super) fn wrong_count(&mut self) -> Vec<u8> {
        const CALLS: [(&str, &[usize]); 14] = [
            ("set", &[0, 1, 2]),
            ("undo", &[1, 2, 3, 20]),
            ("trial", &[0, 1, 2]),
            ("put", &[0]),
            ("open", &[0, 2, 3, 20]),
            ("ask", &[0, 2, 3, 20]),
            ("confirm", &[0, 2, 3, 20]),
            ("close", &[0, 2, 3, 20]),
            ("drop", &[0, 2, 3, 20]),
            ("benchmark", &[0, 1, 3, 5, 20]),
            ("maximum", &[0, 1, 3, 5, 20]),
            ("quote", &[0, 1, 2]),
            ("direct", &[0, 2, 3, 20]),
            ("rebate", &[1, 4, 8, 15, 17, 31, 33, 40]),
        ];
        let (call, counts) = self.random.pick(&CALLS);
        let mut line = call.to_string();
        for _ in 0..self.random.pick(counts) {
            line.push(' ');
            line.push_str(&self.random.between(0, 13).to_string());
        }
        line.into_bytes()
    }

    pub(super) fn junk(&mut self) -> Vec<u8> {
        let count = self.random.index(200);
        (0..count)
            .map(|_| match self.random.bits() as u8 {
                b'\n' => b' ',
                byte => byte,
            })
            .collect()
    }

    /// A line next to the longest that is taken.
    pub(super) fn long_line(&mut self) -> Vec<u8> {
        let mut line = match self.random.below(9) {
            0 => b"#".to_vec(),
            1 => b"open 33".to_vec(),
            2 => b"open 33 x".to_vec(),
            3 => b"put 33 0".to_vec(),
            4 => b"benchmark 0 0 0 0".to_vec(),
            5 => b"trial 2023 10 3 0".to_vec(),
            6 => b"direct 33".to_vec(),
            7 => b"rebate 33 0 1 3 0 0 0 0 0 0 0 0 0 0 0 0".to_vec(),
            _ => Vec::new(),
        };
        let length = LINE_LIMIT + self.random.pick(&[0, 0, 1, 1, 2, 100, 60_000]);
        let filling = self.random.pick(b"   0x#");
        line.resize(length, filling);
        if self.random.one_in(3) {
            *line.last_mut().expect("a long line") = b'\r';
        }
        line
    }
}
