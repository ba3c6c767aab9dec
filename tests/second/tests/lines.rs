//! The desk's lines.

mod common;

use second::desk::Desk;
use second::script::{script, speed_script, Writer};

fn run(input: &[u8]) -> String {
    let mut desk = Desk::new();
    let mut out = Vec::new();
    desk.feed(input, &mut out);
    desk.finish(&mut out);
    String::from_utf8(out).unwrap()
}

fn reference_line() -> String {
    let mut line = "set 2023 10 3".to_string();
    for field in common::reference() {
        line.push_str(&format!(" {field}"));
    }
    line.push('\n');
    line
}

#[test]
fn answers() {
    let mut input = reference_line();
    input.push_str("benchmark 0 0 1 1\n");
    input.push_str("maximum 0 0 1 300\n");
    input.push_str(
        "put 4 1 2 20000 16383 3 20000 15000 0 0 100 0 0 0 0 0 0 0 0 0 0 0 0 0 0 0 0 0\n",
    );
    input.push_str("open 4\n");
    input.push_str("quote 4 0 1 300 0 0\n");
    input.push_str("put 5 1 1 23000 16383 3 18000 0 0 0 0 0 0 0 0 0 0 0 0 0 0 0 0 0 0 0 0 0\n");
    input.push_str("open 5\nopen 5\nclose 5\nclose 5\ndrop 5\ndrop 5\n");
    input.push_str("put 5\nput 0\nset 0 0 0\nquote 4 0 1\nbenchmark 14 0 0 0\n");
    // 13 numbers, as before M-104, and 28.
    input.push_str("put 5 1 1 23000 16383 3 18000 0 0 0 0 0 0 0\n");
    input.push_str(&format!(
        "put 5 1 1 23000 16383 3 18000{}\n",
        " 0".repeat(22)
    ));
    assert_eq!(
        run(input.as_bytes()),
        "ok\n\
         ok 64469500\n\
         ok 279704700000 36000\n\
         ok\n\
         refused 11 0 1 2535300000000 100 100 100\n\
         ok 246240000000000 279704700000000\n\
         ok\n\
         ok 28\nrefused 7\nok\nrefused 12\nok\nrefused 9\n\
         refused 8\nrefused 6\nrefused 1\nrefused 13\nrefused 13\n\
         refused 8\nrefused 8\n"
    );
}

#[test]
fn answers_of_trial() {
    let set = reference_line();
    let october = set.replace("set 2023 10 3", "trial 2023 10 1");
    let mut input = october.clone();
    input.push_str("open 1\nbenchmark 0 0 1 0\n");
    input.push_str(&set);
    input.push_str(
        "put 1 1 1 23960 16383 3 18000 0 0 0 0 0 0 0 0 0 0 0 0 0 0 0 0 0 0 0 0 0\nopen 1\n",
    );
    input.push_str(
        "put 2 1 1 23000 16383 3 18000 0 0 0 0 0 0 0 0 0 0 0 0 0 0 0 0 0 0 0 0 0\nopen 2\n",
    );
    input.push_str(&october);
    input.push_str("open 1\nquote 1 0 1 0 0 0\nclose 1\n");
    input.push_str(&october);
    input.push_str("open 1\nput 32 1 1 23960 16383 3 18000 0 0 0 0 0 0 0 0 0 0 0 0 0 0 0 0 0 0 0 0 0\nopen 32\n");
    input.push_str(&october);
    input.push_str(&set.replace("set", "trial"));
    input.push_str(&october.replace(" 10 1 ", " 13 1 "));
    input.push_str("trial 2023 10 1\ntrial 0 0 0\ntrial 2023 10 1 5\n");
    input.push_str(&october.replace("trial", "set"));
    input.push_str("open 1\nclose 2\nclose 32\n");
    assert_eq!(
        run(input.as_bytes()),
        "ok 0\nrefused 9\nrefused 10\n\
         ok\nok\nok 28\nok\nok 28\n\
         ok 1\nrefused 7\nok 79355520000000 79357500000000\nok\n\
         ok 0\nok 28\nok\nok 28\n\
         ok 2147483649\nok 0\nrefused 3\n\
         refused 1\nrefused 1\nrefused 1\n\
         ok\nrefused 11 0 1 286860000000 0\nok\nrefused 12\n"
    );
}

/// The reference sheet is loaded, then one under which code 1 falls and code 2 does not.
#[test]
fn answers_of_undo() {
    let set = reference_line();
    let october = set.replace(" 10 3 ", " 10 1 ");
    let mut input = "undo\n".to_string();
    input.push_str(&set);
    input.push_str("undo\nbenchmark 0 0 1 0\nundo\n");
    input.push_str(&set);
    input.push_str(
        "put 1 1 1 23960 16383 3 18000 0 0 0 0 0 0 0 0 0 0 0 0 0 0 0 0 0 0 0 0 0\nopen 1\n",
    );
    input.push_str(
        "put 2 1 1 23000 16383 3 18000 0 0 0 0 0 0 0 0 0 0 0 0 0 0 0 0 0 0 0 0 0\nopen 2\n",
    );
    input.push_str("undo\n");
    input.push_str(&october);
    input.push_str("open 1\nopen 2\n   undo   \r\nopen 1\nquote 1 0 1 0 0 0\n");
    input.push_str(&october);
    input.push_str("close 2\nundo\nopen 1\n");
    input.push_str(&set);
    input.push_str(&october);
    input.push_str("undo 1\nundo x\nundo\nundo\nclose 1\nopen 1");
    assert_eq!(
        run(input.as_bytes()),
        "refused 15\n\
         ok\nok\nrefused 10\nrefused 15\n\
         ok\nok\nok 28\nok\nok 28\nrefused 15\n\
         ok\nrefused 11 0 1 286860000000 0\nrefused 7\nok\nrefused 7\n\
         ok 79355520000000 79357500000000\n\
         ok\nok\nrefused 15\nrefused 11 0 1 286860000000 0\n\
         ok\nok\nerror line 24: undo takes no number\n\
         error line 25: word 2 is not a number from 0 to 4294967295\n\
         ok\nrefused 15\nrefused 12\nok 28\n"
    );
}

/// A draft at the cap of the reference sheet, asked for and confirmed, and one a mill over it.
#[test]
fn answers_of_ask_and_confirm() {
    let set = reference_line();
    let zeros = " 0".repeat(21);
    let mut input = "ask 1\nconfirm 1\nask 33\nconfirm 0\n".to_string();
    input.push_str(&format!("put 1 1 1 23960 16383 3 18000{zeros}\n"));
    input.push_str("ask 1\nconfirm 1\n");
    input.push_str(&set);
    input.push_str("confirm 1\nask 1\nundo\nclose 1\n   ask   0001 \r\n");
    input.push_str("confirm 1\nconfirm 1\nask 1\nclose 1\nconfirm 1\n");
    input.push_str(&format!("put 2 1 1 23961 5 2 18000{zeros}\n"));
    input.push_str("ask 2\nconfirm 2\n");
    input.push_str(&format!("put 2 1 1 23960 5 2 18000{zeros}\n"));
    input.push_str("ask 2\n");
    input.push_str(&set);
    input.push_str("confirm 2\nundo\nconfirm 2\nundo\nask\nconfirm 1 2\nask x\nask 1");
    assert_eq!(
        run(input.as_bytes()),
        "refused 9\nrefused 9\nrefused 6\nrefused 6\n\
         ok\nrefused 10\nrefused 16\n\
         ok\nrefused 16\nok 28\nrefused 15\nrefused 12\nok 28\n\
         ok 28\nrefused 7\nrefused 7\nok\nrefused 16\n\
         ok\nrefused 11 0 1 1332000000 0 0 0\nrefused 16\n\
         ok\nok 2\nok\nrefused 16\nok\nok 2\nrefused 15\n\
         error line 29: ask takes 1 number\n\
         error line 30: confirm takes 1 number\n\
         error line 31: word 2 is not a number from 0 to 4294967295\n\
         ok 28\n"
    );
}

/// The numbers of an account of region 0, method 1, with three months.
fn account(code: u32, months: [u32; 3], past: u32) -> String {
    let months = months.map(|kwh| kwh.to_string()).join(" ");
    format!(" {code} 0 1 3 {months}{}", format!(" {past}").repeat(9))
}

/// The starred tariff of document 01 under a direction, and what its households are owed.
#[test]
fn answers_of_direct_and_rebate() {
    let tiered = format!("1 2 20000 16383 3 20000 15000 0 0 100{}", " 0".repeat(17));
    let owed = account(1, [100, 100, 100], 4_294_967_295);
    let not_owed = account(1, [300, 0, 0], 0);
    let draft = account(2, [0, 0, 0], 0);
    let empty = account(3, [0, 0, 0], 0);
    let mut input = "direct 1\ndirect 33\ndesk 1 direct 33\nrebate\n".to_string();
    input.push_str(&format!("put 1 {tiered}\nput 2 {tiered}\nrebate{owed}\n"));
    input.push_str("direct 1\nopen 1\n");
    input.push_str(&reference_line());
    input.push_str("open 1\n   direct   002 \r\nask 2\ndirect 1\n");
    for list in [
        vec![&owed],
        vec![&not_owed],
        vec![&owed, &not_owed, &owed],
        vec![&owed, &draft],
        vec![&draft, &owed, &empty],
        vec![&empty, &draft],
    ] {
        let accounts: String = list.into_iter().map(String::as_str).collect();
        input.push_str(&format!("rebate{accounts}\n"));
    }
    input.push_str(&format!("desk 1 rebate{owed}\ndesk 16383 rebate{owed}\r\n"));
    input.push_str(&format!(
        "desk 0 rebate\nrebate{owed} 1\nrebate{}\n",
        &owed[2..]
    ));
    input.push_str("undo\nconfirm 2\nrebate x\ndirect\ndirect 1 2\nrebate");
    assert_eq!(
        run(input.as_bytes()),
        "refused 9\nrefused 6\nrefused 17\nok 0\n\
         ok\nok\nrefused 19 0\n\
         ok\nrefused 10\n\
         ok\n\
         ok 0\nok\nok 0\nrefused 7\n\
         ok 70425 70425\n\
         ok 0 0\n\
         ok 140850 70425 0 70425\n\
         refused 18 1\n\
         refused 19 2\n\
         refused 19 0\n\
         refused 19 0\nok 70425 70425\n\
         ok 0\n\
         error line 24: rebate takes 16 numbers an account\n\
         error line 25: rebate takes 16 numbers an account\n\
         refused 15\nok 0\n\
         error line 28: word 2 is not a number from 0 to 4294967295\n\
         error line 29: direct takes 1 number\n\
         error line 30: direct takes 1 number\n\
         ok 0\n"
    );
}

/// As many accounts as a line can have.
#[test]
fn the_longest_rebate_run() {
    let mut input = reference_line();
    input.push_str(&format!(
        "put 1 1 2 20000 16383 3 20000 15000 0 0 100{}\ndirect 1\nopen 1\n",
        " 0".repeat(17)
    ));
    let accounts = account(1, [0, 0, 9], 9).repeat(511);
    let line = format!("rebate{accounts}");
    assert_eq!(line.len(), 16_358);
    let longest = format!("rebate{}{accounts}", " ".repeat(16_384 - line.len()));
    let longer = format!("rebate{accounts}{}", account(1, [0, 0, 9], 9));
    for call in [&line, &longest, &longer] {
        input.push_str(call);
        input.push('\n');
    }
    let answers = run(input.as_bytes());
    let answers: Vec<&str> = answers.lines().collect();
    let none = format!("ok 0{}", " 0".repeat(511));
    assert_eq!(answers[..4], ["ok", "ok", "ok", "ok 0"]);
    assert_eq!(answers[4], none);
    assert_eq!(answers[5], none);
    assert_eq!(answers[6], "error line 7: longer than 16384 bytes");
}

/// A tariff of regions 0 and 1 and one of region 1, and desks that have them or not.
#[test]
fn answers_of_desks() {
    let set = reference_line();
    let zeros = " 0".repeat(21);
    let low = |regions: u32| format!("1 1 23000 {regions} 3 18000{zeros}\n");
    let mut input = String::new();
    // Without a sheet.
    input.push_str("desk 0 open 1\ndesk 3 open 33\ndesk 3 undo\ndesk 16383 undo\n");
    input.push_str(&format!("desk 3 put 1 {}", low(3)));
    input.push_str("desk 3 open 1\ndesk 1 open 1\ndesk 3 quote 1 0 1 0 0 0\n");
    input.push_str("desk 1 benchmark 0 0 1 0\ndesk 1 benchmark 1 0 1 0\n");
    input.push_str("desk 1 benchmark 14 0 1 0\n");
    input.push_str(&format!("desk 3 {set}desk 32767 {set}desk 16383 {set}"));
    input.push_str(&format!("desk 16382 {}", set.replace("set", "trial")));
    input.push_str(&set.replace("set", "desk 16383 trial"));
    // With one.
    input.push_str("desk 3 ask 1\ndesk 1 confirm 1\n  desk   0003   confirm   1 \r\n");
    input.push_str("desk 7 open 1\ndesk 1 close 1\ndesk 3 quote 1 1 1 0 0 0\n");
    input.push_str("desk 2 quote 1 1 1 0 0 0\ndesk 2 quote 1 2 1 0 0 0\n");
    input.push_str(&format!("desk 4294967295 put 1 {}", low(3)));
    input.push_str("desk 16383 close 1\n");
    input.push_str(&format!("desk 2 put 1 {}", low(2)));
    input.push_str(&format!("desk 3 put 1 {}", low(7)));
    input.push_str(&format!("desk 3 put 1 {}", low(2)));
    input.push_str(&format!("desk 2 put 1 {}", low(2)));
    input.push_str("desk 2 open 1\ndesk 1 drop 1\ndesk 2 drop 1\nclose 1\n");
    input.push_str("desk 2 drop 1\ndesk 2 drop 1\ndesk 0 drop 1\n");
    input.push_str("desk 1 maximum 0 0 1 300\ndesk 1 maximum 1 0 1 300\n");
    input.push_str("desk 0 maximum 0 0 1 120001\ndesk 0 maximum 0 0 1 120000");
    assert_eq!(
        run(input.as_bytes()),
        "refused 9\nrefused 6\nrefused 17\nrefused 15\n\
         ok\nrefused 10\nrefused 17\nrefused 10\n\
         refused 10\nrefused 17\nrefused 13\n\
         refused 17\nrefused 17\nok\nrefused 17\nok 0\n\
         ok 4\nrefused 17\nok 4\n\
         refused 7\nrefused 17\nok 76176000000000 79357500000000\n\
         refused 17\nrefused 13\nrefused 7\nok\n\
         refused 17\nrefused 17\nok\nok\n\
         ok 2\nrefused 17\nrefused 7\nok\n\
         ok\nrefused 9\nrefused 9\n\
         ok 279704700000 36000\nrefused 17\n\
         refused 13\nrefused 17\n"
    );
}

/// The errors of a line that begins with `desk`, in their order: the desk, the call, a word, the count.
#[test]
fn lines_of_desks_that_are_no_calls() {
    let takes = "desk takes a number and a call";
    let word = |place: usize| format!("word {place} is not a number from 0 to 4294967295");
    for (line, expected) in [
        // No number.
        ("desk", takes),
        ("   desk  ", takes),
        ("desk x", takes),
        ("desk x open 1", takes),
        ("desk open 1", takes),
        ("desk open", takes),
        ("desk undo", takes),
        ("desk -1 open 1", takes),
        ("desk +3 open 1", takes),
        ("desk 3.0 open 1", takes),
        ("desk 0x3 open 1", takes),
        ("desk 3,5 open 1", takes),
        ("desk # open 1", takes),
        ("desk #3 open 1", takes),
        ("desk 4294967296 open 1", takes),
        ("desk 04294967296 open 1", takes),
        ("desk 99999999999999999999999999999999 open 1", takes),
        ("desk 3\r open 1", takes),
        ("desk 3\topen 1", takes),
        ("desk desk 3 open 1", takes),
        // No call.
        ("desk 3", takes),
        ("desk 0", takes),
        ("desk 4294967295   ", takes),
        // Before an unknown call, a word that is no number and a count.
        ("desk x opens 1", takes),
        ("desk x #", takes),
        ("desk x open x", takes),
        ("desk x open 1 2", takes),
        // An unknown call.
        ("desk 3 opens 1", "unknown call"),
        ("desk 3 OPEN 1", "unknown call"),
        ("desk 3 open\t1", "unknown call"),
        ("desk 3 3", "unknown call"),
        ("desk 3 3 open 1", "unknown call"),
        ("desk 3 desk", "unknown call"),
        ("desk 3 desk 3", "unknown call"),
        ("desk 3 desk 3 open 1", "unknown call"),
        ("desk 3 desk x open 1", "unknown call"),
        ("desk 3 #", "unknown call"),
        ("desk 3 # open 1", "unknown call"),
        ("desk 3 #open 1", "unknown call"),
        ("desk 16383 #open 1", "unknown call"),
        ("desk 3 opens x", "unknown call"),
        ("desk 3 #open x", "unknown call"),
        ("desk 3 -1 open", "unknown call"),
        ("DESK 3 open 1", "unknown call"),
        ("Desk 3 open 1", "unknown call"),
        ("desks 3 open 1", "unknown call"),
        ("des 3 open 1", "unknown call"),
        ("desk3 open 1", "unknown call"),
        ("desk\t3 open 1", "unknown call"),
        ("desk# 3 open 1", "unknown call"),
        // A word, counted from the line's first.
        ("desk 3 open x", &word(4)),
        ("desk 3 open 1 x", &word(5)),
        ("desk 3   open   1   #", &word(5)),
        ("desk 3 undo x", &word(4)),
        ("desk 3 put 1 1.5 x", &word(5)),
        ("desk 0 trial 2023 10 3 0 4294967296 -1", &word(8)),
        ("desk 3 open 4294967296", &word(4)),
        ("desk 3 open desk", &word(4)),
        ("desk 32767 quote 1 2 x", &word(6)),
        // Too many besides.
        ("desk 3 open 1 2 x", &word(6)),
        // A count, without the desk's words.
        ("desk 3 open", "open takes 1 number"),
        ("desk 3 open 1 2", "open takes 1 number"),
        ("desk 3 ask", "ask takes 1 number"),
        ("desk 3 confirm 1 2", "confirm takes 1 number"),
        ("desk 3 close", "close takes 1 number"),
        ("desk 3 drop 1 2 3", "drop takes 1 number"),
        ("desk 3 set", "set takes at least 3 numbers"),
        ("desk 3 set 1 2", "set takes at least 3 numbers"),
        ("desk 16383 set 1 2", "set takes at least 3 numbers"),
        ("desk 3 trial 2023 10", "trial takes at least 3 numbers"),
        ("desk 3 undo 0", "undo takes no number"),
        ("desk 0 undo 1", "undo takes no number"),
        ("desk 3 put", "put takes at least 1 number"),
        ("desk 3 benchmark 0 0 0", "benchmark takes 4 numbers"),
        ("desk 3 maximum 0 0 0 0 0", "maximum takes 4 numbers"),
        ("desk 3 quote 1 2", "quote takes at least 3 numbers"),
    ] {
        for end in ["", "\n", "\r\n", "  \n"] {
            let expected = format!("error line 1: {expected}\n");
            let answer = run(format!("{line}{end}").as_bytes());
            assert_eq!(answer, expected, "{line:?}{end:?}");
        }
    }
    // A comment is a line whose first word begins with #.
    assert_eq!(
        run(b"# desk\n   #desk 3 open 1\ndesk"),
        format!("error line 3: {takes}\n")
    );
}

#[test]
fn desks_at_their_limits() {
    for (desk, answer) in [
        ("0", "refused 17\n"),
        ("16382", "refused 17\n"),
        ("16383", "refused 15\n"),
        ("0016383", "refused 15\n"),
        ("16384", "refused 17\n"),
        ("32767", "refused 17\n"),
        ("81919", "refused 17\n"),
        ("4294967295", "refused 17\n"),
    ] {
        assert_eq!(
            run(format!("desk {desk} undo").as_bytes()),
            answer,
            "{desk}"
        );
    }
    let zeros = format!("desk {}16383 undo", "0".repeat(16_000));
    assert_eq!(run(zeros.as_bytes()), "refused 15\n");
    // The desk's words count in the length of a line.
    let takes = "error line 1: desk takes a number and a call\n";
    for (length, answers) in [
        (16_384, ["refused 6\n", takes]),
        (16_385, ["error line 1: longer than 16384 bytes\n"; 2]),
    ] {
        for (start, answer) in ["desk 3 open 33", "desk 3"].into_iter().zip(answers) {
            assert_eq!(run(format!("{start:length$}").as_bytes()), answer);
        }
    }
}

/// The same script with `desk 16383` before every call.
#[test]
fn desk_16383_changes_no_answer() {
    for seed in 1..4 {
        let plain: Vec<u8> = Writer::without_desks(seed, 5_000).flatten().collect();
        let names_a_desk = |line: &[u8]| {
            let mut words = line.split(|&byte| byte == b' ');
            words.find(|word| !word.is_empty()) == Some(b"desk")
        };
        assert!(!plain.split(|&byte| byte == b'\n').any(names_a_desk));
        let (mut one, mut other) = (Desk::new(), Desk::new());
        let mut calls = 0;
        for line in plain.split(|&byte| byte == b'\n') {
            let mut answer = Vec::new();
            one.line(line, &mut answer);
            let mut named = line.to_vec();
            let is_call = answer.starts_with(b"ok") || answer.starts_with(b"refused");
            calls += usize::from(is_call);
            // Some lines are as long as a line can be.
            let prefix = b"desk 16383 ";
            if is_call && prefix.len() + line.len() <= 16_384 {
                named = [prefix, line].concat();
            }
            let mut of_desk = Vec::new();
            other.line(&named, &mut of_desk);
            assert_eq!(of_desk, answer, "{}", String::from_utf8_lossy(line));
            assert_eq!(one.book(), other.book());
        }
        assert!(calls >= 5_000);
    }
}

/// SMNCC is word 41, in two's complement: 4,294,467,296 is -500,000.
#[test]
fn a_saving_is_written_without_a_sign() {
    let line = |smncc: &str| reference_line().replace(" 500000 ", &format!(" {smncc} "));
    let mut input = line("4294467296");
    input.push_str("benchmark 0 0 1 0\n");
    for smncc in ["4289717295", "4194967295", "-500000", "4294967296"] {
        input.push_str(&line(smncc));
        input.push_str(&line(smncc).replace("set", "trial"));
    }
    input.push_str("benchmark 0 0 1 0\n");
    let error = "word 41 is not a number from 0 to 4294967295";
    assert_eq!(
        run(input.as_bytes()),
        format!(
            "ok\nok 7807500\n\
             refused 14\nrefused 14\nrefused 2\nrefused 2\n\
             error line 7: {error}\nerror line 8: {error}\n\
             error line 9: {error}\nerror line 10: {error}\n\
             ok 7807500\n"
        )
    );
}

#[test]
fn lines_that_are_no_calls() {
    for (line, expected) in [
        ("opens 1", "unknown call"),
        ("OPEN 1", "unknown call"),
        ("open\t1", "unknown call"),
        ("\u{feff}open 1", "unknown call"),
        ("7 x", "unknown call"),
        ("open\r 1", "unknown call"),
        ("open", "open takes 1 number"),
        ("open 1 2", "open takes 1 number"),
        ("ask", "ask takes 1 number"),
        ("ask 1 2", "ask takes 1 number"),
        ("confirm", "confirm takes 1 number"),
        ("confirm 1 2 3", "confirm takes 1 number"),
        ("ask x", "word 2 is not a number from 0 to 4294967295"),
        ("ask 1 -1", "word 3 is not a number from 0 to 4294967295"),
        (
            "confirm 4294967296",
            "word 2 is not a number from 0 to 4294967295",
        ),
        ("confirm 1 #", "word 3 is not a number from 0 to 4294967295"),
        ("ASK 1", "unknown call"),
        ("asks 1", "unknown call"),
        ("as 1", "unknown call"),
        ("ask1", "unknown call"),
        ("ask# 1", "unknown call"),
        ("ask\t1", "unknown call"),
        ("Confirm 1", "unknown call"),
        ("confirms 1", "unknown call"),
        ("confir 1", "unknown call"),
        ("confirm1", "unknown call"),
        ("direct", "direct takes 1 number"),
        ("direct 1 2", "direct takes 1 number"),
        ("direct x", "word 2 is not a number from 0 to 4294967295"),
        ("DIRECT 1", "unknown call"),
        ("directs 1", "unknown call"),
        ("direc 1", "unknown call"),
        ("direct1", "unknown call"),
        ("rebate 1", "rebate takes 16 numbers an account"),
        (
            "rebate 1 0 1 3 0 0 0 0 0 0 0 0 0 0 0",
            "rebate takes 16 numbers an account",
        ),
        (
            "rebate 1 0 1 3 0 0 0 0 0 0 0 0 0 0 0 0 0",
            "rebate takes 16 numbers an account",
        ),
        ("rebate x", "word 2 is not a number from 0 to 4294967295"),
        (
            "rebate 1 0 1 3 0 -1 0 0 0 0 0 0 0 0 0 0",
            "word 7 is not a number from 0 to 4294967295",
        ),
        ("REBATE", "unknown call"),
        ("rebates", "unknown call"),
        ("rebate#", "unknown call"),
        ("close", "close takes 1 number"),
        ("drop 1 2 3", "drop takes 1 number"),
        ("set", "set takes at least 3 numbers"),
        ("set 1 2", "set takes at least 3 numbers"),
        ("trial", "trial takes at least 3 numbers"),
        ("trial 2023", "trial takes at least 3 numbers"),
        ("trial 2023 10", "trial takes at least 3 numbers"),
        ("TRIAL 2023 10 3", "unknown call"),
        ("trials 2023 10 3", "unknown call"),
        ("tria 2023 10 3", "unknown call"),
        ("trial# 2023 10 3", "unknown call"),
        ("undo 0", "undo takes no number"),
        ("undo 5", "undo takes no number"),
        ("undo 1 2 3", "undo takes no number"),
        ("  undo   4294967295 ", "undo takes no number"),
        ("undo x", "word 2 is not a number from 0 to 4294967295"),
        ("undo -1", "word 2 is not a number from 0 to 4294967295"),
        ("undo 5 #", "word 3 is not a number from 0 to 4294967295"),
        (
            "undo 4294967296",
            "word 2 is not a number from 0 to 4294967295",
        ),
        ("UNDO", "unknown call"),
        ("undos", "unknown call"),
        ("und", "unknown call"),
        ("undo1", "unknown call"),
        ("undo#", "unknown call"),
        ("undo\t", "unknown call"),
        ("put", "put takes at least 1 number"),
        ("benchmark 0 0 0", "benchmark takes 4 numbers"),
        ("benchmark 0 0 0 0 0", "benchmark takes 4 numbers"),
        ("maximum", "maximum takes 4 numbers"),
        ("quote 1 2", "quote takes at least 3 numbers"),
        ("open x", "word 2 is not a number from 0 to 4294967295"),
        ("open 1 2 -3", "word 4 is not a number from 0 to 4294967295"),
        (
            "open 4294967296",
            "word 2 is not a number from 0 to 4294967295",
        ),
        ("open  1 #", "word 3 is not a number from 0 to 4294967295"),
        ("open 1\r 2", "word 2 is not a number from 0 to 4294967295"),
        ("open 1\r\r", "word 2 is not a number from 0 to 4294967295"),
        ("set +1", "word 2 is not a number from 0 to 4294967295"),
        ("trial x", "word 2 is not a number from 0 to 4294967295"),
        (
            "trial 2023 10 3 0 4294967296 -1",
            "word 6 is not a number from 0 to 4294967295",
        ),
        ("put 1 1.5 x", "word 3 is not a number from 0 to 4294967295"),
        (
            "put 99999999999999999999999999999999",
            "word 2 is not a number from 0 to 4294967295",
        ),
    ] {
        for end in ["", "\n", "\r\n", "  \n"] {
            // A carriage return in the line is at its end only if nothing follows.
            let expected = format!("error line 1: {expected}\n");
            assert_eq!(
                run(format!("{line}{end}").as_bytes()),
                expected,
                "{line:?}{end:?}"
            )
        }
    }
}

#[test]
fn lines_passed_over() {
    for line in [
        "",
        " ",
        "     ",
        "#",
        "# open 1",
        "   #open 1",
        "\r",
        "  \r",
        "#\r",
    ] {
        assert_eq!(run(line.as_bytes()), "", "{line:?}");
        let input = format!("{line}\nopen 33\n{line}\n\nopen\n");
        let expected = "refused 6\nerror line 5: open takes 1 number\n";
        assert_eq!(run(input.as_bytes()), expected, "{line:?}");
    }
}

#[test]
fn numbers_at_their_limits() {
    assert_eq!(run(b"open 4294967295"), "refused 6\n");
    assert_eq!(
        run(b"open 0000000000000000000000000000000000001"),
        "refused 9\n"
    );
    assert_eq!(run(b"open 0"), "refused 6\n");
    assert_eq!(run(b"   open    32   \r\n"), "refused 9\n");
    let zeros = format!("open {}", "0".repeat(16_000));
    assert_eq!(run(zeros.as_bytes()), "refused 6\n");
}

#[test]
fn the_longest_line() {
    let line = |length: usize, start: &str, filling: &str, end: &str| {
        let filling = filling.repeat(length - start.len() - end.len());
        run(format!("{start}{filling}{end}\nopen\n").as_bytes())
    };
    let then = "error line 2: open takes 1 number\n";
    let too_long = format!("error line 1: longer than 16384 bytes\n{then}");
    for start in ["open 33 ", "", "#"] {
        let short = if start.is_empty() || start == "#" {
            then.to_string()
        } else {
            format!("refused 6\n{then}")
        };
        for end in ["", "\r"] {
            assert_eq!(line(16_384, start, " ", end), short);
            assert_eq!(line(16_385, start, " ", end), too_long);
            assert_eq!(line(200_000, start, " ", end), too_long);
        }
    }
    assert_eq!(
        line(16_384, "x", "y", ""),
        format!("error line 1: unknown call\n{then}")
    );
    assert_eq!(line(16_385, "x", "y", ""), too_long);
    // As many numbers as a line can have.
    let many = run(format!("set{}\n", " 0".repeat(8_190)).as_bytes());
    assert_eq!(many, "refused 1\n");
    let many = run(format!("trial{}\n", " 0".repeat(8_189)).as_bytes());
    assert_eq!(many, "refused 1\n");
    // No line feed at the end.
    assert_eq!(
        run(&b"#".repeat(16_385)),
        "error line 1: longer than 16384 bytes\n"
    );
    assert_eq!(run(&b"#".repeat(16_384)), "");
}

#[test]
fn any_bytes() {
    let all: Vec<u8> = (0..=255).collect();
    // The line feed splits the bytes in two lines.
    let expected = "error line 1: unknown call\nerror line 2: unknown call\n";
    assert_eq!(run(&all), expected);
    assert_eq!(
        run(b"open \xff"),
        "error line 1: word 2 is not a number from 0 to 4294967295\n"
    );
    assert_eq!(run(b"\0\n"), "error line 1: unknown call\n");
}

/// However the input is cut, the answers are the same, and each comes with its line's end.
#[test]
fn pieces_of_any_size() {
    let mut text = b"# ".repeat(10_000);
    text.push(b'\n');
    text.extend(script(4, 3_000));
    let whole = run(&text);
    assert!(whole.starts_with("error line 1: longer than 16384 bytes\n"));
    for size in [1, 2, 7, 97, 16_383, 16_384, 16_385, 65_536] {
        let mut desk = Desk::new();
        let mut out = Vec::new();
        let (mut lines, mut answers) = (0, 0);
        let feeds = |bytes: &[u8]| bytes.iter().filter(|&&byte| byte == b'\n').count();
        for piece in text.chunks(size) {
            let before = out.len();
            desk.feed(piece, &mut out);
            lines += feeds(piece);
            answers += feeds(&out[before..]);
            assert!(answers <= lines);
        }
        desk.finish(&mut out);
        assert!(out == whole.as_bytes(), "pieces of {size}");
    }
    let mut desk = Desk::new();
    let mut out = Vec::new();
    desk.feed(b"open 3", &mut out);
    assert!(out.is_empty());
    desk.feed(b"3\nopen", &mut out);
    assert_eq!(out, b"refused 6\n");
    desk.feed(b" 1", &mut out);
    desk.feed(b"\r", &mut out);
    assert_eq!(out, b"refused 6\n");
    desk.finish(&mut out);
    assert_eq!(out, b"refused 6\nrefused 9\n");
}

#[test]
fn scripts_are_the_same_from_the_same_seed() {
    assert_eq!(script(9, 500), script(9, 500));
    assert_ne!(script(9, 500), script(10, 500));
    let mut writer = Writer::new(9, 500);
    writer.by_ref().for_each(drop);
    assert_eq!(writer.calls(), 500);
}

/// FNV-1a.
fn checksum(bytes: &[u8]) -> u64 {
    bytes.iter().fold(0xcbf2_9ce4_8422_2325, |sum: u64, &byte| {
        (sum ^ u64::from(byte)).wrapping_mul(0x0000_0100_0000_01b3)
    })
}

/// The lines that are timed, and the answers to them, are those of before there were desks.
#[test]
fn speed_scripts_are_as_they_were() {
    for (seed, lines, script, answers) in [
        (1, 5_000, 0x0e44_bcea_4a35_1207, 0x3666_022b_6b73_dfe9),
        (7, 3_000, 0x55ca_df3e_c2c9_f842, 0x71f1_8883_9f0e_f48a),
    ] {
        let text = speed_script(seed, lines);
        assert_eq!(checksum(&text), script);
        assert_eq!(checksum(run(&text).as_bytes()), answers);
    }
}

#[test]
fn speed_scripts_have_their_lines_and_no_errors() {
    for lines in [0, 1, 5_000] {
        let text = speed_script(1, lines);
        assert_eq!(text.iter().filter(|&&byte| byte == b'\n').count(), lines);
        let answers = run(&text);
        assert_eq!(answers.lines().count(), lines);
        assert!(!answers.contains("error"));
    }
    let text = String::from_utf8(speed_script(1, 5_000)).unwrap();
    let sheets = text.lines().filter(|line| line.starts_with("set")).count();
    assert!((20..=100).contains(&sheets), "{sheets} sheets");
}
