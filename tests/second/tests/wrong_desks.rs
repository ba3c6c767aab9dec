//! The comparison finds what is wrong with a desk, ends whatever the desk does, and finds
//! nothing wrong with a right one.

use std::time::{Duration, Instant};

use second::program::Program;
use second::runs::*;

type Part = fn(&Program) -> Result<(), String>;

fn wrong(fault: &str) -> Program {
    Program::new(env!("CARGO_BIN_EXE_wrong_desk"))
        .argument(fault)
        .limit(Duration::from_secs(2))
}

fn fixed_conversations(program: &Program) -> Result<(), String> {
    conversations(program, 1, CONVERSATIONS).map(drop)
}

fn fixed_fuzz(program: &Program) -> Result<(), String> {
    fuzz_cases(program, FUZZ_SEED, FUZZ_CASES).map(drop)
}

fn short_lists(program: &Program) -> Result<(), String> {
    every_list(program).map(drop)
}

fn short_lists_with_desks(program: &Program) -> Result<(), String> {
    every_list_with_desks(program).map(drop)
}

fn first_pairs(program: &Program) -> Result<(), String> {
    pairs_of_books(program, 1, PAIRS).map(drop)
}

fn first_seed(program: &Program) -> Result<(), String> {
    random_calls(program, 1).map(drop)
}

/// The same; the difference is an answer, and not that there is none.
fn first_seed_answered(program: &Program) -> Result<(), String> {
    first_seed(program).inspect_err(|report| {
        let answers = ["answered: ok", "answered: refused"];
        let answered = answers.iter().any(|answer| report.contains(answer));
        assert!(answered, "{report}");
    })
}

#[test]
fn right_desks_pass() {
    for program in [
        Program::new(env!("CARGO_BIN_EXE_desk")),
        Program::new(env!("CARGO_BIN_EXE_wrong_desk")),
    ] {
        conversations(&program, 1, 12).unwrap();
        fuzz_cases(&program, FUZZ_SEED, 200).unwrap();
        random_calls(&program, 1).unwrap();
        pairs_of_books(&program, 1, 20).unwrap();
        calls_without_desks(&program, 1, 5_000).unwrap();
    }
    every_list(&Program::new(env!("CARGO_BIN_EXE_desk"))).unwrap();
    every_list_with_desks(&Program::new(env!("CARGO_BIN_EXE_desk"))).unwrap();
}

/// Each fault is found, and the report names the line and says this.
fn all_found(faults: &[(&str, &str)], part: Part) {
    for (fault, says) in faults {
        match part(&wrong(fault)) {
            Ok(()) => panic!("not found: {fault}"),
            Err(report) => assert!(report.contains(says), "{fault}: {report}"),
        }
    }
}

#[test]
fn conversations_find_answers_at_the_wrong_time() {
    all_found(
        &[
            ("all answers come at the end", "no answer in time"),
            (
                "the last answer comes with the next line",
                "no answer in time",
            ),
            (
                "of several lines only the first is answered at once",
                "no answer in time",
            ),
            ("half a line is answered", "answered too early"),
            ("silent lines are answered", "answered too early"),
            (
                "the last line is swallowed",
                "(without its line feed)\n  expected:",
            ),
            ("it does not leave", "goes on after the end of its input"),
            ("it leaves with 3", "left with exit status: 3"),
        ],
        fixed_conversations,
    );
}

#[test]
fn the_fuzz_finds_faults_at_the_longest_line_and_at_the_ends_of_blocks() {
    all_found(
        &[
            ("16,384 bytes are too long", "longer than 16384 bytes"),
            ("16,385 bytes are not too long", "longer than 16384 bytes"),
            ("the return is not counted", "longer than 16384 bytes"),
            ("a long comment is passed over", "longer than 16384 bytes"),
            ("the last byte of a full block is lost", "expected:"),
            ("a line ends with a full block", "expected:"),
            ("a line more after a full block", "expected:"),
            ("a return at the end of a full block is lost", "expected:"),
            ("the last line is swallowed", "no answer"),
        ],
        fixed_fuzz,
    );
}

#[test]
fn random_calls_find_refusals_in_a_wrong_order() {
    all_found(
        &[
            ("put: 8 before 7", "answered: refused 8"),
            ("set: 3 before 2", "answered: refused 3"),
            ("trial: 3 before 2", "answered: refused 3"),
            ("quote: 13 before 10", "answered: refused 13"),
            ("maximum: 10 before 13", "answered: refused 10"),
        ],
        first_seed_answered,
    );
}

#[test]
fn random_calls_find_what_is_wrong_with_a_trial() {
    all_found(
        &[
            ("trial: bit code", " trial "),
            ("trial: those that stay", " trial "),
            ("trial: drafts over the cap too", " trial "),
            ("trial: all that are drafts then", " trial "),
            ("trial: judged by the sheet in force", "answered: ok 0"),
            ("trial: judged by the fields in force", " trial "),
            ("trial: judged by the period in force", " trial "),
            ("trial: region 0 alone is looked at", " trial "),
            ("trial: place 32 left out", " trial "),
            ("trial: 2 and 3 exchanged", " trial "),
            ("trial: 10 without a sheet", "answered: refused 10"),
            ("trial: it changes the book", "expected:"),
            ("trial: what would fall is closed", "expected:"),
        ],
        first_seed_answered,
    );
}

/// Each of them in SET alone, and in TRIAL alone.
#[test]
fn random_calls_find_what_is_wrong_with_a_saving() {
    for (fault, says) in [
        ("savings are refused", "answered: refused 2"),
        ("-100,000,001 is allowed", "expected: refused 2"),
        ("-100,000,000 is not allowed", "answered: refused 2"),
        ("a saving is taken for a cost", "expected: "),
        ("a saving in ones' complement", "expected: "),
        ("a saving at m alone", "expected: "),
        ("a saving at nil alone", "expected: "),
        ("14 at nil alone", "expected: refused 14"),
        ("14 at m alone", "expected: refused 14"),
        ("14 for single-rate alone", "expected: refused 14"),
        ("14 for Economy 7 alone", "expected: refused 14"),
        ("no 14", "expected: refused 14"),
        ("14 for an OC of 0", "answered: refused 14"),
        ("14 before 4", "answered: refused 14"),
        ("14 before the terms of PAAC", "answered: refused 14"),
        ("14 after 5", "answered: refused 5"),
    ] {
        for call in ["set", "trial"] {
            all_found(&[(&format!("{call}: {fault}"), says)], first_seed_answered);
        }
    }
}

/// Each of them in SET alone, and in TRIAL alone.
#[test]
fn random_calls_find_what_is_wrong_with_the_split_of_a_sheet() {
    for (fault, says) in [
        ("Economy 7 at 580", "expected: "),
        ("peak and off-peak exchanged", "expected: "),
        ("the peak share in whole percents", "expected: "),
        ("a peak share of 0 is not allowed", "answered: refused 2"),
        (
            "a peak share of 1,000 is not allowed",
            "answered: refused 2",
        ),
        ("a peak share of 1,001 is allowed", "expected: refused 2"),
        (
            "a peak share of up to 10,000 is allowed",
            "expected: refused 2",
        ),
        ("the peak share is not looked at", "expected: refused 2"),
        ("95 numbers are enough", "expected: refused 1"),
        ("a 97th number is passed over", "expected: refused 1"),
        ("2 for the peak share after 3", "answered: refused 3"),
        ("2 for the peak share after 4", "answered: refused 4"),
        ("2 for the peak share after 14", "answered: refused 14"),
        ("2 for the peak share after 5", "answered: refused 5"),
    ] {
        for call in ["set", "trial"] {
            all_found(&[(&format!("{call}: {fault}"), says)], first_seed_answered);
        }
    }
}

#[test]
fn random_calls_find_what_is_wrong_with_a_split() {
    all_found(
        &[
            ("set: open ones judged by the split before", "expected: "),
            ("trial: judged by the split in force", " trial "),
            ("open: Economy 7 at 580", " open "),
            ("quote: Economy 7 at 580", " quote "),
            ("put: Economy 7 goes by its steps", "expected: "),
            ("put: Economy 7 keeps the split in force", "expected: "),
            ("put: two registers are Economy 7", "expected: "),
            ("put: shares in percent are taken", "expected: refused 8"),
            ("put: a share of 1,001 is taken", "expected: refused 8"),
            ("put: shares of 999 are taken", "expected: refused 8"),
            ("open: an excess over 1,200 x m", "expected: refused 11"),
            (
                "open: an excess of kind 1 over 1,200 x m",
                "expected: refused 11",
            ),
            ("quote: a charge over 1,200 x m", "expected: ok"),
            ("quote: a maximum over 1,200 x m", "expected: ok"),
            ("quote: kind 1 over 1,200 x m", "expected: ok"),
            ("quote: kind 3 over 1,200 x m", "expected: ok"),
            ("maximum: over 12,000 x m", "expected: ok"),
            ("maximum: a number over 12,000 x m", "expected: ok"),
        ],
        first_seed_answered,
    );
}

/// Each of them as PUT takes the tariff, and so in all calls, and in each of the others alone.
#[test]
fn random_calls_find_what_is_wrong_with_a_standing_charge_by_region() {
    for fault in [
        "the charge of region 0 everywhere",
        "the charge of the first region everywhere",
        "the highest charge everywhere",
        "the lowest charge everywhere",
        "the number in place of the sum",
        "field 2 alone",
        "numbers from field 12 on",
        "numbers from field 14 on",
    ] {
        for call in ["put", "set", "trial", "open", "quote"] {
            let fault = format!("{call}: {fault}");
            all_found(&[(&fault, "expected: ")], first_seed_answered);
        }
    }
    for call in ["put", "set", "trial", "open", "quote"] {
        let right = format!("{call}: the charge of the region");
        first_seed(&wrong(&right)).unwrap();
    }
}

#[test]
fn random_calls_find_what_is_wrong_with_the_record_of_a_tariff() {
    let taken = "expected: refused 8\n  answered: ok";
    let refused = "expected: ok\n  answered: refused 8";
    all_found(
        &[
            ("put: 13 numbers are enough", taken),
            ("put: 26 numbers are enough", taken),
            ("put: a 28th number is passed over", taken),
            ("put: a number is refused", refused),
            ("put: the record is read from field 12 on", "expected: "),
            ("put: a number in a region not offered is taken", taken),
            (
                "put: a number in a region not offered is taken if the sum is",
                taken,
            ),
            ("put: a sum of 1,000,000 is refused", refused),
            ("put: a sum of 1,000,001 is taken", taken),
            ("put: the sum in the first region alone", taken),
            ("put: the sum in all regions but the first", taken),
            ("put: the sum in all regions but the last", taken),
            ("put: the numbers in place of the sums", taken),
            ("put: sums that go round at 2^32", taken),
            (
                "put: sums that go round, if field 2 is above its range",
                taken,
            ),
        ],
        first_seed_answered,
    );
    for region in 0..14 {
        let fault = format!("put: a number is taken in region {region}");
        all_found(&[(&fault, taken)], first_seed_answered);
    }
}

#[test]
fn random_calls_find_what_is_wrong_with_an_undo() {
    all_found(
        &[
            (
                "undo: 15 to every undo",
                "expected: ok\n  answered: refused 15",
            ),
            ("undo: no refusal", "expected: refused 15\n  answered: ok"),
            ("undo: what fell stays a draft", "expected: "),
            ("undo: of what fell one stays a draft", "expected: "),
            ("undo: drafts are opened", "expected: "),
            ("undo: the first sheet stays in force", "expected: "),
            ("undo: the new sheet is kept", "expected: "),
            ("undo: the new period is kept", "expected: "),
            ("undo: the new fields are kept", "expected: "),
            ("undo: the book is emptied", "expected: "),
            (
                "undo: two steps are kept",
                "expected: refused 15\n  answered: ok",
            ),
            (
                "undo: a chance is left",
                "expected: refused 15\n  answered: ok",
            ),
        ],
        first_seed_answered,
    );
    // The copies of the book by which the others go wrong are not what is found.
    first_seed(&wrong("undo: nothing is wrong")).unwrap();
}

#[test]
fn random_calls_find_a_chance_to_undo_that_lasts_too_long_or_not_long_enough() {
    let taken = "expected: refused 15\n  answered: ok";
    let refused = "expected: ok\n  answered: refused 15";
    for call in ["put", "open", "ask", "close", "drop", "direct"] {
        let fault = format!("undo: the chance survives an accepted {call}");
        all_found(&[(&fault, taken)], first_seed_answered);
    }
    // There is none when a CONFIRM is accepted: SET clears the marks, and ASK ends the chance.
    first_seed(&wrong("undo: the chance survives an accepted confirm")).unwrap();
    for call in [
        "put", "open", "ask", "confirm", "close", "drop", "set", "trial", "quote", "direct",
        "rebate",
    ] {
        let fault = format!("undo: the chance ends by a refused {call}");
        all_found(&[(&fault, refused)], first_seed_answered);
        let fault = format!("undo: a refused {call} makes a chance");
        all_found(&[(&fault, taken)], first_seed_answered);
    }
    for call in ["trial", "benchmark", "maximum", "quote", "rebate"] {
        let fault = format!("undo: the chance ends by an accepted {call}");
        all_found(&[(&fault, refused)], first_seed_answered);
        let fault = format!("undo: an accepted {call} makes a chance");
        all_found(&[(&fault, taken)], first_seed_answered);
    }
    for call in ["ask", "confirm", "direct"] {
        let fault = format!("undo: an accepted {call} makes a chance");
        all_found(&[(&fault, taken)], first_seed_answered);
    }
}

/// What the answers say where a mark is missing, and where one is there that should not be.
const LOST: &str = "expected: ok";
const LEFT: &str = "expected: refused 16\n  answered: ok";

/// Faults of ASK and CONFIRM that show on one code, and so in the short lists too.
const OF_ONE_CODE: [(&str, &str); 28] = [
    ("confirm: no 16", LEFT),
    (
        "confirm: 16 before 7",
        "expected: refused 7\n  answered: refused 16",
    ),
    (
        "confirm: 16 before 9",
        "expected: refused 9\n  answered: refused 16",
    ),
    (
        "confirm: 10 before 16",
        "expected: refused 16\n  answered: refused 10",
    ),
    (
        "confirm: 11 before 16",
        "expected: refused 16\n  answered: refused 11",
    ),
    ("confirm: it answers no cells", LOST),
    ("confirm: it leaves a draft", "expected: "),
    ("ask: no 11", "expected: refused 11"),
    ("ask: no 10", "expected: refused 10"),
    ("ask: no 7", "expected: refused 7"),
    (
        "ask: 10 before 9",
        "expected: refused 9\n  answered: refused 10",
    ),
    ("ask: no figures with 11", "expected: refused 11"),
    ("ask: it answers no cells", LOST),
    ("ask: it opens", "answered: refused 7"),
    (
        "marks: a marked draft is not asked for again",
        "answered: refused 7",
    ),
    ("marks: a marked draft is not opened", "answered: refused 7"),
    (
        "marks: a marked draft is not put over",
        "answered: refused 7",
    ),
    (
        "marks: a marked draft is not dropped",
        "answered: refused 7",
    ),
    (
        "marks: a marked draft is closed",
        "expected: refused 12\n  answered: ok",
    ),
    ("marks: a mark survives set", LEFT),
    ("marks: a mark survives a set of the sheet in force", LEFT),
    (
        "marks: a mark survives a set under which the draft is within the cap",
        LEFT,
    ),
    ("marks: a mark survives put", LEFT),
    ("marks: a mark survives drop and then put", LEFT),
    ("marks: a mark survives open", LEFT),
    ("marks: a mark survives confirm", LEFT),
    ("marks: ask takes a mark away", LOST),
    ("marks: undo loses the marks", LOST),
];

#[test]
fn random_calls_find_what_is_wrong_with_ask_and_confirm() {
    all_found(&OF_ONE_CODE, first_seed_answered);
    all_found(
        &[
            ("confirm: 16 before 6", "expected: refused 6"),
            ("confirm: it answers 28 cells", LOST),
            ("confirm: it answers the regions", LOST),
            ("ask: 10 before 6", "expected: refused 6"),
            ("ask: it answers 28 cells", LOST),
            ("ask: it answers the regions", LOST),
            ("ask: region 0 alone is looked at", "expected: refused 11"),
            ("marks: a marked draft is not quoted", "answered: refused 9"),
            ("marks: a trial tells marked drafts", " trial "),
            ("marks: a mark survives a set by which none fall", LEFT),
            ("marks: set clears the mark of code 1 alone", LEFT),
            ("marks: set clears all marks but that of code 1", LEFT),
            ("marks: set clears all marks but that of code 32", LEFT),
            ("marks: the next code is marked too", LEFT),
            ("marks: the code before is marked too", LEFT),
            ("marks: the next code is marked", "expected: "),
            ("marks: one mark is kept at a time", LOST),
            ("marks: undo brings back one mark", LOST),
            ("marks: undo brings back older marks", LEFT),
            ("marks: undo marks all drafts", LEFT),
            (
                "marks: what was confirmed stays open at a set",
                "expected: ",
            ),
            ("marks: a trial does not tell what was confirmed", " trial "),
            ("marks: undo does not open what was confirmed", "expected: "),
            ("marks: a refused put clears the mark of its code", LOST),
            ("marks: a refused close clears the mark of its code", LOST),
        ],
        first_seed_answered,
    );
    // An empty place shows no mark, and PUT clears it in any case.
    first_seed(&wrong("marks: a mark survives drop")).unwrap();
    // The marks that the desks above go by are not what is found.
    first_seed(&wrong("marks: nothing is wrong")).unwrap();
}

#[test]
fn random_calls_find_a_call_that_clears_all_marks() {
    let calls = [
        "put",
        "open",
        "ask",
        "confirm",
        "close",
        "drop",
        "trial",
        "benchmark",
        "maximum",
        "quote",
    ];
    for call in calls.into_iter().chain(["set", "undo"]) {
        let fault = format!("marks: a refused {call} clears all marks");
        all_found(&[(&fault, LOST)], first_seed_answered);
    }
    for call in calls {
        let fault = format!("marks: an accepted {call} clears all marks");
        all_found(&[(&fault, LOST)], first_seed_answered);
    }
}

#[test]
fn short_lists_find_what_is_wrong_with_ask_and_confirm() {
    all_found(&OF_ONE_CODE, short_lists);
    let taken = "expected: refused 15\n  answered: ok";
    let refused = "expected: ok\n  answered: refused 15";
    all_found(
        &[
            ("undo: the chance survives an accepted ask", taken),
            ("undo: the chance ends by a refused ask", refused),
            ("undo: the chance ends by a refused confirm", refused),
            ("undo: an accepted ask makes a chance", taken),
            ("undo: an accepted confirm makes a chance", taken),
            ("marks: undo brings back older marks", LEFT),
            ("marks: a refused close clears the mark of its code", LOST),
            ("marks: a refused undo clears all marks", LOST),
        ],
        short_lists,
    );
}

const TO_0_CELLS: &str = "answered: ok 0";
const OF_0_CELLS: &str = "expected: ok 0";

/// What is wrong with directions, and what the answers say. Short lists find these too.
const OF_DIRECTIONS: [(&str, &str); 27] = [
    ("set makes drafts of them", "expected: "),
    ("it survives put", TO_0_CELLS),
    ("it survives drop", TO_0_CELLS),
    ("confirm without 16", TO_0_CELLS),
    ("28 cells", "expected: ok 0\n  answered: ok 28"),
    ("no cells", OF_0_CELLS),
    ("open answers cells", OF_0_CELLS),
    ("ask answers cells", OF_0_CELLS),
    ("confirm answers cells", OF_0_CELLS),
    ("cells within the cap", OF_0_CELLS),
    ("confirm answers what ask did", OF_0_CELLS),
    ("11 all the same", "expected: ok 0\n  answered: refused 11 "),
    ("close ends it", OF_0_CELLS),
    ("set ends them", "expected: ok 0"),
    ("undo ends them", "expected: ok 0"),
    ("open ends it", "expected: "),
    ("ask ends it", OF_0_CELLS),
    ("confirm ends it", "expected: "),
    ("it clears the mark", "answered: refused 16"),
    ("it marks the draft", "expected: refused 16"),
    (
        "the chance survives it",
        "expected: refused 15\n  answered: ok",
    ),
    (
        "a refused one ends the chance",
        "expected: ok\n  answered: refused 15",
    ),
    ("what fell is open again", "expected: "),
    ("not given twice", "expected: ok\n  answered: refused 7"),
    (
        "not to a marked draft",
        "expected: ok\n  answered: refused 7",
    ),
    ("no 7", "expected: refused 7\n  answered: ok"),
    ("no 9", "expected: refused 9\n  answered: ok"),
];

#[test]
fn random_calls_find_what_is_wrong_with_directions() {
    for (fault, says) in OF_DIRECTIONS {
        let fault = format!("directions: {fault}");
        all_found(&[(&fault, says)], first_seed_answered);
    }
    for (fault, says) in [
        ("a desk of one region may give one", "expected: refused 17"),
        ("every desk may give one", "expected: refused 17"),
        (
            "a desk that may use the code may give one",
            "expected: refused 17",
        ),
        ("open without 10", TO_0_CELLS),
        ("ask without 10", TO_0_CELLS),
        ("10 without a sheet", "answered: refused 10"),
        ("no 6", "expected: refused 6\n  answered: ok"),
        ("9 before 6", "expected: refused 6\n  answered: refused 9"),
        ("not within the cap", "answered: refused 11"),
        ("a trial tells them", " trial "),
        ("close is refused", "answered: refused 12"),
        ("quote is refused", "answered: refused 13"),
        ("a refused put ends it", "expected: "),
        ("a refused drop ends it", "expected: "),
        ("a refused close ends it", "expected: "),
        ("the next code has it", TO_0_CELLS),
        ("code 32 never has it", "expected: "),
    ] {
        let fault = format!("directions: {fault}");
        all_found(&[(&fault, says)], first_seed_answered);
    }
    first_seed(&wrong("directions: nothing is wrong")).unwrap();
}

#[test]
fn short_lists_find_what_is_wrong_with_directions() {
    for (fault, says) in OF_DIRECTIONS {
        let fault = format!("directions: {fault}");
        all_found(&[(&fault, says)], short_lists);
    }
    let fault = "directions: a desk that may use the code may give one";
    all_found(&[(fault, "expected: refused 17")], short_lists_with_desks);
}

/// What is wrong with rebate runs, and what the answers say.
const OF_REBATES: [(&str, &str); 42] = [
    ("rounded down", "expected: ok"),
    ("rounded to the nearest", "expected: ok"),
    ("a mill more where nothing is to be rounded", "expected: ok"),
    ("a mill at the cap", "expected: ok"),
    ("below the cap it is owed too", "expected: ok"),
    ("the maximum of the other method", "expected: ok"),
    ("the maximum of region 0", "expected: ok"),
    ("the charge alone", "expected: ok"),
    ("rebates of 32 bits", "expected: ok"),
    ("an account twice is owed once", "expected: ok"),
    ("the total of the first account alone", "expected: ok"),
    ("the total without the last account", "expected: ok"),
    ("a total of 32 bits", "expected: ok"),
    ("the total at the end", "expected: ok"),
    ("no rebates", "expected: ok"),
    ("a month past the count is tested", "answered: refused 19"),
    ("a month past the count is read", "expected: ok"),
    ("the last month is not read", "expected: ok"),
    ("the count is not looked at", "expected: refused 19"),
    ("a count of 13 and more is twelve", "expected: refused 19"),
    ("a count in 8 bits", "expected: refused 19"),
    ("a month of 10,001 is taken", "expected: refused 19"),
    ("18 before 19", "answered: refused 18"),
    (
        "18 where it comes first in the list",
        "answered: refused 18",
    ),
    ("19 where 18 is meant", "expected: refused 18"),
    ("19 at the last refused place", "expected: refused 19"),
    ("18 at the last refused place", "expected: refused 18"),
    ("places from 1", "expected: refused 1"),
    ("places in numbers", "expected: refused 1"),
    ("no place", "expected: refused 1"),
    ("the refusal of quote", "expected: refused 19"),
    ("no 19 for 17", "expected: refused 19"),
    ("17 to every part desk", "answered: refused 17"),
    ("17 for the list of no account", "expected: ok 0"),
    ("19 for the list of no account", "expected: ok 0"),
    (
        "a draft under a direction is enough",
        "expected: refused 18",
    ),
    ("an open tariff is enough", "expected: refused 18"),
    ("no 18", "expected: refused 18"),
    ("the first account alone is tested", "expected: refused 18"),
    ("at most 499 accounts", "answered: refused 19 499"),
    ("at most 255 accounts", "answered: refused 19 255"),
    ("the run ends the chance", "answered: refused 15"),
];

#[test]
fn random_calls_find_what_is_wrong_with_rebates() {
    for (fault, says) in OF_REBATES {
        let fault = format!("rebates: {fault}");
        all_found(&[(&fault, says)], first_seed_answered);
    }
    first_seed(&wrong("rebates: nothing is wrong")).unwrap();
}

/// A line holds 511.
#[test]
fn the_fuzz_finds_runs_that_are_too_short() {
    for count in [510, 499] {
        let fault = format!("rebates: at most {count} accounts");
        let says = format!("answered: refused 19 {count}");
        all_found(&[(&fault, &says)], fixed_fuzz);
    }
}

/// The refusals of each call, in their order.
const ORDERS: [(&str, &[u32]); 13] = [
    ("set", &[17, 1, 2, 3, 4, 14, 5]),
    ("trial", &[17, 1, 2, 3, 4, 14, 5]),
    ("undo", &[17, 15]),
    ("put", &[6, 7, 8, 17]),
    ("open", &[6, 9, 17, 7, 10, 11]),
    ("ask", &[6, 9, 17, 7, 10, 11]),
    ("confirm", &[6, 9, 17, 7, 16]),
    ("close", &[6, 9, 17, 12]),
    ("drop", &[6, 9, 17, 7]),
    ("benchmark", &[13, 17, 10]),
    ("maximum", &[13, 17, 10]),
    ("quote", &[6, 9, 10, 13, 17]),
    ("direct", &[17, 6, 9, 7]),
];

/// 17 before one of the refusals that come before it, or after one of those that come after it.
#[test]
fn random_calls_find_17_in_a_wrong_place() {
    for (call, order) in ORDERS {
        let right = order.iter().position(|&number| number == 17).unwrap();
        for (place, number) in order
            .iter()
            .enumerate()
            .filter(|(place, _)| *place != right)
        {
            let [fault, says] = if place < right {
                let says = format!("expected: refused {number}\n  answered: refused 17");
                [format!("desks: {call}, 17 before {number}"), says]
            } else {
                let says = format!("expected: refused 17\n  answered: refused {number}");
                [format!("desks: {call}, 17 after {number}"), says]
            };
            all_found(&[(&fault, &says)], first_seed_answered);
        }
        for change in ["17 first", "17 last"] {
            let is_so = match change {
                "17 first" => right == 0,
                _ => right + 1 == order.len(),
            };
            if !is_so {
                let fault = format!("desks: {call}, {change}");
                all_found(&[(&fault, "refused 17")], first_seed_answered);
            }
        }
        let fault = format!("desks: {call}, no 17");
        all_found(&[(&fault, "expected: refused 17")], first_seed_answered);
    }
    // By this table, and not by the book, 17 comes where it should.
    first_seed(&wrong("desks: nothing is wrong")).unwrap();
}

#[test]
fn random_calls_find_17_to_every_part_desk() {
    for call in [
        "put",
        "open",
        "ask",
        "confirm",
        "close",
        "drop",
        "benchmark",
        "maximum",
        "quote",
    ] {
        let fault = format!("desks: {call}, 17 to every part desk");
        all_found(&[(&fault, "answered: refused 17")], first_seed_answered);
    }
}

/// What is wrong with the regions of a desk, and what the answers say.
const OF_REGIONS: [(&str, &str); 36] = [
    ("the last desk stays", "answered: refused 17"),
    ("without a desk there is none", "answered: refused 17"),
    ("0 is all fourteen", "expected: refused 17"),
    ("0 may use every code", "expected: refused 17"),
    ("0 may query", "expected: refused 17"),
    ("16,384 is all fourteen", "expected: refused 17"),
    ("32,767 is all fourteen", "expected: refused 17"),
    ("4,294,967,295 is all fourteen", "expected: refused 17"),
    ("a higher bit is passed over", "expected: refused 17"),
    (
        "a higher bit is passed over on codes",
        "expected: refused 17",
    ),
    (
        "a higher bit is passed over in questions",
        "expected: refused 17",
    ),
    ("a desk of 16 bits", "expected: refused 17"),
    ("a desk of 31 bits", "expected: refused 17"),
    ("part desks are never allowed", "answered: refused 17"),
    (
        "all but one may use set, trial and undo",
        "expected: refused 17",
    ),
    ("all but one may use set", "expected: refused 17"),
    (
        "every part desk may use set, trial and undo",
        "expected: refused 17",
    ),
    ("the bits are one too high", "refused 17"),
    ("the bits are one too low", "refused 17"),
    ("the bits are the other way round", "refused 17"),
    ("a part desk may query every region", "expected: refused 17"),
    ("the region beside it is asked for", "refused 17"),
    ("overlap is enough", "expected: refused 17"),
    ("the first region decides", "expected: refused 17"),
    ("the last region decides", "expected: refused 17"),
    (
        "the desk inside the tariff is enough",
        "expected: refused 17",
    ),
    (
        "only a tariff in all its regions is inside",
        "answered: refused 17",
    ),
    (
        "as many regions as the tariff has are enough",
        "expected: refused 17",
    ),
    ("put looks at the new tariff alone", "expected: refused 17"),
    ("put looks at the old draft alone", "expected: refused 17"),
    (
        "put looks at the new tariff where there is no old draft",
        "expected: refused 17",
    ),
    ("put is content with one of the two", "expected: refused 17"),
    (
        "put looks at both as one set that overlaps",
        "expected: refused 17",
    ),
    ("quote looks at its region alone", "expected: refused 17"),
    ("no cells to a part desk", "expected: ok"),
    ("no figures with 11 to a part desk", "expected: refused 11"),
];

#[test]
fn random_calls_find_what_is_wrong_with_the_regions_of_a_desk() {
    for (fault, says) in OF_REGIONS {
        let fault = format!("desks: {fault}");
        all_found(&[(&fault, says)], first_seed_answered);
    }
    for region in 0..14 {
        let fault = format!("desks: region {region} is not looked at");
        all_found(&[(&fault, "expected: refused 17")], first_seed_answered);
    }
    let fault = "desks: 17 where 9 is meant, for a part desk";
    all_found(&[(fault, "expected: refused 9")], first_seed_answered);
}

/// What one desk's calls are to another's.
const OF_SEVERAL_DESKS: [(&str, &str); 8] = [
    (
        "the chance survives a part desk's calls",
        "expected: refused 15\n  answered: ok",
    ),
    (
        "a call refused 17 ends the chance",
        "expected: ok\n  answered: refused 15",
    ),
    (
        "a call refused 17 makes a chance",
        "expected: refused 15\n  answered: ok",
    ),
    (
        "a mark is there for the desk that asked alone",
        "answered: refused 16",
    ),
    ("a part desk marks nothing", "answered: refused 16"),
    ("a call refused 17 clears the mark", "answered: refused 16"),
    ("a part desk's put keeps the mark", LEFT),
    ("what a part desk opened stays open at a set", "expected: "),
];

#[test]
fn random_calls_find_what_is_wrong_between_desks() {
    for (fault, says) in OF_SEVERAL_DESKS {
        let fault = format!("desks: {fault}");
        all_found(&[(&fault, says)], first_seed_answered);
    }
    let fault = "desks: the chance ends by a part desk's questions";
    all_found(&[(fault, "answered: refused 15")], first_seed_answered);
}

/// The difference may be that there is no answer, and then that of the next line.
#[test]
fn random_calls_find_what_is_wrong_with_a_line_of_a_desk() {
    let takes = ": desk takes a number and a call";
    let word = "is not a number from 0 to 4294967295";
    for (fault, says) in [
        ("DESK is desk", ": unknown call\n"),
        ("words are counted from the call", word),
        ("a second desk is taken", ": unknown call\n"),
        ("a comment behind a desk is passed over", ": unknown call\n"),
        ("a desk without a call is passed over", takes),
        ("a desk without a call is an unknown call", takes),
        ("a desk without a number is an unknown call", takes),
        ("the number of a desk is word 2", takes),
        ("an unknown call comes before its desk", takes),
        (
            "its numbers come before an unknown call",
            ": unknown call\n",
        ),
        ("a count comes before a word that is no number", word),
        (
            "the desk's number is one of the call's",
            " takes 1 number\n",
        ),
        ("2^32 is desk 0", takes),
        ("zeros before a desk are no number", takes),
        ("the desk's words are passed over", "expected: "),
    ] {
        let fault = format!("desks: {fault}");
        all_found(&[(&fault, says)], first_seed);
    }
}

#[test]
fn short_lists_find_what_is_wrong_with_desks() {
    for (call, refusals) in [
        ("open", &["17 before 9", "17 after 7", "17 after 11"][..]),
        ("ask", &["17 before 9", "17 after 7", "17 after 11"]),
        ("confirm", &["17 after 7", "17 after 16"]),
        ("close", &["17 after 12"]),
        ("drop", &["17 after 7"]),
        ("put", &["17 before 7"]),
        ("quote", &["17 before 13"]),
        ("undo", &["17 after 15"]),
    ] {
        for change in refusals.iter().chain(&["no 17"]) {
            // At an empty place nothing is outside a desk that is one.
            if *change == "17 before 9" {
                continue;
            }
            let fault = format!("desks: {call}, {change}");
            all_found(&[(&fault, "refused 17")], short_lists_with_desks);
        }
    }
    for (fault, says) in OF_SEVERAL_DESKS {
        let fault = format!("desks: {fault}");
        all_found(&[(&fault, says)], short_lists_with_desks);
    }
    for fault in [
        "overlap is enough",
        "put looks at the new tariff alone",
        "put looks at the old draft alone",
        "put is content with one of the two",
        "the first region decides",
        "the last region decides",
        "the desk inside the tariff is enough",
    ] {
        let fault = format!("desks: {fault}");
        all_found(&[(&fault, "expected: refused 17")], short_lists_with_desks);
    }
    let right = wrong("desks: nothing is wrong");
    short_lists_with_desks(&right).unwrap();
}

/// The two books of the program itself give a desk what it may not see.
#[test]
fn pairs_of_books_find_what_a_desk_may_not_see() {
    let says = "expected, as from the other book: ";
    for fault in [
        "open, no 17",
        "open, 17 after 11",
        "ask, no 17",
        "ask, 17 after 11",
        "benchmark, no 17",
        "maximum, no 17",
        "quote, no 17",
        "a part desk may query every region",
        "the region beside it is asked for",
        "overlap is enough",
        "the first region decides",
    ] {
        let fault = format!("desks: {fault}");
        all_found(&[(&fault, says)], fixed_pairs_of_books);
    }
    // Wrong, but alike in both books.
    let says = "\n  expected: ";
    for fault in [
        "open, 17 after 7",
        "close, 17 after 12",
        "put looks at the new tariff alone",
        "quote looks at its region alone",
        "part desks are never allowed",
    ] {
        let fault = format!("desks: {fault}");
        all_found(&[(&fault, says)], first_pairs);
    }
    first_pairs(&wrong("desks: nothing is wrong")).unwrap();
}

fn fixed_pairs_of_books(program: &Program) -> Result<(), String> {
    fixed_pairs(program).map(drop)
}

/// Found where the same script without desks is answered rightly.
#[test]
fn a_script_with_desk_16383_before_each_call_finds_what_is_wrong_with_desks() {
    let part: Part = |program| calls_without_desks(program, 10, CALLS / 10).map(drop);
    let says = "each call by desk 16383";
    all_found(
        &[
            ("desks: words are counted from the call", says),
            ("desks: 16,383 is not all fourteen", says),
            ("desks are not known", says),
        ],
        part,
    );
}

#[test]
fn the_comparison_ends_whatever_the_program_does() {
    let parts: [Part; 4] = [fixed_conversations, fixed_fuzz, first_seed, first_pairs];
    for fault in [
        "it leaves at once",
        "it reads nothing",
        "it answers without end",
        "it answers nothing",
        "it does not leave",
    ] {
        for part in parts {
            let start = Instant::now();
            part(&wrong(fault)).expect_err(fault);
            assert!(start.elapsed() < Duration::from_secs(30), "{fault}");
        }
    }
    first_seed(&Program::new("/no/such/program")).unwrap_err();
}
