//! The example scripts and their answers.

use std::fs::read;
use std::path::{Path, PathBuf};

use second::desk::Desk;

fn run(input: &[u8]) -> String {
    let mut desk = Desk::new();
    let mut out = Vec::new();
    desk.feed(input, &mut out);
    desk.finish(&mut out);
    String::from_utf8(out).unwrap()
}

/// The scripts of the folder.
fn scripts() -> Vec<PathBuf> {
    let folder = Path::new(env!("CARGO_MANIFEST_DIR")).join("../../examples");
    let files = folder.read_dir().unwrap().map(|file| file.unwrap().path());
    let mut scripts: Vec<_> = files
        .filter(|path| path.extension().is_some_and(|end| end == "txt"))
        .collect();
    scripts.sort();
    scripts
}

#[test]
fn each_script_answers_as_stored() {
    let scripts = scripts();
    for name in ["reference.txt", "directions.txt", "errors.txt"] {
        assert!(scripts.iter().any(|path| path.ends_with(name)), "{name}");
    }
    for path in scripts {
        let stored = String::from_utf8(read(path.with_extension("out")).unwrap()).unwrap();
        assert_eq!(run(&read(&path).unwrap()), stored, "{}", path.display());
    }
}

/// Where a script says above each call what to expect.
#[test]
fn scripts_answer_as_their_comments_expect() {
    let mut with_comments = 0;
    for path in scripts() {
        let script = read(&path).unwrap();
        let text = String::from_utf8_lossy(&script);
        let lines = text.lines();
        let expected: Vec<&str> = lines
            .filter_map(|line| line.strip_prefix("# expect: "))
            .collect();
        if !expected.is_empty() {
            let answers = run(&script);
            let answers: Vec<&str> = answers.lines().collect();
            assert_eq!(answers, expected, "{}", path.display());
            with_comments += 1;
        }
    }
    assert!(with_comments > 0);
}
