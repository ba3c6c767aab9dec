//! `include/slatewhim.h`, by hand.

/// Words of a book.
pub const WORDS: usize = 1279;
/// Numbers of a sheet.
pub const FIELDS: usize = 96;
/// Numbers of a tariff.
pub const RECORD: usize = 27;
/// A desk with all fourteen regions.
pub const ALL_REGIONS: u32 = 16383;
/// The words are no book.
pub const NO_BOOK: u32 = 100;

/// What OPEN, ASK and CONFIRM answer.
#[repr(C)]
#[derive(Clone, Copy, Debug, Default, PartialEq, Eq)]
pub struct Opened {
    pub refusal: u32,
    pub cells: u32,
    pub region: u32,
    pub method: u32,
    pub excess: u64,
    pub t: u32,
    pub months: [u32; 12],
}

/// What TRIAL answers.
#[repr(C)]
#[derive(Clone, Copy, Debug, Default, PartialEq, Eq)]
pub struct Falling {
    pub refusal: u32,
    pub codes: u32,
}

/// What BENCHMARK answers.
#[repr(C)]
#[derive(Clone, Copy, Debug, Default, PartialEq, Eq)]
pub struct Charge {
    pub refusal: u32,
    pub mills: u32,
}

/// What MAXIMUM answers.
#[repr(C)]
#[derive(Clone, Copy, Debug, Default, PartialEq, Eq)]
pub struct Fraction {
    pub refusal: u32,
    pub number: u64,
    pub denominator: u64,
}

/// What QUOTE answers.
#[repr(C)]
#[derive(Clone, Copy, Debug, Default, PartialEq, Eq)]
pub struct Quotation {
    pub refusal: u32,
    pub charge: u64,
    pub maximum: u64,
}

/// An account of a rebate run.
#[repr(C)]
#[derive(Clone, Copy, Debug, Default, PartialEq, Eq)]
pub struct Account {
    pub code: u32,
    pub region: u32,
    pub method: u32,
    pub count: u32,
    pub months: [u32; 12],
    pub rebate: u64,
}

/// What a rebate run answers.
#[repr(C)]
#[derive(Clone, Copy, Debug, Default, PartialEq, Eq)]
pub struct Run {
    pub refusal: u32,
    pub place: u64,
    pub total: u64,
}

extern "C" {
    pub fn slatewhim_fresh(book: *mut u32, words: usize) -> u32;
    pub fn slatewhim_check(book: *const u32, words: usize) -> u32;
    pub fn slatewhim_set(
        book: *mut u32,
        words: usize,
        desk: u32,
        fields: *const u32,
        count: usize,
        year: u32,
        month: u32,
        months: u32,
    ) -> u32;
    pub fn slatewhim_trial(
        book: *const u32,
        words: usize,
        desk: u32,
        fields: *const u32,
        count: usize,
        year: u32,
        month: u32,
        months: u32,
    ) -> Falling;
    pub fn slatewhim_undo(book: *mut u32, words: usize, desk: u32) -> u32;
    pub fn slatewhim_put(
        book: *mut u32,
        words: usize,
        desk: u32,
        code: u32,
        tariff: *const u32,
        count: usize,
    ) -> u32;
    pub fn slatewhim_open(book: *mut u32, words: usize, desk: u32, code: u32) -> Opened;
    pub fn slatewhim_ask(book: *mut u32, words: usize, desk: u32, code: u32) -> Opened;
    pub fn slatewhim_confirm(book: *mut u32, words: usize, desk: u32, code: u32) -> Opened;
    pub fn slatewhim_close(book: *mut u32, words: usize, desk: u32, code: u32) -> u32;
    pub fn slatewhim_drop(book: *mut u32, words: usize, desk: u32, code: u32) -> u32;
    pub fn slatewhim_direct(book: *mut u32, words: usize, desk: u32, code: u32) -> u32;
    pub fn slatewhim_benchmark(
        book: *const u32,
        words: usize,
        desk: u32,
        region: u32,
        arrangement: u32,
        method: u32,
        level: u32,
    ) -> Charge;
    pub fn slatewhim_maximum(
        book: *const u32,
        words: usize,
        desk: u32,
        region: u32,
        arrangement: u32,
        method: u32,
        total: u32,
    ) -> Fraction;
    pub fn slatewhim_quote(
        book: *const u32,
        words: usize,
        desk: u32,
        code: u32,
        region: u32,
        method: u32,
        months: *const u32,
        count: usize,
    ) -> Quotation;
    pub fn slatewhim_rebates(
        book: *const u32,
        words: usize,
        desk: u32,
        accounts: *mut Account,
        count: usize,
    ) -> Run;
}

#[cfg(test)]
mod tests {
    //! The header says the same, word for word.

    use std::mem::{align_of, size_of};

    const HEADER: &str = include_str!("../../../../include/slatewhim.h");
    const BY_HAND: &str = include_str!("header.rs");

    /// Without comments, lines of the preprocessor and the braces of C++.
    fn declarations() -> Vec<String> {
        let mut text = String::new();
        let mut rest = HEADER;
        while let Some((before, comment)) = rest.split_once("/*") {
            text.push_str(before);
            rest = comment.split_once("*/").expect("the end of a comment").1;
        }
        text.push_str(rest);
        let lines = text.lines().filter(|line| {
            let line = line.trim();
            !line.starts_with('#') && !line.starts_with("extern") && line != "}"
        });
        let text: Vec<&str> = lines.flat_map(str::split_whitespace).collect();
        let text = text.join(" ").replace("{ ", "{").replace("; }", "}");
        // A struct has semicolons of its own; they are between its braces.
        let mut declarations = vec![String::new()];
        let mut inside = false;
        for letter in text.chars() {
            match letter {
                '{' => inside = true,
                '}' => inside = false,
                _ => {}
            }
            if letter == ';' && !inside {
                declarations.push(String::new());
            } else {
                declarations.last_mut().expect("the last").push(letter);
            }
        }
        let declarations = declarations.iter().map(|one| one.trim().to_string());
        declarations.filter(|one| !one.is_empty()).collect()
    }

    /// A type of C in Rust.
    fn in_rust(kind: &str) -> String {
        match kind {
            "uint32_t" => "u32".to_string(),
            "uint64_t" => "u64".to_string(),
            "size_t" => "usize".to_string(),
            "const uint32_t *" => "*const u32".to_string(),
            "uint32_t *" => "*mut u32".to_string(),
            "slatewhim_account *" => "*mut Account".to_string(),
            _ => {
                let name = kind.strip_prefix("slatewhim_").expect("a struct");
                let (first, rest) = name.split_at(1);
                first.to_uppercase() + rest
            }
        }
    }

    /// The parameter or part `uint32_t *book` as `book: *mut u32`.
    fn part_in_rust(part: &str) -> String {
        let part = part.trim();
        let start = part.rfind([' ', '*']).expect("a type and a name") + 1;
        let (kind, name) = (part[..start].trim(), &part[start..]);
        match name.strip_suffix("[12]") {
            Some(name) => format!("{name}: [{}; 12]", in_rust(kind)),
            None => format!("{name}: {}", in_rust(kind)),
        }
    }

    fn words(text: &str) -> String {
        let text: Vec<&str> = text.split_whitespace().collect();
        let text = text.join(" ");
        text.replace("( ", "(")
            .replace(", )", ")")
            .replace(", }", " }")
    }

    #[test]
    fn the_declarations_are_those_of_the_header() {
        let by_hand = words(BY_HAND);
        let (mut structs, mut functions) = (0, 0);
        for declaration in declarations() {
            if let Some(of) = declaration.strip_prefix("typedef struct ") {
                let (name, rest) = of.split_once(" {").expect("a brace");
                let (parts, again) = rest.split_once('}').expect("a brace");
                assert_eq!(name, again.trim());
                let parts = parts.split(';').filter(|part| !part.trim().is_empty());
                let parts: Vec<String> = parts
                    .map(|part| format!("pub {}", part_in_rust(part)))
                    .collect();
                let wanted = format!("pub struct {} {{ {} }}", in_rust(name), parts.join(", "));
                assert!(by_hand.contains(&wanted), "not here: {wanted}");
                structs += 1;
            } else {
                let (head, parts) = declaration.split_once('(').expect("a function");
                let (answer, name) = head.split_once(' ').expect("a name");
                let parts = parts.strip_suffix(')').expect("the end of the parameters");
                let parts: Vec<String> = parts.split(',').map(part_in_rust).collect();
                let wanted = format!(
                    "pub fn {name}({}) -> {};",
                    parts.join(", "),
                    in_rust(answer)
                );
                assert!(by_hand.contains(&wanted), "not here: {wanted}");
                functions += 1;
            }
        }
        assert_eq!((structs, functions), (7, 16));
        let declared = by_hand.split("#[cfg(test)]").next().expect("the beginning");
        assert_eq!(declared.matches("pub fn slatewhim_").count(), functions);
    }

    #[test]
    fn the_constants_are_those_of_the_header() {
        let constant = |name: &str| -> u64 {
            let mut lines = HEADER.lines();
            let line = lines
                .find(|line| line.starts_with(&format!("#define SLATEWHIM_{name} ")))
                .expect(name);
            let value = line.split_whitespace().nth(2).expect(name);
            value.trim_end_matches('u').parse().expect(name)
        };
        assert_eq!(constant("WORDS"), super::WORDS as u64);
        assert_eq!(constant("FIELDS"), super::FIELDS as u64);
        assert_eq!(constant("RECORD"), super::RECORD as u64);
        assert_eq!(constant("ALL_REGIONS"), super::ALL_REGIONS.into());
        assert_eq!(constant("NO_BOOK"), super::NO_BOOK.into());
        assert_eq!(super::FIELDS, second::FIELDS);
        assert_eq!(super::RECORD, second::RECORD);
    }

    #[test]
    fn sizes() {
        assert_eq!(size_of::<super::Opened>(), 80);
        assert_eq!(size_of::<super::Falling>(), 8);
        assert_eq!(size_of::<super::Charge>(), 8);
        assert_eq!(size_of::<super::Fraction>(), 24);
        assert_eq!(size_of::<super::Quotation>(), 24);
        assert_eq!(size_of::<super::Account>(), 72);
        assert_eq!(size_of::<super::Run>(), 24);
        assert_eq!(align_of::<super::Account>(), 8);
    }
}
