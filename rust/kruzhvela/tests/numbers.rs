//! The numbers of refusal are those of the requirements, in the wrapper and in the header for C.

use kruzhvela::Refusal;

/// All of them. 9 is none: no call ever gave it, and it was taken out without moving another number.
const NUMBERS: [(u32, Refusal); 10] = [
    (1, Refusal::RegionLength),
    (2, Refusal::BadTable),
    (3, Refusal::DonorSize),
    (4, Refusal::HeapFails),
    (5, Refusal::BlockSize),
    (6, Refusal::NotLive),
    (7, Refusal::NoRoom),
    (8, Refusal::NotThere),
    (10, Refusal::RunSize),
    (12, Refusal::BeyondMending),
];

#[test]
fn nine_names_no_refusal() {
    assert_eq!(Refusal::of(9), None);
}

#[test]
fn each_number_names_its_refusal() {
    for number in 0..=u32::from(u16::MAX) {
        let named = NUMBERS.iter().find(|(its, _)| *its == number).map(|&(_, refusal)| refusal);
        assert_eq!(Refusal::of(number), named, "number {number}");
    }
    for (number, refusal) in NUMBERS {
        assert_eq!(refusal.number(), number);
    }
}

/// A refusal's name as the header writes it: KZ_NO_ROOM for NoRoom.
fn c_name(refusal: Refusal) -> String {
    let mut name = "KZ".to_string();
    for letter in format!("{refusal:?}").chars() {
        if letter.is_uppercase() {
            name.push('_');
        }
        name.push(letter.to_ascii_uppercase());
    }
    name
}

const HEADER: &str = include_str!("../../../include/kruzhvela.h");

/// A line of the header without the comment at its end.
fn without_comment(line: &str) -> &str {
    line.split("/**<").next().unwrap_or(line).trim_end()
}

/// The header has these names and numbers, from `KZ_ACCEPTED` to the last definition that follows it, and no others.
#[test]
fn the_header_has_the_same_numbers() {
    let from = HEADER.find("#define KZ_ACCEPTED").expect("the refusals begin with KZ_ACCEPTED");
    let lines = HEADER[from..].lines().take_while(|line| line.starts_with("#define"));
    let defined: Vec<&str> = lines.map(without_comment).collect();
    let mut expected = vec!["#define KZ_ACCEPTED 0".to_string()];
    expected.extend(NUMBERS.map(|(number, refusal)| format!("#define {} {number}", c_name(refusal))));
    assert_eq!(defined, expected);
}

/// `kz_refusal_text` has a sentence for each, and it is the one that Rust shows.
#[test]
fn the_header_has_the_same_sentences() {
    let said: Vec<&str> = HEADER.lines().map(str::trim).filter(|line| line.starts_with("case KZ_")).collect();
    let mut expected = vec!["case KZ_ACCEPTED: return \"accepted\";".to_string()];
    expected.extend(NUMBERS.map(|(_, refusal)| format!("case {}: return \"{refusal}\";", c_name(refusal))));
    assert_eq!(said, expected);
}

/// The header has the version of this crate, as a string and in parts.
#[test]
fn the_header_has_the_same_version() {
    let version = env!("CARGO_PKG_VERSION");
    let lines: Vec<&str> = HEADER.lines().map(without_comment).collect();
    assert!(lines.contains(&format!("#define KZ_VERSION \"{version}\"").as_str()));
    for (name, number) in ["MAJOR", "MINOR", "PATCH"].iter().zip(version.split('.')) {
        assert!(lines.contains(&format!("#define KZ_VERSION_{name} {number}").as_str()), "{name}");
    }
}
