//! Decisions on the reading of texts, a small test for each.

mod common;

use common::{spell, Bench, USUAL};
use reference::generate::{spoil_text, Random};
use reference::refusal::answer;
use reference::text::{has_form, next_line, read_call, read_settings, SETTINGS_LONGEST};

const LINE: &str = "now=0 line=1 kind=S id=1 time=10 meter=3 value=7\n";

fn changed(from: &str, to: &str) -> Vec<u8> {
    assert!(LINE.contains(from));
    LINE.replacen(from, to, 1).into_bytes()
}

const FIELDS: [&str; 6] = ["now=0", "line=1", "id=1", "time=10", "meter=3", "value=7"];

/// The line with another text for one field's number.
fn with_number(field: &str, number: &str) -> Vec<u8> {
    let key = &field[..=field.find('=').unwrap()];
    changed(field, &format!("{key}{number}"))
}

// Numbers not of the form or past their ranges are 6.
#[test]
fn numbers_without_the_form() {
    let run = "9".repeat(10_000);
    let numbers = [
        "-0", "+1", "00", "01", "", "1x", " 1", "1 ", "0x1", "1.0", "-", &run,
    ];
    for number in numbers {
        for field in FIELDS {
            let text = with_number(field, number);
            assert!(!has_form(&text), "{field} {number}");
        }
    }
    for field in &FIELDS[..5] {
        assert!(!has_form(&with_number(field, "-1")));
        assert!(!has_form(&with_number(field, "4294967296")));
    }
    for (field, number) in [
        ("line=1", "256"),
        ("meter=3", "256"),
        ("value=7", "2147483648"),
        ("value=7", "-2147483649"),
        ("value=7", "--7"),
    ] {
        assert!(!has_form(&with_number(field, number)), "{field} {number}");
    }
}

// So is everything else that is not exactly the form.
#[test]
fn texts_without_the_form() {
    for (from, to) in [
        ("kind=S", "kind=s"),
        ("kind=S", "kind=X"),
        ("kind=S", "kind="),
        ("kind=S", "kind=SS"),
        ("now", "Now"),
        (" line", "  line"),
        (" line", "\tline"),
        ("now", " now"),
        ("\n", ""),
        ("\n", " \n"),
        ("\n", "\r\n"),
        ("\n", "\0\n"),
        ("\n", "\n\n"),
        ("\n", "\n "),
        (" value=7", ""),
        ("\n", " value=7\n"),
        (" meter=3 value=7", " value=7 meter=3"),
        (LINE, ""),
        (LINE, "\n"),
    ] {
        assert!(!has_form(&changed(from, to)), "{from:?} {to:?}");
    }
}

// Numbers inside the form but refused later.
#[test]
fn texts_with_the_form() {
    let answers = [
        ("line=1", "line=255", 8),
        ("line=1", "line=0", 8),
        ("meter=3", "meter=64", 10),
        ("meter=3", "meter=255", 10),
        ("line=1", "line=256", 6),
        ("id=1", "id=4294967295", 11),
        ("time=10", "time=4294967295", 0),
        ("value=7", "value=-2147483648", 0),
        ("value=7", "value=2147483647", 0),
        ("kind=S", "kind=B", 9),
        ("kind=S", "kind=P", 8),
    ];
    for (from, to, answer) in answers {
        let mut bench = Bench::open(USUAL);
        assert_eq!(bench.text(&changed(from, to)).0, answer, "{to}");
    }
}

fn settings_answer(text: &str) -> u32 {
    answer(&read_settings(text.as_bytes()))
}

// Numbers past their width are 1, inside it but past the limits 2.
#[test]
fn settings_numbers() {
    let cases = [
        ("lines=2", "lines=9", 2),
        ("lines=2", "lines=0", 2),
        ("lines=2", "lines=8", 0),
        ("lines=2", "lines=-1", 1),
        ("lines=2", "lines=4294967295", 2),
        ("lines=2", "lines=4294967296", 1),
        ("bucket=100", "bucket=99", 2),
        ("bucket=100", "bucket=36000", 0),
        ("bucket=100", "bucket=36001", 2),
        ("window=1", "window=0", 2),
        ("window=1", "window=16", 0),
        ("window=1", "window=17", 2),
        ("hold=50", "hold=0", 0),
        ("hold=50", "hold=864000", 0),
        ("hold=50", "hold=864001", 2),
        ("low=-1000", "low=1001", 2),
        ("low=-1000", "low=1000", 0),
        ("low=-1000", "low=-0", 1),
        ("low=-1000", "low=-2147483649", 1),
        ("high=1000", "high=2147483647", 0),
        ("high=1000", "high=2147483648", 1),
        ("displays=1", "displays=0", 2),
        ("displays=1", "displays=4", 0),
        ("displays=1", "displays=5", 2),
        ("displays=1", "displays=4294967295", 2),
        ("displays=1", "displays=4294967296", 1),
        ("displays=1", "displays=4294967297", 1),
        ("displays=1", "displays=-1", 1),
        ("displays=1", "displays=01", 1),
        ("displays=1", "displays=+1", 1),
        ("displays=1", "displays=", 1),
        (" displays=1", "", 1),
        (" displays=1", " displays=1 displays=1", 1),
        (" high=1000 displays=1", " displays=1 high=1000", 1),
        ("lines=2", "displays=1 lines=2", 1),
    ];
    for (from, to, answer) in cases {
        assert_eq!(
            settings_answer(&USUAL.replacen(from, to, 1)),
            answer,
            "{to}"
        );
    }
}

// No limit is looked at before all of the text has the form, up to the longest.
#[test]
fn settings_form_before_limits() {
    let both = USUAL.replace("lines=2", "lines=9");
    assert_eq!(
        settings_answer(&both.replace("high=1000", "high=2147483648")),
        1
    );
    assert_eq!(settings_answer(&both.replace('\n', "")), 1);
    let most = "4294967295";
    let longest = format!(
        "lines={most} bucket={most} window={most} hold={most} low=-2147483648 high=-2147483648 displays={most}\n"
    );
    assert_eq!(longest.len(), SETTINGS_LONGEST);
    assert_eq!(settings_answer(&longest), 2);
    for end in ["", "\n\n", "\r\n", " \n"] {
        assert_eq!(settings_answer(&USUAL.replace('\n', end)), 1);
    }
    assert_eq!(settings_answer(""), 1);
    assert_eq!(settings_answer("\n"), 1);
}

// The reader's part of a text, and the form test agreeing with refusal 6.
#[test]
fn reader_and_form_test() {
    assert_eq!(next_line(b""), b"");
    assert_eq!(next_line(b"abc"), b"abc");
    assert_eq!(next_line(b"\n\n"), b"\n");
    assert_eq!(next_line(b"a\nb\n"), b"a\n");
    let mut random = Random::new(23);
    let bench = Bench::open(USUAL);
    for _ in 0..20_000 {
        let text = spoil_text(&mut random, LINE.as_bytes());
        let refused = bench.clone_call(&text) == 6;
        assert_eq!(has_form(&text), !refused);
        if let Some(call) = read_call(&text) {
            assert_eq!(spell(&call), text);
        }
    }
}

impl Bench {
    /// The answer to a text on a copy.
    fn clone_call(&self, text: &[u8]) -> u32 {
        self.clone().text(text).0
    }
}
