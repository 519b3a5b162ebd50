//! Decisions on the lines of a console, and on what `replay` does between lines. A small test for each.

mod common;

use common::{SINGLE, TWO_DISPLAYS};
use reference::generate::{spoil_text, Random};
use reference::playback::{play, Mode};
use reference::text::{read_display_call, spell_display_call, DisplayCall, Wish};

fn played(mode: Mode, input: &str) -> String {
    let mut output = Vec::new();
    play(mode, input.as_bytes(), &mut output).unwrap();
    String::from_utf8(output).unwrap()
}

/// Two meters in bucket 0, the bucket's end, and the step that works it.
const RESULTS: &str = "\
now=0 line=1 kind=S id=1 time=10 meter=3 value=7
now=0 line=1 kind=S id=2 time=20 meter=4 value=-2
now=0 line=1 kind=B id=0 time=100 meter=0 value=0
now=0 line=0 kind=P id=0 time=0 meter=0 value=0
";
const RESULTS_OUTPUT: &str = "\
answer=0 records=0 state=stable
answer=0 records=0 state=stable
answer=0 records=0 state=stable
answer=0 records=0 state=stable
answer=0 records=3 state=stable
kind=S id=1 time=0 meter=3 count=1 sum=7 mean=7 last=7
kind=S id=2 time=0 meter=4 count=1 sum=-2 mean=-2 last=-2
kind=B id=0 time=100 meter=0 count=0 sum=0 mean=0 last=0
";

// A display's line gets an answer line, and a fetch its records as text.
#[test]
fn session() {
    let input = format!(
        "{TWO_DISPLAYS}{RESULTS}fetch display=1 id=1\nack display=1 id=2\nfetch display=1 id=2\n\
         ack display=2 id=1\nfetch display=1 id=1\nfetch display=1 id=3\nack display=3 id=2\n\
         ack display=1 id=1\n"
    );
    let due = format!(
        "{RESULTS_OUTPUT}\
         answer=0 records=2 state=stable\n\
         kind=S id=1 time=0 meter=3 count=1 sum=7 mean=7 last=7\n\
         kind=S id=2 time=0 meter=4 count=1 sum=-2 mean=-2 last=-2\n\
         answer=0 records=0 state=stable\n\
         answer=0 records=1 state=stable\n\
         kind=S id=2 time=0 meter=4 count=1 sum=-2 mean=-2 last=-2\n\
         answer=0 records=0 state=stable\n\
         answer=17 records=0 state=stable\n\
         answer=0 records=0 state=stable\n\
         answer=16 records=0 state=stable\n\
         answer=17 records=0 state=stable\n"
    );
    assert_eq!(played(Mode::Console, &input), due);
}

// To `merge` and `replay` a display's line is no journal line; the first line is always the settings.
#[test]
fn lines_of_displays_elsewhere() {
    let input = format!("{TWO_DISPLAYS}{RESULTS}ack display=1 id=2\nfetch display=1 id=1\n");
    let refused = "answer=6 records=0 state=stable\n".repeat(2);
    let due = format!("{RESULTS_OUTPUT}{refused}");
    assert_eq!(played(Mode::Merge, &input), due);
    assert_eq!(played(Mode::Replay, &input), due);
    let none = "answer=1 records=0 state=none\n";
    assert_eq!(played(Mode::Console, "ack display=1 id=0\n"), none);
    assert_eq!(played(Mode::Console, ""), none);
}

// The words, single spaces, decimals as everywhere, 32 bits for a display and 64 for an id, and 0A.
#[test]
fn forms() {
    let longest = DisplayCall {
        wish: Wish::Fetch,
        display: u32::MAX,
        id: u64::MAX,
    };
    let text = b"fetch display=4294967295 id=18446744073709551615\n";
    assert_eq!(read_display_call(text), Some(longest));
    assert_eq!(spell_display_call(&longest), text);
    let least = DisplayCall {
        wish: Wish::Acknowledge,
        display: 0,
        id: 0,
    };
    assert_eq!(read_display_call(b"ack display=0 id=0\n"), Some(least));
    for wrong in [
        "fetch display=4294967296 id=1\n",
        "fetch display=1 id=18446744073709551616\n",
        "fetch display=1 id=99999999999999999999999\n",
        "fetch display=01 id=1\n",
        "fetch display=1 id=00\n",
        "fetch display=+1 id=1\n",
        "fetch display=-1 id=1\n",
        "fetch display= id=1\n",
        "fetch display=1 id=\n",
        "fetch display=1 id=1",
        "fetch display=1 id=1\r\n",
        "fetch display=1 id=1 \n",
        "fetch display=1 id=1\n\n",
        "fetch display=1  id=1\n",
        " fetch display=1 id=1\n",
        "fetch  display=1 id=1\n",
        "fetch\tdisplay=1 id=1\n",
        "fetch id=1 display=1\n",
        "fetch display=1\n",
        "fetch display=1 id=1 now=0\n",
        "Fetch display=1 id=1\n",
        "acknowledge display=1 id=1\n",
        "ackfetch display=1 id=1\n",
        "ack\n",
        "\n",
        "",
    ] {
        assert_eq!(read_display_call(wrong.as_bytes()), None, "{wrong:?}");
        let input = format!("{SINGLE}{wrong}");
        let whole = !wrong.is_empty() && !wrong.ends_with("\n\n");
        let due = "answer=0 records=0 state=stable\nanswer=6 records=0 state=stable\n";
        assert_eq!(played(Mode::Console, &input) == due, whole, "{wrong:?}");
    }
}

// A text is a display's line exactly if the call that is read from it spells the same text.
#[test]
fn read_and_spelled() {
    let mut random = Random::new(31);
    let mut read = 0;
    for _ in 0..20_000 {
        let call = DisplayCall {
            wish: random.pick(&[Wish::Acknowledge, Wish::Fetch]),
            display: random.word(),
            id: random.bits() >> random.below(64),
        };
        let text = spell_display_call(&call);
        assert_eq!(read_display_call(&text), Some(call));
        let spoilt = spoil_text(&mut random, &text);
        if let Some(call) = read_display_call(&spoilt) {
            assert_eq!(spell_display_call(&call), spoilt);
            read += 1;
        }
    }
    assert!(read > 500);
}

// In `replay` every display has acknowledged a line's results when the next is read: a thousand
// windows of one result never want a place, where in `merge` all after the 512th do.
#[test]
fn a_thousand_windows() {
    let mut input = TWO_DISPLAYS.to_string();
    for window in 0..1_000 {
        let (id, start, end) = (window + 1, 100 * window, 100 * window + 100);
        input += &format!("now=0 line=1 kind=S id={id} time={start} meter=0 value=1\n");
        input += &format!("now=0 line=1 kind=B id=0 time={end} meter=0 value=0\n");
        input += "now=0 line=0 kind=P id=0 time=0 meter=0 value=0\n";
    }
    let count = |mode, word: &str| played(mode, &input).matches(word).count();
    assert_eq!(count(Mode::Replay, "kind=S "), 1_000);
    assert_eq!(count(Mode::Replay, "answer=0 "), 3_001);
    for mode in [Mode::Merge, Mode::Console] {
        assert_eq!(count(mode, "kind=S "), 512);
        assert_eq!(count(mode, "answer=15 "), 488);
        assert_eq!(count(mode, "answer=14 "), 1);
    }
}
