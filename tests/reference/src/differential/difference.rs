//! Where two outputs for one input part.

use super::{lines_of, starts_reply};

/// The most bytes of a line that are shown.
const SHOWN: usize = 200;

/// The first line in which an output is not the one due, with the input line that it answers.
pub fn first_difference(input: &[u8], due: &[u8], got: &[u8]) -> Option<String> {
    let mut due_lines = lines_of(due);
    let mut got_lines = lines_of(got);
    let mut replies: usize = 0;
    loop {
        let (due_line, got_line) = (due_lines.next(), got_lines.next());
        if due_line.is_none() && got_line.is_none() {
            return None;
        }
        replies += usize::from(due_line.is_some_and(starts_reply));
        if due_line != got_line {
            let answered = lines_of(input).nth(replies.saturating_sub(1));
            return Some(format!(
                "  input line {replies}: {}\n  due: {}\n  got: {}",
                shown(answered),
                shown(due_line),
                shown(got_line)
            ));
        }
    }
}

/// A line with every byte that is no plain letter escaped, cut short if it is long.
fn shown(line: Option<&[u8]>) -> String {
    match line {
        None => "nothing".to_string(),
        Some(line) if line.len() <= SHOWN => line.escape_ascii().to_string(),
        Some(line) => format!("{}... ({} bytes)", line[..SHOWN].escape_ascii(), line.len()),
    }
}

#[cfg(test)]
mod tests {
    use super::first_difference;

    #[test]
    fn the_input_line_is_the_one_answered() {
        let input = b"settings\none\ntwo\n";
        let due = b"answer=0 a\nanswer=0 b\nkind=T\nkind=T\nanswer=0 c\n";
        assert_eq!(first_difference(input, due, due), None);
        let got = b"answer=0 a\nanswer=0 b\nkind=T\nkind=S\nanswer=0 c\n";
        let said = first_difference(input, due, got).unwrap();
        assert!(said.contains("input line 2: one\\n"), "{said}");
        assert!(said.contains("due: kind=T\\n\n  got: kind=S\\n"), "{said}");
        let said = first_difference(input, due, &due[..due.len() - 1]).unwrap();
        assert!(said.contains("input line 3: two\\n"), "{said}");
        let said = first_difference(input, due, b"").unwrap();
        assert!(said.contains("got: nothing"), "{said}");
    }
}
