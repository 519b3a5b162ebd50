//! What was paid, meter by meter, read off texts: a heat balance, and what a program has printed.

use std::collections::BTreeMap;

use crate::monitor::{balance_text, Heat, Run};

/// What each meter was paid; a meter that was paid nothing is left out.
type Paid = BTreeMap<u8, Heat>;

/// The heat balance that the reference prints at the end of an input.
pub fn due_balance(input: &[u8]) -> Result<String, String> {
    Run::play(input).map(|run| balance_text(&run))
}

/// What a heat balance says was paid; nothing where a line has not its form.
pub fn paid_in_balance(text: &[u8]) -> Option<Paid> {
    let mut paid = Paid::new();
    for line in std::str::from_utf8(text).ok()?.lines() {
        let (meter, parts) = line.strip_prefix("meter=")?.split_once(" sent=")?;
        let (_, behind) = parts.split_once(" paid=")?;
        let (count, sum) = behind.split_once(" open=")?.0.split_once(' ')?;
        pay(&mut paid, meter, count, sum)?;
    }
    Some(paid)
}

/// What the stable results in a program's output amount to; nothing where one has not its form.
pub fn paid_in_output(text: &[u8]) -> Option<Paid> {
    let mut paid = Paid::new();
    let lines = std::str::from_utf8(text).ok()?.lines();
    for line in lines.filter(|line| line.starts_with("kind=S ")) {
        let (meter, behind) = line.split_once(" meter=")?.1.split_once(" count=")?;
        let (count, behind) = behind.split_once(" sum=")?;
        let (sum, _) = behind.split_once(" mean=")?;
        pay(&mut paid, meter, count, sum)?;
    }
    Some(paid)
}

fn pay(paid: &mut Paid, meter: &str, count: &str, sum: &str) -> Option<()> {
    let heat = Heat {
        count: count.parse().ok()?,
        sum: sum.parse().ok()?,
    };
    if heat != Heat::NONE {
        let before = paid.entry(meter.parse().ok()?).or_default();
        *before = *before + heat;
    }
    Some(())
}

#[cfg(test)]
mod tests {
    use super::*;

    #[test]
    fn paid_of_both_texts() {
        let output = b"answer=0 records=4 state=stable\n\
            kind=S id=1 time=0 meter=3 count=2 sum=5 mean=2 last=-2\n\
            kind=S id=2 time=0 meter=5 count=1 sum=-9 mean=-9 last=-9\n\
            kind=S id=3 time=0 meter=3 count=1 sum=-7 mean=-7 last=-7\n\
            kind=T id=4 time=0 meter=3 count=4 sum=1 mean=0 last=1\n\
            kind=U id=0 time=0 meter=0 count=0 sum=0 mean=0 last=0\n";
        let balance = b"meter=3 sent=4 1 paid=3 -2 open=0 0 kept=1 3\n\
            meter=4 sent=1 8 paid=0 0 open=1 8 kept=0 0\n\
            meter=5 sent=1 -9 paid=1 -9 open=0 0 kept=0 0\n";
        let (three, five) = (Heat { count: 3, sum: -2 }, Heat { count: 1, sum: -9 });
        let due = Some(Paid::from([(3, three), (5, five)]));
        assert_eq!(paid_in_output(output), due);
        assert_eq!(paid_in_balance(balance), due);
        assert_eq!(paid_in_output(b"kind=S id=1\n"), None);
        assert_eq!(paid_in_balance(b"meter=3 sent=4 1\n"), None);
    }
}
