//! What inputs can reach in a program, by group.

use crate::playback::Mode;

const KINDS: &[&str] = &["S", "T", "B", "U", "R", "P"];

/// All that is counted, by group.
pub(super) const GROUPS: [(&str, &[&str]); 12] = [
    (
        "answer",
        &[
            "0", "1", "2", "3", "4", "5", "6", "7", "8", "9", "10", "11", "12", "13", "14", "15",
            "16", "17",
        ],
    ),
    ("record", &["S", "T", "U", "B", "R"]),
    (
        "mean of a half",
        &["up above 0", "down above 0", "up below 0", "down below 0"],
    ),
    ("state", &["stable", "failure", "correcting", "none"]),
    ("rule", &["1", "2", "3", "4", "5"]),
    ("accepted while stable", KINDS),
    ("accepted while failure", KINDS),
    ("accepted while correcting", KINDS),
    (
        "edge",
        &["eight lines", "window 16", "256 kept", "65 records"],
    ),
    (
        SEND_BACK,
        &[
            "none held",
            "some held",
            "512 held",
            "512 and a window without results",
        ],
    ),
    (
        REFUSED_FOR_PLACES,
        &["stable", "correcting", "none free", "some free"],
    ),
    (
        DISPLAY_CALL,
        &[
            "ack of all",
            "ack that frees some",
            "ack that frees none",
            "ack of the last again",
            "ack while others are behind",
            "fetch of 64",
            "fetch of fewer",
            "fetch from the next",
            "fetch of what it has acknowledged",
            "refused while failure",
        ],
    ),
];

pub(super) const SEND_BACK: &str = "send-back store";
pub(super) const REFUSED_FOR_PLACES: &str = "refused with 15";
pub(super) const DISPLAY_CALL: &str = "display call";

/// Store, state and area of a host that plays an input keep these answers from coming.
const CANNOT_COME: [(&str, &str); 3] = [("answer", "3"), ("answer", "4"), ("answer", "5")];

/// Whether a thing cannot come in a program: displays call only at a console, and behind `replay`
/// they leave no more held than a step gives.
pub(super) fn cannot_come(mode: Mode, (group, name): (&str, &str)) -> bool {
    let of_displays = group == DISPLAY_CALL || (group == "answer" && ["16", "17"].contains(&name));
    let of_want = group == REFUSED_FOR_PLACES
        || (group == "answer" && name == "15")
        || (group == SEND_BACK && name.starts_with("512"));
    CANNOT_COME.contains(&(group, name))
        || (mode != Mode::Console && of_displays)
        || (mode == Mode::Replay && of_want)
}
