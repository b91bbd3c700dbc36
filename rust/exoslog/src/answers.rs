//! The names of the answers.

/// The answers by their number: "0 is done", "17 SHARED is a grant", the others
/// are refusals; 18 is none.
pub const ANSWERS: [&str; 21] = [
    "done", "TABLES", "CALL", "CHANNEL", "EXISTS", "NAME", "DEVICE", "DRIVER", "FULL", "ROOM",
    "SEGMENT", "OWNER", "BOUNDARY", "RANGE", "GUARD", "FLAGS", "START", "SHARED", NONE, "MODULE",
    "PAGE",
];

/// What stands in the place of a name where there is none.
const NONE: &str = "(no such answer)";

/// An answer as its number, of any size, and its name.
pub fn answer(number: &str) -> String {
    let row: Option<usize> = number.parse().ok();
    let name = row.and_then(|row| ANSWERS.get(row));
    format!("{number} {}", name.unwrap_or(&NONE))
}

#[cfg(test)]
mod tests {
    use super::*;
    use exos_kernel::{Refusal, SHARED_GRANT};

    #[test]
    fn the_names_stand_at_their_numbers() {
        let refusals = [
            (Refusal::Tables, "TABLES"),
            (Refusal::Call, "CALL"),
            (Refusal::Channel, "CHANNEL"),
            (Refusal::Exists, "EXISTS"),
            (Refusal::Name, "NAME"),
            (Refusal::Device, "DEVICE"),
            (Refusal::Driver(9), "DRIVER"),
            (Refusal::Full, "FULL"),
            (Refusal::Room, "ROOM"),
            (Refusal::Segment, "SEGMENT"),
            (Refusal::Owner, "OWNER"),
            (Refusal::Boundary, "BOUNDARY"),
            (Refusal::Range, "RANGE"),
            (Refusal::Guard, "GUARD"),
            (Refusal::Flags, "FLAGS"),
            (Refusal::Start, "START"),
            (Refusal::Module, "MODULE"),
            (Refusal::Page, "PAGE"),
        ];
        for (refusal, name) in refusals {
            assert_eq!(ANSWERS[usize::from(refusal.number())], name);
        }
        assert_eq!(answer("0"), "0 done");
        assert_eq!(answer(&SHARED_GRANT.to_string()), "17 SHARED");
        assert_eq!(answer("18"), "18 (no such answer)");
        assert_eq!(answer("21"), "21 (no such answer)");
        let large = "9".repeat(40);
        assert_eq!(answer(&large), format!("{large} (no such answer)"));
    }
}
