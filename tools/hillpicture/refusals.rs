//! What the number of a refused schedule means, in the words of docs/RULES.md.

pub fn meaning(number: usize) -> Option<&'static str> {
    Some(match number {
        1 => "n is not 2 to 16",
        2 => "t is above its limit",
        3 => "the own identifier is zero",
        13 => "a line is missing or breaks the form, or the schedule exceeds 65,536 bytes",
        14 => "two bases have one identifier",
        15 => "more than t links are named faulty",
        16 => "a carry names a message not yet broadcast",
        17 => "a carry repeats one already made in that direction on a good link",
        18 => "a forgery is put on a good link",
        _ => return None,
    })
}
