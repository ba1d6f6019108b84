// Words texts, and plans and loops put into own words.
use crate::reference::WORDS;

// The word for each of WORDS, in their order.
pub type Own = Vec<Vec<u8>>;

// [13.18] The bytes of the longest words text.
pub const LONGEST: usize = 598;

// [16.2] How many letters the own word of a kind may have.
pub fn most(kind: usize) -> usize {
    if WORDS[kind] == "lit" { 3 } else { 8 }
}

pub fn built_in() -> Own {
    WORDS.map(|word| word.into()).to_vec()
}

// [16.1] The words text that gives these own words.
pub fn text(own: &Own) -> Vec<u8> {
    WORDS.iter().zip(own).flat_map(|(built_in, word)| [built_in.as_bytes(), b",", word, b"\n"].concat()).collect()
}

// What stands behind the first comma of each line, whatever the text is; the built-in word where nothing does.
pub fn own(text: &[u8]) -> Own {
    let mut lines = text.split(|byte| *byte == b'\n');
    let behind = |line: &[u8]| line.iter().position(|byte| *byte == b',').map(|comma| line[comma + 1..].to_vec());
    WORDS.iter().map(|built_in| lines.next().and_then(behind).unwrap_or(built_in.as_bytes().to_vec())).collect()
}

// A text in built-in words, put into own words. What is no built-in word in front of a comma stays.
pub fn worded(text: &[u8], own: &Own) -> Vec<u8> {
    let line = |line: &[u8]| {
        let comma = line.iter().position(|byte| *byte == b',').unwrap_or(line.len());
        let kind = WORDS.iter().position(|built_in| built_in.as_bytes() == &line[..comma]);
        [kind.map_or(&line[..comma], |kind| &own[kind]), &line[comma..]].concat()
    };
    text.split_inclusive(|byte| *byte == b'\n').flat_map(line).collect()
}
