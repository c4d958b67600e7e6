//! Lines as bytes.

/// A number in decimal, without leading zeros and below 2^64.
fn number(word: &[u8]) -> Option<u64> {
    let digits = word.iter().all(u8::is_ascii_digit);
    let leading = word.len() > 1 && word[0] == b'0';
    if leading || !digits {
        return None;
    }
    std::str::from_utf8(word).ok()?.parse().ok()
}

/// The numbers of a line, one space apart. None where it is anything else.
pub fn numbers(line: &[u8]) -> Option<Vec<u64>> {
    line.split(|byte| *byte == b' ').map(number).collect()
}

/// An answer's line without its end; that of a bad line where there is none.
pub fn line(answer: Option<&[u64]>) -> String {
    let Some(numbers) = answer else {
        return "bad line".to_string();
    };
    let words: Vec<String> = numbers.iter().map(u64::to_string).collect();
    words.join(" ")
}
