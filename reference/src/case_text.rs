//! The text form of stored cases: `LENGTH OFFSET HEX OFFSET HEX ...`, one case a line. The bytes are
//! LENGTH zeros except that the bytes of HEX stand from OFFSET on.

pub struct Case {
    pub what: String,
    pub bytes: Vec<u8>,
}

/// The line of these bytes, without line feed. Up to three zero bytes stay inside a piece, because a
/// new piece would be longer.
pub fn write_sparse(bytes: &[u8]) -> String {
    let mut pieces: Vec<(usize, usize)> = Vec::new();
    for place in (0..bytes.len()).filter(|&place| bytes[place] != 0) {
        match pieces.last_mut() {
            Some((_, end)) if place <= *end + 3 => *end = place + 1,
            _ => pieces.push((place, place + 1)),
        }
    }
    let mut line = bytes.len().to_string();
    for (start, end) in pieces {
        line += &format!(" {start} {}", hex_word(&bytes[start..end]));
    }
    line
}

/// The bytes of the words of such a line.
pub fn read_sparse(words: &[&str]) -> Vec<u8> {
    let mut bytes = vec![0; words[0].parse().unwrap()];
    for piece in words[1..].chunks(2) {
        let offset: usize = piece[0].parse().unwrap();
        let part = read_hex_word(piece[1]);
        bytes[offset..offset + part.len()].copy_from_slice(&part);
    }
    bytes
}

/// The human-readable index: the numbers of lines and what they test, equal neighbours together.
pub fn index(title: &str, whats: impl Iterator<Item = String>) -> String {
    let whats: Vec<String> = whats.collect();
    let mut text = format!("## {title}\n\n");
    let mut line = 1;
    for equal in whats.chunk_by(|a, b| a == b) {
        text += &match equal.len() {
            1 => format!("- {line}: {}\n", equal[0]),
            count => format!("- {line} to {}: {}\n", line + count - 1, equal[0]),
        };
        line += equal.len();
    }
    text
}

/// Bytes as one word: lower-case hex, or `-` for none.
pub fn hex_word(bytes: &[u8]) -> String {
    if bytes.is_empty() {
        return "-".to_string();
    }
    bytes.iter().map(|byte| format!("{byte:02x}")).collect()
}

pub fn read_hex_word(word: &str) -> Vec<u8> {
    if word == "-" {
        return Vec::new();
    }
    let pair = |pair: &[u8]| u8::from_str_radix(std::str::from_utf8(pair).unwrap(), 16).unwrap();
    word.as_bytes().chunks(2).map(pair).collect()
}
