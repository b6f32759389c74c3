//! Words as names: a name has the word's bytes, the lowest first, without the zero bytes at the end.

/// The name of a word. No two words have the same name.
pub fn name(word: i64) -> Vec<u8> {
    let bytes = word.to_le_bytes();
    let zeros = bytes.iter().rev().take_while(|&&byte| byte == 0).count();
    bytes[..8 - zeros].to_vec()
}

/// The word of a name of up to eight bytes.
pub fn word(name: &[u8]) -> i64 {
    let mut bytes = [0; 8];
    bytes[..name.len()].copy_from_slice(name);
    i64::from_le_bytes(bytes)
}

/// The name of a word of printable ASCII as SQL says it.
pub fn literal(word: i64) -> String {
    let text = String::from_utf8_lossy(&name(word)).replace('\'', "''");
    format!("'{}'", text)
}
