//! Classes of bytes, and slices that cannot fail.

/// "Letters are A to Z, `$ @ #`", and a to z since "Lower-case letters become letters" (request C-15).
pub fn is_letter(byte: u8) -> bool {
    byte.is_ascii_alphabetic() || matches!(byte, b'$' | b'@' | b'#')
}

/// How a name is kept: "names equal but for case are one name".
pub fn folded(name: &[u8]) -> Vec<u8> {
    name.to_ascii_uppercase()
}

/// Letters, digits and `_`: what may follow in an identifier or a digit run.
pub fn is_alphameric(byte: u8) -> bool {
    is_letter(byte) || byte.is_ascii_digit() || byte == b'_'
}

/// The byte at `at`, if there is one.
pub fn byte_at(bytes: &[u8], at: usize) -> Option<u8> {
    bytes.get(at).copied()
}

/// The bytes from `from` up to `to`, empty where the bounds don't fit.
pub fn slice(bytes: &[u8], from: usize, to: usize) -> &[u8] {
    bytes.get(from..to).unwrap_or(&[])
}

/// The first place at or behind `from` whose byte fails the test.
pub fn skip(bytes: &[u8], from: usize, test: impl Fn(u8) -> bool) -> usize {
    let rest = bytes.get(from..).unwrap_or(&[]);
    from + rest.iter().take_while(|byte| test(**byte)).count()
}

/// The first place at or behind `from` where `wanted` stands.
pub fn find(bytes: &[u8], from: usize, wanted: &[u8]) -> Option<usize> {
    let rest = bytes.get(from..)?;
    let found = rest.windows(wanted.len()).position(|w| w == wanted)?;
    Some(from + found)
}

/// Whether `bytes` is one whole identifier.
pub fn is_identifier(bytes: &[u8]) -> bool {
    match bytes.split_first() {
        Some((first, rest)) => is_letter(*first) && rest.iter().all(|b| is_alphameric(*b)),
        None => false,
    }
}
