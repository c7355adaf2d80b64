//! Operators between values of every type, short ones and those at the ends of their ranges.

use super::programs::Bodies;
use super::random::Random;

const OPERATORS: &[&[u8]] = &[
    b"+", b"-", b"*", b"/", b"&", b"|", b"||", b"=", b"^=", b"<", b">", b"<=", b">=", b"^<", b"^>",
];

/// The last numbers in the range and the first outside, as values of each type.
const ENDS: &[&[u8]] = &[
    b"99999",
    b"100000",
    b"'99999'",
    b"'100000'",
    b"'-99999 '",
    b"' -100000'",
    b"'11000011010011111'B",
    b"'11000011010100000'B",
    b"'0000000000000000000000001'",
];

/// Some assignments, each with a value that is then written out.
pub fn operations(random: &mut Random) -> Bodies {
    let mut body = b"%DCL R CHAR;".to_vec();
    for _ in 0..4 {
        body.extend_from_slice(b"%R=");
        operand(random, &mut body);
        for _ in 0..random.weighted(&[5, 65, 20, 10]) {
            body.extend_from_slice(random.word(OPERATORS));
            operand(random, &mut body);
        }
        body.extend_from_slice(b";<R>");
    }
    Bodies {
        names: vec![b"MAIN".to_vec()],
        bodies: vec![body],
        ..Bodies::default()
    }
}

fn operand(random: &mut Random, body: &mut Vec<u8>) {
    if random.one_in(6) {
        body.extend_from_slice(random.word(&[b"-", b"+", b"^", b"^-"]));
    }
    match random.weighted(&[25, 30, 30, 15]) {
        0 => body.extend_from_slice(random.below(4).to_string().as_bytes()),
        1 => quoted(random, b" 01+-9AX", body),
        2 => {
            quoted(random, b"01", body);
            body.push(b'B');
        }
        _ => body.extend_from_slice(random.word(ENDS)),
    }
}

/// A string of up to four of these bytes.
fn quoted(random: &mut Random, bytes: &[u8], body: &mut Vec<u8>) {
    body.push(b'\'');
    for _ in 0..random.below(5) {
        body.extend(random.pick(bytes));
    }
    body.push(b'\'');
}
