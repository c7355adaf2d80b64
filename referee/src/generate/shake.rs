//! The case of letters (request C-15): names and words of a deck in lower and mixed case.

use super::damage::split;
use super::programs::Bodies;
use super::random::Random;

/// More than half of the decks get names and words in any case, and some of them strings too: values are scanned.
pub fn perhaps(random: &mut Random, bodies: &mut Bodies) {
    let strings = match random.weighted(&[45, 35, 20]) {
        0 => return,
        1 => false,
        _ => true,
    };
    for name in bodies.names.iter_mut().chain(&mut bodies.libraries) {
        recase(random, name);
    }
    for body in &mut bodies.bodies {
        *body = shaken(random, body, strings);
    }
}

/// A body with each of its tokens in some case; comments stay, strings perhaps.
fn shaken(random: &mut Random, body: &[u8], strings: bool) -> Vec<u8> {
    let mut written = Vec::with_capacity(body.len());
    for mut token in split(body) {
        let stays = token.starts_with(b"/*") || token.starts_with(b"'") && !strings;
        if !stays {
            recase(random, &mut token);
        }
        written.extend(token);
    }
    written
}

/// All in lower case, only the first not, each letter by chance, or as it is.
pub fn recase(random: &mut Random, token: &mut [u8]) {
    match random.weighted(&[30, 30, 15, 25]) {
        0 => {}
        1 => token.make_ascii_lowercase(),
        2 => {
            token.make_ascii_lowercase();
            token[..1].make_ascii_uppercase();
        }
        _ => {
            for letter in token.chunks_mut(1) {
                match random.percent(50) {
                    true => letter.make_ascii_lowercase(),
                    false => letter.make_ascii_uppercase(),
                }
            }
        }
    }
}
