//! How numbers, words and lists are written and read.

use zetesis_algebra::region::Region;
use zetesis_ferraris::regions::arithmetic::{self, ParityKnowledge};

/// ` name` and each item after one space.
pub fn list<T>(
    name: &str,
    items: impl IntoIterator<Item = T>,
    show: impl Fn(T) -> String,
) -> String {
    let mut text = format!(" {name}");
    for item in items {
        text.push(' ');
        text.push_str(&show(item));
    }
    text
}

/// Words are hexadecimal.
pub fn words(name: &str, words: &[u64]) -> String {
    list(name, words, |word| format!("{word:x}"))
}

pub fn pairs(name: &str, pairs: &[(usize, bool)]) -> String {
    list(name, pairs, |(atom, value)| {
        format!("{atom} {}", u8::from(*value))
    })
}

pub fn region(region: &Region) -> String {
    let (held, cut) = region.decision_words();
    words("held", held) + &words("cut", cut)
}

/// Knowledge as the words the Rust keeps, held then cut; it has no count of its own, so n is the region's.
/// The words of uninitialised knowledge are shown raw only.
pub fn known(region: &Region, known: &ParityKnowledge, raw: bool) -> String {
    let (initialised, both) = arithmetic::known_words(known);
    let head = if initialised {
        format!(" known {}", region.len())
    } else {
        " known fresh".into()
    };
    if !initialised && !raw {
        return head;
    }
    let (held, cut) = both.split_at(both.len() / 2);
    head + &words("oldheld", held) + &words("oldcut", cut)
}

pub fn bytes(hex: &str) -> Vec<u8> {
    let byte = |at| u8::from_str_radix(&hex[at..at + 2], 16).expect("two hexadecimal digits");
    (0..hex.len()).step_by(2).map(byte).collect()
}
