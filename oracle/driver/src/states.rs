//! Library states, one call with its arguments on a line, and runs, a system and its calls on a line: the Rust's answer.
//!
//! `stopped` is the Rust's InvalidProgram, `panicked` its panic, and `none` means that this cannot be put to the Rust.

use std::collections::HashMap;
use std::panic::{AssertUnwindSafe, catch_unwind};

use zetesis_algebra::region::Region;
use zetesis_ferraris::regions::arithmetic::{self, ParitySystem, Row};

use crate::file;
use crate::records::Call;
use crate::text;

/// The fields of a state: each name with the values after it.
struct Fields<'a>(HashMap<&'a str, Vec<&'a str>>);

pub fn answer(line: &str, raw: bool) -> String {
    let mut tokens = line.split(' ');
    let call = tokens.next().unwrap_or_default();
    let fields = Fields::read(tokens);
    let run = || match call {
        "hull" => hull(&fields),
        "prepare" => prepare(&fields, raw),
        "touched" => touched(&fields),
        "inspect" => inspect(&fields, raw),
        "probe" => probe(&fields, raw),
        "run" => calls(&fields, line),
        _ => None,
    };
    let answer = catch_unwind(AssertUnwindSafe(run)).unwrap_or(Some("panicked".into()));
    answer.unwrap_or("none".into()) + "\n"
}

fn hull(fields: &Fields) -> Option<String> {
    let (equations, exact) = arithmetic::propose(fields.numbers("k")[0], &fields.words("words"));
    let head = format!("hull {}", equations.len());
    let exact = if exact { "exact" } else { "inexact" };
    Some(
        head + &text::list(exact, equations, |(mask, constant)| {
            format!("{mask} {}", u8::from(constant))
        }),
    )
}

fn prepare(fields: &Fields, raw: bool) -> Option<String> {
    let size = fields.numbers("size");
    let system = ParitySystem::prepare(size[0], fields.rows(size[0], size[1])?);
    let (line, details) = file::prepared(&system, raw);
    Some(line + &details)
}

fn touched(fields: &Fields) -> Option<String> {
    let (atoms, _, rank, refuted) = fields.system();
    let system = ParitySystem::lent(
        atoms,
        Vec::new(),
        vec![0; rank],
        fields.words("index"),
        refuted,
    );
    let ordinals = system.touched(&fields.region()?, fields.old()?.as_ref());
    Some(
        text::list("touched", ordinals, |ordinal| ordinal.to_string())
            .trim_start()
            .into(),
    )
}

fn inspect(fields: &Fields, raw: bool) -> Option<String> {
    let system = fields.lent()?;
    let mut region = fields.region()?;
    let mut known = fields
        .old()?
        .map_or(system.knowledge(), |old| arithmetic::published(&old));
    let inspected = system.inspect(&mut region, &mut known);
    let Ok(step) = inspected.result else {
        return Some("stopped".into());
    };
    let line = format!(
        "inspect {} {} {}",
        file::step(step),
        inspected.held,
        inspected.cut
    );
    Some(line + &file::state(&region, &inspected.forced, &known, raw))
}

fn probe(fields: &Fields, raw: bool) -> Option<String> {
    Some(file::probe(&fields.lent()?, &fields.region()?, raw))
}

/// A system and calls on it, over one region and one knowledge; what the calls lend is not looked at.
fn calls(fields: &Fields, line: &str) -> Option<String> {
    let size = fields.numbers("size");
    let system = ParitySystem::prepare(size[0], fields.rows(size[0], size[1])?);
    let (mut region, mut known) = (Region::undecided(size[0]), system.knowledge());
    let (head, details) = file::prepared(&system, false);
    let mut answer = head + &details;
    let mut tokens = line.split_once(" calls")?.1.split_whitespace();
    while let Some(name) = tokens.next() {
        let call = match name {
            "decide" => Call::Decide(tokens.next()?.parse().ok()?, tokens.next()? == "1"),
            "inspect" => tokens.nth(1).map(|_| Call::Inspect)?,
            "probe" => Call::Probe,
            _ => return None,
        };
        let (line, forced) = file::run(&system, &mut region, &mut known, call);
        answer += &format!("; {line}{}", file::state(&region, &forced, &known, false));
    }
    Some(answer)
}

impl<'a> Fields<'a> {
    /// A token with a letter after f is a name; the values of a name follow it, up to the next one.
    fn read(tokens: impl Iterator<Item = &'a str>) -> Self {
        let mut fields = HashMap::new();
        let mut name = "";
        for token in tokens {
            if token.bytes().any(|byte| byte > b'f') {
                name = token;
            }
            let values: &mut Vec<&str> = fields.entry(name).or_default();
            if name != token {
                values.push(token);
            }
        }
        Self(fields)
    }

    fn values(&self, name: &str) -> &[&'a str] {
        self.0.get(name).map_or(&[], |values| &values[..])
    }

    fn numbers(&self, name: &str) -> Vec<usize> {
        self.values(name)
            .iter()
            .map(|value| value.parse().expect("a number"))
            .collect()
    }

    fn words(&self, name: &str) -> Vec<u64> {
        let word = |value: &&str| u64::from_str_radix(value, 16).expect("a word");
        self.values(name).iter().map(word).collect()
    }

    /// Atoms, rows, rank, refuted.
    fn system(&self) -> (usize, usize, usize, bool) {
        let numbers = self.numbers("system");
        (
            numbers[0],
            numbers[1],
            numbers[2],
            self.0.contains_key("refuted"),
        )
    }

    /// The first m rows, if the words and constants can be rows of the Rust.
    fn rows(&self, atoms: usize, count: usize) -> Option<Vec<Row>> {
        let (words, constants) = (self.words("rows"), self.numbers("constants"));
        let width = atoms.div_ceil(64);
        let row = |at: usize| {
            let words = words.get(at * width..(at + 1) * width)?;
            let constant = *constants.get(at).filter(|&&constant| constant <= 1)?;
            Some((words.to_vec(), constant == 1))
        };
        (0..count).map(row).collect()
    }

    fn lent(&self) -> Option<ParitySystem> {
        let (atoms, count, rank, refuted) = self.system();
        let basis = self.numbers("basis").get(..rank)?.to_vec();
        Some(ParitySystem::lent(
            atoms,
            self.rows(atoms, count)?,
            basis,
            self.words("index"),
            refuted,
        ))
    }

    fn region(&self) -> Option<Region> {
        self.decisions("region", "held", "cut")
    }

    /// Lent knowledge: none if it is fresh.
    fn old(&self) -> Option<Option<Region>> {
        if self.values("known").is_empty() {
            return Some(None);
        }
        self.decisions("known", "oldheld", "oldcut").map(Some)
    }

    /// Decisions that a region of the Rust can hold: no bit past its ceil(n/64) words.
    fn decisions(&self, count: &str, held: &str, cut: &str) -> Option<Region> {
        let atoms = self.numbers(count)[0];
        let mask = |name| {
            let mut words = self.words(name);
            let width = atoms.div_ceil(64);
            let fits = words.iter().skip(width).all(|&word| word == 0);
            words.resize(width, 0);
            fits.then_some(words)
        };
        Some(Region::lent(atoms, mask(held)?, mask(cut)?))
    }
}
