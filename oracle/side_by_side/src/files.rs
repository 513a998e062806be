//! Whole files, fit and damaged, through both: what their check says, the rows that a load leaves, and their text; and tables.

use worzubil::raw;

use crate::calls::{self, Check, same};
use crate::lent::{Lent, width};
use crate::model::has;
use crate::random::Random;
use crate::systems::make;
use crate::tally::Tally;

fn record(kind: u16, body: &[u8]) -> Vec<u8> {
    [&(body.len() as u16 + 2).to_le_bytes()[..], &kind.to_le_bytes(), body].concat()
}

fn pair(number: usize) -> [u8; 2] {
    (number as u16).to_le_bytes()
}

fn atoms(count: usize) -> Vec<u8> {
    record(1, &pair(count))
}

fn row(constant: u8, named: &[usize]) -> Vec<u8> {
    let named = named.iter().flat_map(|&atom| pair(atom));
    record(2, &[constant].into_iter().chain(named).collect::<Vec<_>>())
}

fn table(k: u8, named: &[usize], words: &[u64]) -> Vec<u8> {
    let named = named.iter().flat_map(|&atom| pair(atom));
    let words = words.iter().flat_map(|word| word.to_le_bytes());
    record(3, &[k].into_iter().chain(named).chain(words).collect::<Vec<_>>())
}

fn decision(atom: usize, value: u8) -> Vec<u8> {
    let [low, high] = pair(atom);
    record(4, &[low, high, value])
}

/// A file is checked, loaded and answered with just the room that is wanted, and with one cell less.
pub fn compare(file: &[u8], tally: &mut Tally) -> Check {
    let lent = Lent::of(file, file.len());
    let judged = match oracle::records::check(file) {
        Ok(records) => Ok((records.atoms, records.rows)),
        Err((number, offset)) => Err(raw::Checked { number: number.into(), offset, ..Default::default() }),
    };
    let told = match &judged {
        Ok((atoms, rows)) => raw::Checked { number: 0, offset: 0, atoms: *atoms, rows: rows.len() },
        Err(refused) => *refused,
    };
    tally.called("file", told.number);
    same("check", unsafe { raw::worzubil_check(lent.pointer(), lent.len()) }, told)?;
    let (words, count) = (told.rows * width(told.atoms), told.rows);
    for short in [[0, 0], [1, 0], [0, 1]] {
        if judged.is_ok() && (short[0] > words || short[1] > count) {
            continue;
        }
        let (words, count) = (words.saturating_sub(short[0]), count.saturating_sub(short[1]));
        let (mut rows, mut constants) = (Lent::<u64>::of(&[], words), Lent::<u8>::of(&[], count));
        let said = unsafe {
            raw::worzubil_load(lent.pointer(), lent.len(), rows.pointer_mut(), rows.len(), constants.pointer_mut(), constants.len())
        };
        let fit = judged.is_ok() && short == [0, 0];
        let short_number = if judged.is_ok() { 9 } else { told.number };
        tally.called("load", if fit { 0 } else { short_number });
        rows.stands("rows", if fit { words } else { 0 })?;
        constants.stands("constants", if fit { count } else { 0 })?;
        if fit {
            let theirs = &judged.as_ref().map_err(|_| "refused")?.1;
            same("load", said, told)?;
            same("loaded rows", rows.values().to_vec(), theirs.iter().flat_map(|(words, _)| words.clone()).collect())?;
            same("loaded constants", constants.values().to_vec(), theirs.iter().map(|row| u8::from(row.1)).collect())?;
        } else {
            same("number of a load", said.number, short_number)?;
        }
    }
    let text = oracle::file::answer(file, false);
    let room = raw::room(file.len());
    for length in [room, room - 1] {
        let mut out = Lent::<u8>::of(&[], length);
        let said = unsafe { raw::worzubil_answer_file(lent.pointer(), lent.len(), out.pointer_mut(), out.len()) };
        lent.stands("file", 0)?;
        out.stands("text", said.length)?;
        tally.called("answer", if length == room { 0 } else { 9 });
        if length == room {
            same("answered", said, raw::Answered { number: 0, length: text.len() })?;
            same("text", String::from_utf8_lossy(&out.values()[..said.length]).as_ref(), &text)?;
        } else {
            same("refused answer", said, raw::Answered { number: 9, length: 0 })?;
        }
    }
    Ok(())
}

/// The two sides of each bound of a file, with the number of the far one; each stands at the end of what is before it.
pub fn bounds(tally: &mut Tally) -> Vec<(usize, Check)> {
    let head = atoms(9);
    let exact: [&[u64]; 2] = [&[6, 0], &[9, 0]];
    let rows = |count: usize| (0..count).flat_map(|at| row(0, &[at % 9])).collect::<Vec<u8>>();
    let calls = |length: usize| {
        let mut file = head.clone();
        while (length - file.len()) % 4 != 0 {
            file.extend(decision(3, 1));
        }
        while file.len() < length {
            file.extend(record(6 - (file.len() / 4 % 2) as u16, &[]));
        }
        file
    };
    let named: [usize; 8] = [0, 1, 2, 3, 4, 5, 6, 7];
    let open = [0u64; 4];
    let mut cases: Vec<(usize, Vec<u8>, Vec<u8>)> = vec![
        (1, record(5, &[]), vec![2]),
        (1, record(5, &[]), vec![1, 0, 5, 0]),
        (1, decision(0, 1), decision(0, 1)[..6].to_vec()),
        (1, row(1, &[2, 3]), {
            let mut cut = row(1, &[2, 3]);
            cut[0] += 1;
            cut
        }),
        (2, record(6, &[]), record(7, &[])),
        (2, record(5, &[]), record(0, &[])),
        (2, record(5, &[]), record(0x105, &[])),
        (2, row(0, &[1]), atoms(9)),
        (2, [row(0, &[]), record(5, &[])].concat(), [record(5, &[]), row(0, &[])].concat()),
        (2, [table(0, &[], &[0, 0]), decision(1, 0)].concat(), [decision(1, 0), table(0, &[], &[0, 0])].concat()),
        (3, row(0, &[]), record(2, &[])),
        (3, row(0, &[1]), record(2, &[0, 1])),
        (3, decision(1, 1), record(4, &[1, 0])),
        (3, decision(1, 1), record(4, &[1, 0, 1, 0])),
        (3, record(5, &[]), record(5, &[0])),
        (3, record(6, &[]), record(6, &[0, 0])),
        (3, table(0, &[], &[0, 0]), record(3, &[])),
        (3, table(2, &[0, 1], exact[0]), table(2, &[0, 1], &[6])),
        (3, table(2, &[0, 1], exact[0]), table(2, &[0, 1], &[6, 0, 0])),
        (3, table(7, &named[..7], &open[..2]), table(7, &named[..7], &open)),
        (4, row(1, &[8]), row(1, &[9])),
        (4, row(1, &[8]), row(2, &[8])),
        (4, decision(8, 0), decision(9, 0)),
        (4, decision(8, 1), decision(8, 2)),
        (4, table(8, &named, &open), table(9, &named, &open)),
        (4, table(2, &[7, 8], exact[1]), table(2, &[7, 9], exact[1])),
        (5, table(2, &[3, 4], exact[1]), table(2, &[4, 4], exact[1])),
        (5, table(2, &[3, 4], exact[1]), table(2, &[4, 3], exact[1])),
        (6, table(2, &[3, 4], exact[0]), table(2, &[3, 4], &[8, 0])),
        (6, table(8, &named, &open), table(8, &named, &[1, 0, 0, 0])),
        (7, rows(512), rows(513)),
        (7, [rows(511), table(1, &[3], &[1, 0])].concat(), [rows(512), table(1, &[3], &[1, 0])].concat()),
        (7, [rows(511), table(2, &[3, 4], &[9, 0])].concat(), [rows(511), table(2, &[3, 4], &[7, 0])].concat()),
    ];
    cases.iter_mut().for_each(|(_, fit, unfit)| [fit, unfit].into_iter().for_each(|file| *file = [head.clone(), file.clone()].concat()));
    cases.extend([
        (2, head.clone(), Vec::new()),
        (2, head.clone(), record(5, &[])),
        (3, head.clone(), record(1, &[1])),
        (3, head.clone(), record(1, &[1, 0, 0])),
        (4, [atoms(512), row(1, &[511])].concat(), atoms(513)),
        (4, [atoms(1), row(1, &[0])].concat(), [atoms(0), row(1, &[0])].concat()),
        (8, calls(65536), calls(65537)),
        (8, calls(65536), vec![0; 65537]),
        (8, calls(65535), vec![7; 70000]),
    ]);
    let outcome = |(number, fit, unfit): (usize, Vec<u8>, Vec<u8>)| {
        let numbers = [&fit, &unfit].map(|file| unsafe { raw::worzubil_check(file.as_ptr(), file.len()) }.number);
        tally.edge(format!("file {number}"), false);
        tally.edge(format!("file {number}"), true);
        let good = same("numbers of two files", numbers, [0, number]);
        (fit.len(), good.and_then(|()| compare(&fit, tally)).and_then(|()| compare(&unfit, tally)))
    };
    cases.into_iter().map(outcome).collect()
}

/// A table whose allowed patterns are those that meet a few equations, with a bit turned at times.
fn any_table(k: usize, random: &mut Random) -> Vec<u64> {
    let mut words = vec![0u64; 2 * (1usize << k).div_ceil(128)];
    let equations: Vec<(usize, u32)> = (0..random.below(k + 2)).map(|_| (random.below(1 << k), random.below(2) as u32)).collect();
    for pattern in 0..1usize << k {
        let met = equations.iter().all(|(mask, constant)| (pattern & mask).count_ones() % 2 == *constant);
        words[pattern / 64] |= u64::from(!met) << (pattern % 64);
    }
    match random.below(4) {
        0 => words[random.below(2)] ^= 1 << random.below(64),
        1 => words.iter_mut().for_each(|word| *word |= random.word() & random.word()),
        _ => {}
    }
    words
}

/// One table of up to eight atoms to both, and at times one of nine, or of a word more or less.
pub fn tables(random: &mut Random, tally: &mut Tally) -> Check {
    let k = random.between(0, 8);
    let mut words = any_table(k, random);
    tally.edge("table length".into(), false);
    calls::propose(k, &words, tally)?;
    if k == 8 {
        tally.edge("table atoms".into(), false);
        tally.edge("table atoms".into(), true);
        calls::propose(9, &words, tally)?;
        calls::propose(9, &[&words[..], &words[..]].concat(), tally)?;
    }
    tally.edge("table length".into(), true);
    calls::propose(k, &words[1..], tally)?;
    words.push(0);
    calls::propose(k, &words, tally)
}

/// A random file, at times damaged.
pub fn any_file(random: &mut Random, tally: &mut Tally) -> (usize, Check) {
    let made = make(random);
    let mut file = atoms(made.atoms);
    for number in 0..made.count {
        let words = &made.rows[number * width(made.atoms)..][..width(made.atoms)];
        let named: Vec<usize> = (0..made.atoms).filter(|&atom| has(words, atom)).take(60).collect();
        file.extend(row(made.constants[number], &named));
        if random.once_in(12) {
            let k = random.below(made.atoms.min(8) + 1);
            let start = random.below(made.atoms - k + 1);
            file.extend(table(k as u8, &(start..start + k).collect::<Vec<_>>(), &any_table(k, random)));
        }
    }
    for _ in 0..random.below(40) {
        file.extend(match random.below(4) {
            0 => record(5, &[]),
            1 => record(6, &[]),
            _ if made.atoms == 0 => Vec::new(),
            _ => {
                let atom = random.below(made.atoms);
                decision(atom, u8::from(made.truth[atom] != random.once_in(10)))
            }
        });
    }
    for _ in 0..if random.once_in(2) { random.between(1, 3) } else { 0 } {
        let at = random.below(file.len() + 1);
        match random.below(3) {
            0 => file.insert(at, random.below(8) as u8),
            1 if at < file.len() => drop(file.remove(at)),
            _ if at < file.len() => file[at] ^= 1 << random.below(8),
            _ => {}
        }
    }
    let outcome = compare(&file, tally);
    (file.len(), outcome.map_err(|text| format!("{text}\n  file {:02x?}", &file[..file.len().min(400)])))
}
