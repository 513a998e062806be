//! The records of a file, checked: rows and equations in place, then calls; or a refusal.

use zetesis_ferraris::regions::arithmetic::{self, Row};

pub struct Records {
    pub atoms: usize,
    pub rows: Vec<Row>,
    pub calls: Vec<Call>,
}

pub enum Call {
    Decide(usize, bool),
    Inspect,
    Probe,
}

/// A refusal number and the offset of its record.
pub type Refusal = (u8, usize);

pub fn check(file: &[u8]) -> Result<Records, Refusal> {
    if file.len() > 65536 {
        return Err((8, 65536));
    }
    if file.is_empty() {
        return Err((2, 0));
    }
    let mut records = Records {
        atoms: 0,
        rows: Vec::new(),
        calls: Vec::new(),
    };
    let mut at = 0;
    while at < file.len() {
        let record = cut_record(&file[at..]).ok_or((1, at))?;
        records
            .take(record, at == 0)
            .map_err(|number| (number, at))?;
        at += 2 + record.len();
    }
    Ok(records)
}

fn number(bytes: &[u8]) -> usize {
    usize::from(u16::from_le_bytes([bytes[0], bytes[1]]))
}

/// Kind and body of the first record, if its length is fit.
fn cut_record(rest: &[u8]) -> Option<&[u8]> {
    let length = number(rest.get(..2)?);
    rest.get(2..2 + length).filter(|record| record.len() >= 2)
}

fn refuse(number: u8, when: bool) -> Result<(), u8> {
    if when { Err(number) } else { Ok(()) }
}

impl Records {
    fn take(&mut self, record: &[u8], first: bool) -> Result<(), u8> {
        let (kind, body) = (number(record), &record[2..]);
        let in_order = match kind {
            1 => first,
            2 | 3 => !first && self.calls.is_empty(),
            4..=6 => !first,
            _ => false,
        };
        refuse(2, !in_order)?;
        match kind {
            1 => self.count(body),
            2 => self.row(body),
            3 => self.table(body),
            4 => self.decision(body),
            _ => {
                refuse(3, !body.is_empty())?;
                self.calls.push(if kind == 5 {
                    Call::Inspect
                } else {
                    Call::Probe
                });
                Ok(())
            }
        }
    }

    fn count(&mut self, body: &[u8]) -> Result<(), u8> {
        refuse(3, body.len() != 2)?;
        self.atoms = number(body);
        refuse(4, self.atoms > 512)
    }

    fn row(&mut self, body: &[u8]) -> Result<(), u8> {
        refuse(3, body.len() % 2 == 0)?;
        let atoms = self.atoms_below(&body[1..])?;
        refuse(4, body[0] > 1)?;
        self.push(&atoms, body[0] == 1)
    }

    fn decision(&mut self, body: &[u8]) -> Result<(), u8> {
        refuse(3, body.len() != 3)?;
        let atoms = self.atoms_below(&body[..2])?;
        refuse(4, body[2] > 1)?;
        self.calls.push(Call::Decide(atoms[0], body[2] == 1));
        Ok(())
    }

    fn table(&mut self, body: &[u8]) -> Result<(), u8> {
        let (&k, rest) = body.split_first().ok_or(3)?;
        refuse(4, k > 8)?;
        let k = usize::from(k);
        refuse(3, rest.len() != 2 * k + 16 * (1usize << k).div_ceil(128))?;
        let (atoms, words) = rest.split_at(2 * k);
        let atoms = self.atoms_below(atoms)?;
        refuse(5, atoms.windows(2).any(|pair| pair[0] >= pair[1]))?;
        let word = |bytes: &[u8]| u64::from_le_bytes(bytes.try_into().expect("8 bytes"));
        let forbidden: Vec<u64> = words.chunks(8).map(word).collect();
        let (equations, exact) = arithmetic::propose(k, &forbidden);
        refuse(6, !exact)?;
        for (coefficients, constant) in equations {
            let named = (0..k).filter(|bit| coefficients >> bit & 1 == 1);
            self.push(&named.map(|bit| atoms[bit]).collect::<Vec<_>>(), constant)?;
        }
        Ok(())
    }

    fn atoms_below(&self, bytes: &[u8]) -> Result<Vec<usize>, u8> {
        let atoms: Vec<usize> = bytes.chunks(2).map(number).collect();
        refuse(4, atoms.iter().any(|&atom| atom >= self.atoms))?;
        Ok(atoms)
    }

    fn push(&mut self, atoms: &[usize], constant: bool) -> Result<(), u8> {
        refuse(7, self.rows.len() == 512)?;
        let mut words = vec![0; self.atoms.div_ceil(64)];
        for atom in atoms {
            words[atom / 64] |= 1 << (atom % 64);
        }
        self.rows.push((words, constant));
        Ok(())
    }
}
