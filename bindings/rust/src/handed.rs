//! Rows and tables as they are handed in, in memory that grows with them.
use crate::refusal::{Refusal, RefusedAt};
use crate::rows::{propose, width, write, Hull};
use crate::systems::{Prepared, LIMIT};
use crate::{files, sets};

/// Rows over so many atoms, to be prepared.
#[derive(Clone, Debug, PartialEq, Eq)]
pub struct Rows {
    atoms: usize,
    words: Vec<u64>,
    constants: Vec<u8>,
}

impl Rows {
    /// No rows, over n atoms. Refused: 10 where n is above 512.
    pub fn new(n: usize) -> Result<Rows, Refusal> {
        if n > LIMIT {
            return Err(Refusal(10));
        }
        Ok(Rows { atoms: n, words: Vec::new(), constants: Vec::new() })
    }

    /// The rows and tables of a file. Refused: 1 to 8.
    pub fn of_file(file: &[u8]) -> Result<Rows, RefusedAt> {
        let size = files::check(file)?;
        let mut rows = Rows { atoms: size.atoms, words: Vec::new(), constants: Vec::new() };
        rows.grow(size.rows);
        files::load(file, &mut rows.words, &mut rows.constants)?;
        Ok(rows)
    }

    /// How many rows there are.
    pub fn count(&self) -> usize {
        self.constants.len()
    }

    /// Hands in that an odd, or an even, number of these atoms is true; one that is named twice counts once.
    /// Refused: 18 where an atom is not below the atom count.
    pub fn push(&mut self, atoms: &[usize], odd: bool) -> Result<(), Refusal> {
        self.have(atoms)?;
        let start = self.words.len();
        self.grow(1);
        for &atom in atoms {
            sets::insert(&mut self.words[start..], atom).expect("the row reaches every atom");
        }
        *self.constants.last_mut().expect("a row was added") = u8::from(odd);
        Ok(())
    }

    /// Hands in a table over these atoms, as the rows of its equations, which are returned. What is forbidden is told as to [`propose`].
    /// Refused: 17 by [`propose`]; 18 where an atom is not below the atom count; 5 where the atoms do not rise; 6 where the table is not
    /// exact, so that no rows say just what it says.
    pub fn push_table(&mut self, atoms: &[usize], forbidden: &[u64]) -> Result<Hull, Refusal> {
        let hull = propose(atoms.len(), forbidden)?;
        self.have(atoms)?;
        if atoms.windows(2).any(|pair| pair[0] >= pair[1]) {
            return Err(Refusal(5));
        }
        if !hull.exact {
            return Err(Refusal(6));
        }
        let first = self.count();
        self.grow(hull.count);
        write(&hull, atoms, width(self.atoms), &mut self.words, &mut self.constants, first).expect("the rows have grown by the count");
        Ok(hull)
    }

    /// Prepares them. Refused: 10 where there are more than 512.
    pub fn prepare(self) -> Result<Prepared, Refusal> {
        Prepared::new(self.atoms, self.words, self.constants)
    }

    fn have(&self, atoms: &[usize]) -> Result<(), Refusal> {
        if atoms.iter().any(|&atom| atom >= self.atoms) {
            return Err(Refusal(18));
        }
        Ok(())
    }

    /// Adds so many empty rows with constant 0.
    fn grow(&mut self, more: usize) {
        let count = self.count() + more;
        self.words.resize(count * width(self.atoms), 0);
        self.constants.resize(count, 0);
    }
}
