//! Region by document 01's meaning: n, held and cut masks of ceil(n/64) words.

/// The three answers of an inspection.
#[derive(Clone, Copy, Debug, PartialEq, Eq)]
pub enum SubjectStep {
    Unchanged,
    Changed,
    Refuted,
}

/// The three answers of a decision.
#[derive(Clone, Copy, Debug, PartialEq, Eq)]
pub enum Decided {
    Taken,
    Same,
    Against,
}

#[derive(Clone, Debug)]
pub struct Region {
    atoms: usize,
    held: Vec<u64>,
    cut: Vec<u64>,
}

impl Region {
    pub fn undecided(atoms: usize) -> Self {
        let words = vec![0; atoms.div_ceil(64)];
        Self {
            atoms,
            held: words.clone(),
            cut: words,
        }
    }

    /// Any masks, fit or not, of ceil(atoms/64) words each.
    pub fn lent(atoms: usize, held: Vec<u64>, cut: Vec<u64>) -> Self {
        assert!(held.len() == atoms.div_ceil(64) && cut.len() == held.len());
        Self { atoms, held, cut }
    }

    pub fn len(&self) -> usize {
        self.atoms
    }

    pub fn mask_words(&self) -> usize {
        self.held.len()
    }

    pub fn decision_words(&self) -> (&[u64], &[u64]) {
        (&self.held, &self.cut)
    }

    pub fn decision(&self, atom: usize) -> Option<bool> {
        assert!(atom < self.atoms, "an atom is below n");
        let bit = |words: &[u64]| words[atom / 64] >> (atom % 64) & 1 != 0;
        if bit(&self.held) {
            Some(true)
        } else {
            bit(&self.cut).then_some(false)
        }
    }

    pub fn decide(&mut self, atom: usize, value: bool) -> Decided {
        match self.decision(atom) {
            Some(known) if known == value => Decided::Same,
            Some(_) => Decided::Against,
            None => {
                let words = if value { &mut self.held } else { &mut self.cut };
                words[atom / 64] |= 1 << (atom % 64);
                Decided::Taken
            }
        }
    }

    /// Whether the decision is accepted.
    pub fn hold(&mut self, atom: usize) -> bool {
        self.decide(atom, true) != Decided::Against
    }

    pub fn cut(&mut self, atom: usize) -> bool {
        self.decide(atom, false) != Decided::Against
    }
}
