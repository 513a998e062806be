//! The declarations of include/worzubil.h, one to one and in its order. The header says what each call asks and answers.
//!
//! A buffer is a pointer and then its length in elements. The pointer is not null and is aligned, also where the length is 0; a buffer
//! that a call changes overlaps no other of that call.

/// The value answers; of a yes or no it is 1 or 0.
pub const ANSWERED: usize = 0;
/// Nothing is there.
pub const NOTHING: usize = 1;
/// Lengths differ, or a row or a mask does not lie within what is lent.
pub const UNFIT: usize = 2;
/// 2^58 words or more.
pub const TOO_WIDE: usize = 3;

/// `worzubil_answer`: with any kind but `ANSWERED` the value is 0.
#[repr(C)]
#[derive(Clone, Copy, Debug, Default, PartialEq, Eq)]
pub struct Answer {
    /// `ANSWERED`, `NOTHING`, `UNFIT` or `TOO_WIDE`.
    pub kind: usize,
    /// The answer.
    pub value: usize,
}

/// `worzubil_located`: the word of an atom, and its bit there.
#[repr(C)]
#[derive(Clone, Copy, Debug, Default, PartialEq, Eq)]
pub struct Located {
    /// The word.
    pub word: usize,
    /// The one bit of the atom, in its word.
    pub bit: u64,
}

/// `worzubil_step`: the lowest set bit of a word, and the word without it.
#[repr(C)]
#[derive(Clone, Copy, Debug, Default, PartialEq, Eq)]
pub struct Step {
    /// `ANSWERED` or `NOTHING`.
    pub kind: usize,
    /// The place of the bit, 0 to 63.
    pub bit: usize,
    /// The word without it.
    pub remaining: u64,
}

/// `worzubil_span`: where words lie in a buffer.
#[repr(C)]
#[derive(Clone, Copy, Debug, Default, PartialEq, Eq)]
pub struct Span {
    /// `ANSWERED` or `UNFIT`.
    pub kind: usize,
    /// The first word.
    pub start: usize,
    /// How many words.
    pub length: usize,
}

/// `worzubil_equation`: one equation of a table.
#[repr(C)]
#[derive(Clone, Copy, Debug, Default, PartialEq, Eq)]
pub struct Equation {
    /// Bit i is the i-th atom named.
    pub coefficients: u8,
    /// True for odd.
    pub constant: bool,
}

/// `worzubil_hull`: the equations of a table.
#[repr(C)]
#[derive(Clone, Copy, Debug, Default, PartialEq, Eq)]
pub struct Hull {
    /// Those from `count` on are 0.
    pub equations: [Equation; 8],
    /// How many there are.
    pub count: usize,
    /// Whether the table says just what the equations say.
    pub exact: bool,
}

/// `worzubil_proposal`: number 0 and a hull, or 17 and all else 0.
#[repr(C)]
#[derive(Clone, Copy, Debug, Default, PartialEq, Eq)]
pub struct Proposal {
    /// 0 or 17.
    pub number: usize,
    /// The equations.
    pub hull: Hull,
}

/// `worzubil_system`: a system as preparation leaves it.
#[repr(C)]
#[derive(Clone, Copy, Debug, Default, PartialEq, Eq)]
pub struct System {
    /// The atom count n.
    pub atoms: usize,
    /// The row count m.
    pub rows: usize,
    /// The rows in the basis.
    pub rank: usize,
    /// Whether a row was left empty with constant 1.
    pub refuted: bool,
}

/// `worzubil_prepared`: number 0, or 10, 9 or 11 and all else 0.
#[repr(C)]
#[derive(Clone, Copy, Debug, Default, PartialEq, Eq)]
pub struct Prepared {
    /// 0, 9, 10 or 11.
    pub number: usize,
    /// The system.
    pub system: System,
    /// How often one row was added to another.
    pub additions: usize,
    /// The basis rows of one atom.
    pub units: usize,
    /// The bits set in the index.
    pub incidences: usize,
}

/// `worzubil_region`: which of so many atoms are settled. Held ones are true, cut ones false, the others open.
#[repr(C)]
#[derive(Clone, Copy, Debug, Default, PartialEq, Eq)]
pub struct Region {
    /// The atom count.
    pub atoms: usize,
    /// The set of the atoms held.
    pub held: [u64; 8],
    /// The set of the atoms cut.
    pub cut: [u64; 8],
}

/// `worzubil_new_region`: number 0, or 10 and all else 0.
#[repr(C)]
#[derive(Clone, Copy, Debug, Default, PartialEq, Eq)]
pub struct NewRegion {
    /// 0 or 10.
    pub number: usize,
    /// The region.
    pub region: Region,
}

/// The atom was open, and is settled so.
pub const TAKEN: usize = 0;
/// The atom was settled so before.
pub const SAME: usize = 1;
/// The atom is settled otherwise.
pub const AGAINST: usize = 2;

/// Nothing was settled.
pub const UNCHANGED: usize = 0;
/// An atom was settled, or more.
pub const CHANGED: usize = 1;
/// No assignment meets the rows and agrees with the region.
pub const REFUTED: usize = 2;

/// The kind of a decision and of an inspection that are refused.
pub const REFUSED: usize = 3;

/// `worzubil_decision`: the number is 0 but with `REFUSED`; the region is as passed but with `TAKEN`.
#[repr(C)]
#[derive(Clone, Copy, Debug, Default, PartialEq, Eq)]
pub struct Decision {
    /// `TAKEN`, `SAME`, `AGAINST` or `REFUSED`.
    pub kind: usize,
    /// 0, 10, 11, 12 or 18.
    pub number: usize,
    /// The region, with the atom settled where it was taken.
    pub region: Region,
}

/// `worzubil_snapshot`: the region of the last inspection that was published, if any was.
#[repr(C)]
#[derive(Clone, Copy, Debug, Default, PartialEq, Eq)]
pub struct Snapshot {
    /// Whether one was published; where none was, the other fields do not count.
    pub initialized: bool,
    /// The atom count of that region.
    pub atoms: usize,
    /// What it held.
    pub held: [u64; 8],
    /// What it cut.
    pub cut: [u64; 8],
}

/// `worzubil_published`: number 0, or 10, 11 or 12 and the knowledge is as passed.
#[repr(C)]
#[derive(Clone, Copy, Debug, Default, PartialEq, Eq)]
pub struct Published {
    /// 0, 10, 11 or 12.
    pub number: usize,
    /// The knowledge.
    pub known: Snapshot,
}

/// `worzubil_ordinals`: a set of basis rows; place j is bit j % 64 of word j / 64.
#[repr(C)]
#[derive(Clone, Copy, Debug, Default, PartialEq, Eq)]
pub struct Ordinals {
    /// The words of the set.
    pub words: [u64; 8],
}

/// `worzubil_selected`: number 0, or that of the refusal and no row is in the set.
#[repr(C)]
#[derive(Clone, Copy, Debug, Default, PartialEq, Eq)]
pub struct Selected {
    /// 0, or 9 to 16.
    pub number: usize,
    /// The touched rows, by their places in the basis.
    pub rows: Ordinals,
}

/// `worzubil_inspection`: with `REFUSED` the number is not 0, the counts are 0, and region and knowledge are as passed.
#[repr(C)]
#[derive(Clone, Copy, Debug, Default, PartialEq, Eq)]
pub struct Inspection {
    /// `UNCHANGED`, `CHANGED`, `REFUTED` or `REFUSED`.
    pub kind: usize,
    /// 0, or 9 to 16.
    pub number: usize,
    /// The atoms settled as true.
    pub held: usize,
    /// The atoms settled as false.
    pub cut: usize,
    /// The entries of the forced list.
    pub forced: usize,
    /// The region afterwards.
    pub region: Region,
    /// The knowledge afterwards.
    pub known: Snapshot,
}

/// `worzubil_probed`: on yes there are exactly 2^(undecided - kept) ways; refused, the other fields are 0.
#[repr(C)]
#[derive(Clone, Copy, Debug, Default, PartialEq, Eq)]
pub struct Probed {
    /// 0, or 9 to 13 or 15.
    pub number: usize,
    /// Whether the open atoms can come out.
    pub yes: bool,
    /// How many atoms are open.
    pub undecided: usize,
    /// How many independent rows were kept.
    pub kept: usize,
}

/// `worzubil_checked`: number 0 with the atoms and rows of a file, or the number and the place of its refusal.
#[repr(C)]
#[derive(Clone, Copy, Debug, Default, PartialEq, Eq)]
pub struct Checked {
    /// 0, or 1 to 9.
    pub number: usize,
    /// The place in the file.
    pub offset: usize,
    /// The atom count.
    pub atoms: usize,
    /// The row count, tables counted as the rows that they become.
    pub rows: usize,
}

/// `worzubil_answered`: number 0 and the length of the text, or 9.
#[repr(C)]
#[derive(Clone, Copy, Debug, Default, PartialEq, Eq)]
pub struct Answered {
    /// 0 or 9.
    pub number: usize,
    /// The bytes written.
    pub length: usize,
}

/// `worzubil_seen`: an inspection without the knowledge.
#[repr(C)]
#[derive(Clone, Copy, Debug, Default, PartialEq, Eq)]
pub struct Seen {
    /// `UNCHANGED`, `CHANGED`, `REFUTED` or `REFUSED`.
    pub kind: usize,
    /// 0, or 9 to 16.
    pub number: usize,
    /// The atoms settled as true.
    pub held: usize,
    /// The atoms settled as false.
    pub cut: usize,
    /// The entries of the forced list.
    pub forced: usize,
    /// The region afterwards.
    pub region: Region,
}

/// `worzubil_forced`: one entry of a forced list.
#[repr(C)]
#[derive(Clone, Copy, Debug, Default, PartialEq, Eq)]
pub struct Forced {
    /// The atom.
    pub atom: usize,
    /// The value that it must have, 0 or 1.
    pub value: u8,
}

/// `WORZUBIL_ROOM`: the room that `worzubil_answer_file` asks for the text of a file of so many bytes.
pub const fn room(file_length: usize) -> usize {
    64 + 8 * if file_length < 65536 { file_length } else { 65536 }
}

extern "C" {
    /// The word of an atom and its bit there.
    pub fn worzubil_locate(atom: usize) -> Located;
    /// The number of set bits of a word.
    pub fn worzubil_popcount(word: u64) -> u32;
    /// The lowest set bit of a word, and the word without it.
    pub fn worzubil_next(word: u64) -> Step;

    /// Whether the set has the atom.
    pub fn worzubil_contains(words: *const u64, words_length: usize, atom: usize) -> bool;
    /// Adds the atom; false where the set is too short.
    pub fn worzubil_insert(words: *mut u64, words_length: usize, atom: usize) -> bool;
    /// Takes every atom out.
    pub fn worzubil_clear(words: *mut u64, words_length: usize);
    /// Adds the atoms of right to left; false where the lengths differ.
    pub fn worzubil_union_assign(left: *mut u64, left_length: usize, right: *const u64, right_length: usize) -> bool;
    /// Leaves in left the atoms that are in just one of the two; false where the lengths differ.
    pub fn worzubil_xor_assign(left: *mut u64, left_length: usize, right: *const u64, right_length: usize) -> bool;
    /// Whether every atom of left is in right.
    pub fn worzubil_is_subset_of(left: *const u64, left_length: usize, right: *const u64, right_length: usize) -> Answer;
    /// Whether an odd number of atoms is in both.
    pub fn worzubil_intersection_parity(left: *const u64, left_length: usize, right: *const u64, right_length: usize) -> Answer;
    /// How many atoms are in both.
    pub fn worzubil_intersection_count(left: *const u64, left_length: usize, right: *const u64, right_length: usize) -> Answer;
    /// How many atoms the set has.
    pub fn worzubil_count(words: *const u64, words_length: usize) -> Answer;
    /// The lowest atom.
    pub fn worzubil_first(words: *const u64, words_length: usize) -> Answer;

    /// The words of a row of so many atoms.
    pub fn worzubil_width(atoms: usize) -> usize;
    /// The row that a place of the basis names.
    pub fn worzubil_source_at(basis: *const usize, basis_length: usize, place: usize) -> Answer;
    /// Where a row's words lie.
    pub fn worzubil_row(rows: *const u64, rows_length: usize, width: usize, number: usize) -> Span;
    /// A row's lowest atom.
    pub fn worzubil_lowest_atom(rows: *const u64, rows_length: usize, width: usize, number: usize) -> Answer;
    /// Whether the row has an odd number of the mask's atoms.
    pub fn worzubil_overlap_parity(
        rows: *const u64,
        rows_length: usize,
        width: usize,
        number: usize,
        mask: *const u64,
        mask_length: usize,
    ) -> Answer;
    /// How many of the mask's atoms the row has.
    pub fn worzubil_overlap_count(
        rows: *const u64,
        rows_length: usize,
        width: usize,
        number: usize,
        mask: *const u64,
        mask_length: usize,
    ) -> Answer;
    /// Adds row `source` to the later row `target`.
    pub fn worzubil_add(
        rows: *mut u64,
        rows_length: usize,
        constants: *mut u8,
        constants_length: usize,
        width: usize,
        target: usize,
        source: usize,
    ) -> bool;

    /// The equations of a table of k atoms.
    pub fn worzubil_propose(k: usize, forbidden: *const u64, forbidden_length: usize) -> Proposal;
    /// Writes a hull's equations as rows over the atoms named.
    pub fn worzubil_write(
        hull: Hull,
        names: *const usize,
        names_length: usize,
        width: usize,
        rows: *mut u64,
        rows_length: usize,
        constants: *mut u8,
        constants_length: usize,
        first: usize,
    ) -> bool;

    /// Prepares m rows over n atoms in place.
    pub fn worzubil_prepare(
        n: usize,
        m: usize,
        rows: *mut u64,
        rows_length: usize,
        constants: *mut u8,
        constants_length: usize,
        basis: *mut usize,
        basis_length: usize,
        unit_atoms: *mut usize,
        unit_atoms_length: usize,
        unit_values: *mut u8,
        unit_values_length: usize,
        index: *mut u64,
        index_length: usize,
    ) -> Prepared;
    /// Where the column of an atom lies.
    pub fn worzubil_column(index: *const u64, index_length: usize, n: usize, rank: usize, atom: usize) -> Span;
    /// The number under which that column is refused, or 0.
    pub fn worzubil_column_number(index: *const u64, index_length: usize, n: usize, rank: usize, atom: usize) -> usize;

    /// A region of n atoms, all open.
    pub fn worzubil_undecided(n: usize) -> NewRegion;
    /// Settles an atom as true.
    pub fn worzubil_hold(region: Region, atom: usize) -> Decision;
    /// Settles an atom as false.
    pub fn worzubil_cut(region: Region, atom: usize) -> Decision;
    /// Knowledge of nothing.
    pub fn worzubil_fresh() -> Snapshot;
    /// Knowledge of this region in the place of what was known.
    pub fn worzubil_publish(known: Snapshot, region: Region) -> Published;
    /// The basis rows that are touched.
    pub fn worzubil_touched(system: System, index: *const u64, index_length: usize, region: Region, known: Snapshot) -> Selected;
    /// Inspects the touched basis rows of a prepared system once.
    pub fn worzubil_inspect(
        system: System,
        rows: *const u64,
        rows_length: usize,
        constants: *const u8,
        constants_length: usize,
        basis: *const usize,
        basis_length: usize,
        index: *const u64,
        index_length: usize,
        region: Region,
        known: Snapshot,
        forced_atoms: *mut usize,
        forced_atoms_length: usize,
        forced_values: *mut u8,
        forced_values_length: usize,
    ) -> Inspection;

    /// Probes the basis rows of a prepared system against a region.
    pub fn worzubil_probe(
        system: System,
        rows: *const u64,
        rows_length: usize,
        constants: *const u8,
        constants_length: usize,
        basis: *const usize,
        basis_length: usize,
        region: Region,
    ) -> Probed;

    /// Checks a whole file.
    pub fn worzubil_check(file: *const u8, file_length: usize) -> Checked;
    /// Checks a file and writes its rows.
    pub fn worzubil_load(
        file: *const u8,
        file_length: usize,
        rows: *mut u64,
        rows_length: usize,
        constants: *mut u8,
        constants_length: usize,
    ) -> Checked;
    /// Answers a file.
    pub fn worzubil_answer_file(file: *const u8, file_length: usize, out: *mut u8, out_length: usize) -> Answered;

    /// `worzubil_publish` in the very record that is passed; of the archive `by_ref`, as the two below.
    pub fn worzubil_publish_in(known: *mut Snapshot, region: Region) -> usize;
    /// `worzubil_inspect` with the knowledge in the very record that is passed.
    pub fn worzubil_inspect_in(
        system: System,
        rows: *const u64,
        rows_length: usize,
        constants: *const u8,
        constants_length: usize,
        basis: *const usize,
        basis_length: usize,
        index: *const u64,
        index_length: usize,
        region: Region,
        known: *mut Snapshot,
        forced_atoms: *mut usize,
        forced_atoms_length: usize,
        forced_values: *mut u8,
        forced_values_length: usize,
    ) -> Seen;
    /// `worzubil_inspect` with one list of entries in the place of the two.
    pub fn worzubil_inspect_list(
        system: System,
        rows: *const u64,
        rows_length: usize,
        constants: *const u8,
        constants_length: usize,
        basis: *const usize,
        basis_length: usize,
        index: *const u64,
        index_length: usize,
        region: Region,
        known: Snapshot,
        list: *mut Forced,
        list_length: usize,
    ) -> Inspection;
}
