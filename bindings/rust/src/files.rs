//! Files of records; docs/FORMAT.md has the format.
use crate::raw;
use crate::refusal::{Refusal, RefusedAt};

/// How much a fit file says.
#[derive(Clone, Copy, Debug, PartialEq, Eq)]
pub struct Size {
    /// Its atom count.
    pub atoms: usize,
    /// Its rows, tables counted as the rows that they become.
    pub rows: usize,
}

fn checked(checked: raw::Checked) -> Result<Size, RefusedAt> {
    let raw::Checked { number, offset, atoms, rows } = checked;
    Refusal::unless_zero(number).map(|()| Size { atoms, rows }).map_err(|refusal| RefusedAt { refusal, offset })
}

/// Checks a whole file. Refused: 1 to 8.
pub fn check(file: &[u8]) -> Result<Size, RefusedAt> {
    // SAFETY: a slice is not null, is aligned and has its length.
    checked(unsafe { raw::worzubil_check(file.as_ptr(), file.len()) })
}

/// Checks a file and writes its rows, as [`prepare`](crate::prepare) takes them. For m rows of n atoms, as [`check`] tells them, the rows
/// have m * [`width`](crate::width) of n words, the constants m bytes. Refused, and nothing written: 1 to 8, or 9 where one is shorter.
pub fn load(file: &[u8], rows: &mut [u64], constants: &mut [u8]) -> Result<Size, RefusedAt> {
    // SAFETY: slices are not null, are aligned and have their lengths; the changed ones are lent by `&mut`, so they overlap no other.
    checked(unsafe {
        raw::worzubil_load(file.as_ptr(), file.len(), rows.as_mut_ptr(), rows.len(), constants.as_mut_ptr(), constants.len())
    })
}

/// The room that [`answer_into`] asks for the text of a file of so many bytes.
pub const fn room(file_length: usize) -> usize {
    raw::room(file_length)
}

/// Answers a file, as the program `swaps` does, into the start of `out`: the text. Refused: 9 where `out` is shorter than [`room`] says.
/// A file that is refused has a text too: the line that refuses it.
pub fn answer_into<'a>(file: &[u8], out: &'a mut [u8]) -> Result<&'a [u8], Refusal> {
    // SAFETY: slices are not null, are aligned and have their lengths; the changed one is lent by `&mut`, so it overlaps no other.
    let answered = unsafe { raw::worzubil_answer_file(file.as_ptr(), file.len(), out.as_mut_ptr(), out.len()) };
    Refusal::unless_zero(answered.number).map(|()| &out[..answered.length])
}

/// Answers a file, as the program `swaps` does: its lines, or the line that refuses it.
pub fn answer(file: &[u8]) -> String {
    let mut out = vec![0; room(file.len())];
    let length = answer_into(file, &mut out).expect("there is room").len();
    out.truncate(length);
    String::from_utf8(out).expect("the text is ASCII")
}
