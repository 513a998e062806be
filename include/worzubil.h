/* The calls of the library for C, proved in crates/ffi and, where a record or a list of entries is lent, in crates/by_ref, and exported by
 * crates/ffi_c and crates/by_ref_c; link target/staticlib/libffi.a and libby_ref.a, which `tests/archives` builds, or the one that has what
 * is called.
 *
 * A set is an array of 64-bit words: atom a is bit a % 64 of word a / 64. Rows lie one after the other in one array: row r of
 * width w is the words r * w to r * w + w - 1, and its constant is byte r of the constants.
 *
 * A buffer is a pointer and then its length in elements. The pointer is not NULL and is aligned for its element, also where
 * the length is 0; a buffer that a call changes overlaps no other of that call. Nothing outside a buffer is read or written,
 * no call keeps a pointer, and every call ends. Any number is taken for any parameter: what is unfit changes nothing, and the
 * answer says so; where more than one number applies, it is the first in the call's list; docs/FORMAT.md has the order
 * for files. */
#ifndef WORZUBIL_H
#define WORZUBIL_H

#include <stdbool.h>
#include <stddef.h>
#include <stdint.h>

#ifdef __cplusplus
extern "C" {
#endif

/* The kinds of an answer. With any but the first, all other fields are 0. */
enum {
    WORZUBIL_ANSWERED = 0, /* the value answers; of a yes or no it is 1 or 0 */
    WORZUBIL_NOTHING = 1,  /* nothing is there */
    WORZUBIL_UNFIT = 2,    /* lengths differ, or a row or a mask does not lie within what is lent */
    WORZUBIL_TOO_WIDE = 3  /* 2^58 words or more: more bits than a size_t numbers */
};

typedef struct {
    size_t kind;
    size_t value;
} worzubil_answer;

typedef struct {
    size_t word;
    uint64_t bit; /* the one bit of the atom, in its word */
} worzubil_located;

typedef struct {
    size_t kind; /* WORZUBIL_ANSWERED or WORZUBIL_NOTHING */
    size_t bit;
    uint64_t remaining;
} worzubil_step;

typedef struct {
    size_t kind; /* WORZUBIL_ANSWERED or WORZUBIL_UNFIT */
    size_t start;
    size_t length;
} worzubil_span;

/* ---- one word, one atom */

/* The word of an atom and its bit there. No buffer. */
worzubil_located worzubil_locate(size_t atom);

/* The number of set bits of a word. No buffer. */
uint32_t worzubil_popcount(uint64_t word);

/* The lowest set bit of a word, and the word without it, to be asked next; WORZUBIL_NOTHING where the word is 0. No buffer. */
worzubil_step worzubil_next(uint64_t word);

/* ---- sets */

/* Whether the set has the atom. words: any length; an atom past its end is in no set: false. */
bool worzubil_contains(const uint64_t *words, size_t words_length, size_t atom);

/* Adds the atom: true. words: more than atom / 64 words; a shorter one stays as it is: false. */
bool worzubil_insert(uint64_t *words, size_t words_length, size_t atom);

/* Takes every atom out. words: any length. */
void worzubil_clear(uint64_t *words, size_t words_length);

/* Adds the atoms of right to left: true. Both of one length; where they differ, left stays as it is: false. */
bool worzubil_union_assign(uint64_t *left, size_t left_length, const uint64_t *right, size_t right_length);

/* Leaves in left the atoms that are in just one of the two: true. Both of one length; where they differ, left stays as it
 * is: false. */
bool worzubil_xor_assign(uint64_t *left, size_t left_length, const uint64_t *right, size_t right_length);

/* Whether every atom of left is in right. Both of one length; where they differ: WORZUBIL_UNFIT. */
worzubil_answer worzubil_is_subset_of(const uint64_t *left, size_t left_length, const uint64_t *right, size_t right_length);

/* Whether an odd number of atoms is in both. Both of one length; where they differ: WORZUBIL_UNFIT. */
worzubil_answer worzubil_intersection_parity(const uint64_t *left, size_t left_length, const uint64_t *right,
                                             size_t right_length);

/* How many atoms are in both. Both of one length; where they differ: WORZUBIL_UNFIT; 2^58 words or more: WORZUBIL_TOO_WIDE. */
worzubil_answer worzubil_intersection_count(const uint64_t *left, size_t left_length, const uint64_t *right,
                                            size_t right_length);

/* How many atoms the set has. words: any length; 2^58 words or more: WORZUBIL_TOO_WIDE. */
worzubil_answer worzubil_count(const uint64_t *words, size_t words_length);

/* The lowest atom, or WORZUBIL_NOTHING. words: any length; 2^58 words or more: WORZUBIL_TOO_WIDE. */
worzubil_answer worzubil_first(const uint64_t *words, size_t words_length);

/* ---- rows */

/* The words of a row of so many atoms. No buffer. */
size_t worzubil_width(size_t atoms);

/* The row that a place of the basis names. basis: more than `place` elements; of a shorter one: WORZUBIL_NOTHING. */
worzubil_answer worzubil_source_at(const size_t *basis, size_t basis_length, size_t place);

/* Where a row's words lie: `length` words from rows[start] on. rows: number * width + width words; of fewer: WORZUBIL_UNFIT. */
worzubil_span worzubil_row(const uint64_t *rows, size_t rows_length, size_t width, size_t number);

/* A row's lowest atom, or WORZUBIL_NOTHING. rows: number * width + width words; of fewer, and of a width of 2^58 or more:
 * WORZUBIL_UNFIT. */
worzubil_answer worzubil_lowest_atom(const uint64_t *rows, size_t rows_length, size_t width, size_t number);

/* Whether the row has an odd number of the mask's atoms. rows: number * width + width words; mask: width words, and what
 * follows them does not count; where one is shorter: WORZUBIL_UNFIT. */
worzubil_answer worzubil_overlap_parity(const uint64_t *rows, size_t rows_length, size_t width, size_t number,
                                        const uint64_t *mask, size_t mask_length);

/* How many of the mask's atoms the row has. rows: number * width + width words; mask: width words, and what follows them
 * does not count; where one is shorter, and of a width of 2^58 or more: WORZUBIL_UNFIT. */
worzubil_answer worzubil_overlap_count(const uint64_t *rows, size_t rows_length, size_t width, size_t number,
                                       const uint64_t *mask, size_t mask_length);

/* Adds row `source` to the later row `target`, words and constants, by exclusive or: true. rows: target * width + width words;
 * constants: more than `target` bytes; where one is shorter, or source is not below target, both stay as they are: false. */
bool worzubil_add(uint64_t *rows, size_t rows_length, uint8_t *constants, size_t constants_length, size_t width, size_t target,
                  size_t source);

/* ---- tables */

/* One equation of a table: bit i of the coefficients is the i-th atom named. */
typedef struct {
    uint8_t coefficients;
    bool constant;
} worzubil_equation;

/* The equations of a table; those from `count` on are 0. They allow all that the table allows; where they are exact they allow nothing else. */
typedef struct {
    worzubil_equation equations[8];
    size_t count;
    bool exact;
} worzubil_hull;

/* `number` is 0, or 17 and all else is 0. */
typedef struct {
    size_t number;
    worzubil_hull hull;
} worzubil_proposal;

/* The equations of a table of k atoms, 0 to 8. Bit p % 64 of word p / 64 is set where pattern p is forbidden, and bit i of a pattern is the
 * value of the i-th atom named. forbidden: just 2 * ceil(2^k / 128) words; any other length gets 17, as does k above 8. */
worzubil_proposal worzubil_propose(size_t k, const uint64_t *forbidden, size_t forbidden_length);

/* Writes a hull's equations as rows of `width` words over the atoms named, from row `first` on, with their constants: true. names: the k
 * atoms of the table, each once; with fewer, or one twice, rows are written that say something else. rows: (first + count) * width words;
 * constants: first + count bytes; where one is shorter, a name is not below width * 64 or the count is above 8, nothing is written: false. */
bool worzubil_write(worzubil_hull hull, const size_t *names, size_t names_length, size_t width, uint64_t *rows, size_t rows_length,
                    uint8_t *constants, size_t constants_length, size_t first);

/* ---- systems */

/* A system as preparation leaves it. */
typedef struct {
    size_t atoms;
    size_t rows;
    size_t rank;  /* the rows in the basis */
    bool refuted; /* a row was left empty with constant 1 */
} worzubil_system;

/* `number` is 0, or 10, 9 or 11 and all else is 0. */
typedef struct {
    size_t number;
    worzubil_system system;
    size_t additions;
    size_t units;      /* the basis rows of one atom */
    size_t incidences; /* the bits set in the index */
} worzubil_prepared;

/* Prepares m rows over n atoms in place. Each row, from the first on, is added to as long as its lowest atom is that of an earlier row;
 * if it keeps an atom, its number is the next entry of the basis. The basis rows of one atom are then listed, atoms and values apart, and
 * the index gets n columns of 2 * ceil(rank / 128) words: bit j of an atom's column is set where the row of basis[j] has the atom. A row
 * left empty with constant 1 refutes the system: the rows after it stand, and units and index are not written.
 * rows: m * ceil(n / 64) words; constants: m bytes; basis, unit_atoms and unit_values: min(m, n) elements; index:
 * n * 2 * ceil(min(m, n) / 128) words. What lies past that is neither read nor written, nor are entries past the rank, units past their
 * count or words past the n columns.
 * Refused, and nothing touched: 10 where n or m is above 512; 9 where a buffer is shorter; 11 where one of the m rows has a bit at n or
 * above, or a constant above 1. */
worzubil_prepared worzubil_prepare(size_t n, size_t m, uint64_t *rows, size_t rows_length, uint8_t *constants,
                                   size_t constants_length, size_t *basis, size_t basis_length, size_t *unit_atoms,
                                   size_t unit_atoms_length, uint8_t *unit_values, size_t unit_values_length, uint64_t *index,
                                   size_t index_length);

/* Where the column of an atom lies: `length` words from index[start] on. index: n * 2 * ceil(rank / 128) words. WORZUBIL_UNFIT where
 * worzubil_column_number is not 0. */
worzubil_span worzubil_column(const uint64_t *index, size_t index_length, size_t n, size_t rank, size_t atom);

/* The number under which that column is refused, or 0: 10 where n or rank is above 512; 9 where the index is shorter; 14 where one of its
 * n columns has a bit at the rank or above; 18 where the atom is not below n. */
size_t worzubil_column_number(const uint64_t *index, size_t index_length, size_t n, size_t rank, size_t atom);

/* ---- regions and inspections */

/* Which of so many atoms are settled: held ones are true, cut ones false, the others open. */
typedef struct {
    size_t atoms;
    uint64_t held[8];
    uint64_t cut[8];
} worzubil_region;

/* `number` is 0, or 10 and all else is 0. */
typedef struct {
    size_t number;
    worzubil_region region;
} worzubil_new_region;

/* A region of n atoms, all open, or 10 where n is above 512. No buffer. */
worzubil_new_region worzubil_undecided(size_t n);

/* The kinds of a decision. */
enum {
    WORZUBIL_TAKEN = 0,  /* the atom was open, and is settled so */
    WORZUBIL_SAME = 1,   /* it was settled so before */
    WORZUBIL_AGAINST = 2 /* it is settled otherwise */
};

/* The kinds of an inspection. */
enum {
    WORZUBIL_UNCHANGED = 0, /* nothing was settled */
    WORZUBIL_CHANGED = 1,   /* an atom was settled, or more */
    WORZUBIL_REFUTED = 2    /* no assignment meets the rows and agrees with the region */
};

/* The kind of a decision and of an inspection that are refused. */
enum { WORZUBIL_REFUSED = 3 };

/* `number` is 0 but with WORZUBIL_REFUSED. The region is as passed, but with WORZUBIL_TAKEN: then the atom is settled. */
typedef struct {
    size_t kind;
    size_t number;
    worzubil_region region;
} worzubil_decision;

/* Settles an atom as true (hold) or as false (cut). No buffer. Refused: 10 where the region has more than 512 atoms; 11 where a bit of
 * its masks is set at its atom count or above; 12 where an atom is held and cut; 18 where the atom is not below its atom count. */
worzubil_decision worzubil_hold(worzubil_region region, size_t atom);
worzubil_decision worzubil_cut(worzubil_region region, size_t atom);

/* The region of the last inspection that was published, if any was. Where none was, `atoms` and the words do not count. */
typedef struct {
    bool initialized;
    size_t atoms;
    uint64_t held[8];
    uint64_t cut[8];
} worzubil_snapshot;

/* `number` is 0, or 10, 11 or 12 and the knowledge is as passed. */
typedef struct {
    size_t number;
    worzubil_snapshot known;
} worzubil_published;

/* Knowledge of nothing: not initialized, all else 0. No buffer. */
worzubil_snapshot worzubil_fresh(void);

/* Knowledge of this region in the place of what was known. No buffer. Refused: 10, 11 and 12 as by worzubil_hold. */
worzubil_published worzubil_publish(worzubil_snapshot known, worzubil_region region);

/* A set of basis rows: place j is bit j % 64 of word j / 64. */
typedef struct {
    uint64_t words[8];
} worzubil_ordinals;

/* `number` is 0, or that of the refusal and no row is in the set. */
typedef struct {
    size_t number;
    worzubil_ordinals rows;
} worzubil_selected;

/* The basis rows that are touched: all of them where the knowledge is not initialized, else those that the index marks for an atom
 * settled since then. index: system.atoms * 2 * ceil(system.rank / 128) words; what lies past that is not read.
 * Refused: 10 where the system has more than 512 atoms or rows, or the region or the initialized knowledge more than 512 atoms; 13 where
 * the rank is above the atoms or the rows; 9 where the index is shorter; 11 where a bit of the region's masks is set at its atom count or
 * above; 12 where an atom is held and cut; 14 where one of the system's columns has a bit at the rank or above, unless the system is
 * refuted; 15 where system, region and initialized knowledge differ in their atom counts; 16 where what the knowledge has held or cut is
 * not so in the region. */
worzubil_selected worzubil_touched(worzubil_system system, const uint64_t *index, size_t index_length, worzubil_region region,
                                   worzubil_snapshot known);

/* With WORZUBIL_REFUSED, `number` is not 0, the next three fields are 0, and region and knowledge are as passed. */
typedef struct {
    size_t kind;
    size_t number;
    size_t held;   /* the atoms settled as true */
    size_t cut;    /* and as false */
    size_t forced; /* the entries of the forced list; after a refutation none of them, or only the first few, are settled */
    worzubil_region region;
    worzubil_snapshot known;
} worzubil_inspection;

/* Inspects the touched basis rows of a prepared system once. Of a refuted system and of one without a basis nothing is read, and the
 * knowledge stays. Else the touched rows are read in the order of the basis against the region as passed: one with no open atom and the
 * wrong parity refutes, and region and knowledge stay; one with one open atom adds it and the value that it must have to the forced list.
 * That region becomes the knowledge, and then the list's atoms are settled in order, up to the first that is settled otherwise, which
 * refutes.
 * rows: system.rows * ceil(system.atoms / 64) words; constants: system.rows bytes; basis: min(system.rows, system.atoms) elements;
 * index: as for worzubil_touched; forced_atoms and forced_values: system.rank elements. What lies past that is neither read nor
 * written, nor are entries of the two lists past `forced`.
 * Refused, and nothing touched: 10 and 13 as by worzubil_touched; 9 where a buffer is shorter; 11 where one of the rows has a bit at the
 * system's atom count or above, or a constant above 1, or the region as by worzubil_touched; 12; 13 where one of the first system.rank
 * entries of the basis is not below system.rows; 14, 15 and 16. */
worzubil_inspection worzubil_inspect(worzubil_system system, const uint64_t *rows, size_t rows_length, const uint8_t *constants,
                                     size_t constants_length, const size_t *basis, size_t basis_length, const uint64_t *index,
                                     size_t index_length, worzubil_region region, worzubil_snapshot known, size_t *forced_atoms,
                                     size_t forced_atoms_length, uint8_t *forced_values, size_t forced_values_length);

/* ---- the probe */

/* `yes` says whether the atoms that the region leaves open can come out so that every row is met; `undecided` is how many there are, and
 * `kept` how many independent rows were kept. On yes there are exactly 2^(undecided - kept) ways, on no there is none. Refused, `number` is
 * not 0 and the other fields are 0. */
typedef struct {
    size_t number;
    bool yes;
    size_t undecided;
    size_t kept;
} worzubil_probed;

/* Probes the basis rows of a prepared system against a region. A refuted system is no, with none kept.
 * rows, constants and basis: as for worzubil_inspect; nothing is written.
 * Refused: 10 where system or region has more than 512 atoms, or the system more than 512 rows; 13 where the rank is above
 * min(system.rows, system.atoms); 9 where a buffer is shorter; 11, 12 and 13 as by worzubil_inspect; 15 where system and region differ in
 * their atom counts. */
worzubil_probed worzubil_probe(worzubil_system system, const uint64_t *rows, size_t rows_length, const uint8_t *constants,
                               size_t constants_length, const size_t *basis, size_t basis_length, worzubil_region region);

/* ---- files */

/* What the check of a file says: number 0 with its atoms and rows; else the refusal's number and the place in the file, and 0 for both. */
typedef struct {
    size_t number;
    size_t offset;
    size_t atoms;
    size_t rows;
} worzubil_checked;

/* Checks a whole file; docs/FORMAT.md has the numbers 1 to 8 of what it refuses. Nothing is written. */
worzubil_checked worzubil_check(const uint8_t *file, size_t file_length);

/* Checks a file and writes its rows, as worzubil_prepare takes them. Nothing is written where the file is refused.
 * For m rows of n atoms, as the check tells them, rows: m * worzubil_width(n) words; constants: m bytes; else 9, at 0. */
worzubil_checked worzubil_load(const uint8_t *file, size_t file_length, uint64_t *rows, size_t rows_length, uint8_t *constants,
                               size_t constants_length);

/* The room that worzubil_answer_file asks for the text of a file of so many bytes. */
#define WORZUBIL_ROOM(file_length) (64 + 8 * ((file_length) < 65536 ? (size_t)(file_length) : (size_t)65536))

/* An answered file: number 0 and the length of its text, or 9. */
typedef struct {
    size_t number;
    size_t length;
} worzubil_answered;

/* Answers a file, as `swaps` does: the text is written from the start of out on, and the rest of out is untouched.
 * out: WORZUBIL_ROOM(file_length) bytes, else 9 and nothing is written. */
worzubil_answered worzubil_answer_file(const uint8_t *file, size_t file_length, uint8_t *out, size_t out_length);

/* ---- knowledge and forced list where the caller keeps them; of the archive libby_ref.a */

/* worzubil_publish in the very record that is passed. Its number is answered: 0, or 10, 11 or 12, and the record stays as it is.
 * known: one record, not NULL, of which nothing else is lent to the call. */
size_t worzubil_publish_in(worzubil_snapshot *known, worzubil_region region);

/* A worzubil_inspection without the knowledge. */
typedef struct {
    size_t kind;
    size_t number;
    size_t held;
    size_t cut;
    size_t forced;
    worzubil_region region;
} worzubil_seen;

/* worzubil_inspect with the knowledge in the very record that is passed: what that call would answer as `known` is what the record holds
 * afterwards, so it stays as it is where the call is refused.
 * known: one record, not NULL, which overlaps no buffer; the buffers are those of worzubil_inspect. */
worzubil_seen worzubil_inspect_in(worzubil_system system, const uint64_t *rows, size_t rows_length, const uint8_t *constants,
                                  size_t constants_length, const size_t *basis, size_t basis_length, const uint64_t *index,
                                  size_t index_length, worzubil_region region, worzubil_snapshot *known, size_t *forced_atoms,
                                  size_t forced_atoms_length, uint8_t *forced_values, size_t forced_values_length);

/* One entry of a forced list: an atom, and the value 0 or 1 that it must have. */
typedef struct {
    size_t atom;
    uint8_t value;
} worzubil_forced;

/* worzubil_inspect with one list of entries in the place of forced_atoms and forced_values.
 * list: system.rank entries, else 9; the first `forced` of them are written, the others are not, and none is where the call is refused.
 * The other buffers are those of worzubil_inspect. */
worzubil_inspection worzubil_inspect_list(worzubil_system system, const uint64_t *rows, size_t rows_length,
                                          const uint8_t *constants, size_t constants_length, const size_t *basis,
                                          size_t basis_length, const uint64_t *index, size_t index_length,
                                          worzubil_region region, worzubil_snapshot known, worzubil_forced *list,
                                          size_t list_length);

#ifdef __cplusplus
}
#endif

#endif
