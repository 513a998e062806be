/* Every export of include/worzubil.h but those of tables beside plain loops over single bits, on fit and unfit buffers.
 * A lent buffer stands between canary words: after each call all of its cells are compared. Seeded; one argument sets the rounds. */
#include <stdio.h>
#include <stdlib.h>
#include <string.h>

#include "worzubil.h"

enum { GUARD = 8, LIMIT = 512, MOST = LIMIT * 8 + 2 };
#define CANARY 0xa5c35a3c96f01e87u
#define TOO_MANY ((size_t)1 << 58)

/* A lent buffer, and what it must hold. */
typedef struct {
    uint64_t cells[GUARD + MOST + GUARD];
    uint64_t want[MOST];
    size_t n;
} lent;

typedef struct {
    uint8_t cells[GUARD + MOST + GUARD];
    uint8_t want[MOST];
    size_t n;
} lent_bytes;

/* A lent record and a lent list of entries. */
typedef struct {
    uint64_t before[GUARD];
    worzubil_snapshot known;
    uint64_t after[GUARD];
} lent_record;

typedef struct {
    worzubil_forced cells[GUARD + MOST + GUARD];
    worzubil_forced old[GUARD + MOST + GUARD]; /* the same before the call */
    size_t n;
} lent_entries;

static lent left, right, rows, mask, basis, unit_atoms, marks, forced_atoms;
static lent_bytes constants, unit_values, forced_values;
static lent_record record;
static lent_entries entries;
static bool bits[LIMIT][LIMIT]; /* of the rows, by row and atom */
static size_t lows[LIMIT];      /* the lowest atom of each row, or n */
static unsigned long checks, round_number;
static uint64_t state = 0x9e3779b97f4a7c15u;

static uint64_t any(void) {
    state ^= state << 13;
    state ^= state >> 7;
    state ^= state << 17;
    return state * 0x2545f4914f6cdd1du;
}

static size_t below(size_t n) { return (size_t)(any() >> 11) % n; }

static uint64_t any_word(void) {
    switch (below(6)) {
    case 0: return 0;
    case 1: return ~(uint64_t)0;
    case 2: return (uint64_t)1 << below(64);
    case 3: return any() & any() & any();
    default: return any();
    }
}

/* A number below n or a little past it, or one that no buffer reaches. */
static size_t around(size_t n) {
    switch (below(12)) {
    case 0: return (size_t)any();
    case 1: return SIZE_MAX - below(3);
    case 2: return (size_t)1 << below(64);
    default: return below(n + 2);
    }
}

static void check(const char *call, const char *what, uint64_t want, uint64_t got) {
    if (want != got) {
        printf("round %lu, %s: %s should be %llu and is %llu\n", round_number, call, what, (unsigned long long)want,
               (unsigned long long)got);
        exit(1);
    }
    checks++;
}

static uint64_t *at(lent *b) { return b->cells + GUARD; }

static void fill(lent *b, size_t n) {
    b->n = n;
    for (size_t i = 0; i < GUARD + n + GUARD; i++) b->cells[i] = CANARY;
    for (size_t i = 0; i < n; i++) at(b)[i] = b->want[i] = any_word();
}

static void held(const char *call, const lent *b) {
    for (size_t i = 0; i < GUARD + b->n + GUARD; i++)
        check(call, "a cell", i >= GUARD && i - GUARD < b->n ? b->want[i - GUARD] : CANARY, b->cells[i]);
}

static void fill_bytes(lent_bytes *b, size_t n) {
    b->n = n;
    for (size_t i = 0; i < GUARD + n + GUARD; i++) b->cells[i] = (uint8_t)CANARY;
    for (size_t i = 0; i < n; i++) b->cells[GUARD + i] = b->want[i] = (uint8_t)any();
}

static void held_bytes(const char *call, const lent_bytes *b) {
    for (size_t i = 0; i < GUARD + b->n + GUARD; i++)
        check(call, "a byte", i >= GUARD && i - GUARD < b->n ? b->want[i - GUARD] : (uint8_t)CANARY, b->cells[i]);
}

static void answered(const char *call, size_t kind, size_t value, worzubil_answer got) {
    check(call, "the kind", kind, got.kind);
    check(call, "the value", kind == WORZUBIL_ANSWERED ? value : 0, got.value);
}

/* ---- plain loops */

static bool bit_of(const uint64_t *words, size_t atom) { return words[atom >> 6] >> (atom & 63) & 1; }

static size_t shared(const uint64_t *a, const uint64_t *b, size_t n) {
    size_t count = 0;
    for (size_t i = 0; i < n * 64; i++)
        if (bit_of(a, i) && bit_of(b, i)) count++;
    return count;
}

static size_t lowest(const uint64_t *a, size_t n) {
    size_t i = 0;
    while (i < n * 64 && !bit_of(a, i)) i++;
    return i;
}

static bool lies_within(size_t words, size_t width, size_t number) {
    return (unsigned __int128)number * width + width <= words;
}

static size_t width_of(size_t atoms) { return (atoms + 63) / 64; }

static size_t stride_of(size_t rank) { return (rank + 127) / 128 * 2; }

static size_t least(size_t a, size_t b) { return a < b ? a : b; }

static void put(lent *b, size_t place, uint64_t word) { at(b)[place] = b->want[place] = word; }

/* Why m rows over n atoms cannot be prepared in the wanted buffers, or 0. */
static size_t prepare_number(size_t n, size_t m) {
    if (n > LIMIT || m > LIMIT) return 10;
    size_t width = width_of(n), places = least(n, m);
    if (rows.n < m * width || constants.n < m || basis.n < places || unit_atoms.n < places || unit_values.n < places ||
        marks.n < n * stride_of(places))
        return 9;
    for (size_t r = 0; r < m; r++) {
        if (constants.want[r] > 1) return 11;
        for (size_t a = n; a < width * 64; a++)
            if (bit_of(rows.want + r * width, a)) return 11;
    }
    return 0;
}

/* Reduces row r, of which each earlier one is reduced; says how many rows were added. */
static size_t reduce(size_t n, size_t r) {
    for (size_t additions = 0;; additions++) {
        size_t source = 0;
        lows[r] = 0;
        while (lows[r] < n && !bits[r][lows[r]]) lows[r]++;
        while (source < r && lows[source] != lows[r]) source++;
        if (lows[r] == n || source == r) return additions;
        for (size_t a = 0; a < n; a++) bits[r][a] ^= bits[source][a];
        constants.want[r] ^= constants.want[source];
    }
}

/* What preparation must answer, and leave in the wanted buffers. */
static worzubil_prepared prepared(size_t n, size_t m) {
    worzubil_prepared want = {.number = prepare_number(n, m)};
    if (want.number != 0) return want;
    size_t width = width_of(n), rank = 0;
    want.system.atoms = n;
    want.system.rows = m;
    for (size_t r = 0; r < m; r++)
        for (size_t a = 0; a < n; a++) bits[r][a] = bit_of(rows.want + r * width, a);
    for (size_t r = 0; r < m && !want.system.refuted; r++) {
        want.additions += reduce(n, r);
        for (size_t i = 0; i < width; i++) rows.want[r * width + i] = 0;
        for (size_t a = 0; a < n; a++) rows.want[r * width + a / 64] |= (uint64_t)bits[r][a] << (a % 64);
        if (lows[r] < n) basis.want[rank++] = r;
        want.system.refuted = lows[r] == n && constants.want[r] == 1;
    }
    want.system.rank = rank;
    if (want.system.refuted) return want;
    size_t stride = stride_of(rank);
    for (size_t i = 0; i < n * stride; i++) marks.want[i] = 0;
    for (size_t j = 0; j < rank; j++) {
        size_t source = basis.want[j], atoms = 0;
        for (size_t a = 0; a < n; a++) {
            if (!bits[source][a]) continue;
            marks.want[a * stride + j / 64] |= (uint64_t)1 << (j % 64);
            atoms++;
        }
        want.incidences += atoms;
        if (atoms != 1) continue;
        unit_atoms.want[want.units] = lows[source];
        unit_values.want[want.units++] = constants.want[source];
    }
    return want;
}

/* Why the column of an atom is refused, or 0. */
static size_t column_number(size_t n, size_t rank, size_t atom) {
    if (n > LIMIT || rank > LIMIT) return 10;
    size_t stride = stride_of(rank);
    if (marks.n < n * stride) return 9;
    for (size_t a = 0; a < n; a++)
        for (size_t j = rank; j < stride * 64; j++)
            if (bit_of(marks.want + a * stride, j)) return 14;
    return atom < n ? 0 : 18;
}

/* Why a region is refused, or 0. */
static size_t region_number(const worzubil_region *r) {
    if (r->atoms > LIMIT) return 10;
    size_t both = 0;
    for (size_t a = 0; a < LIMIT; a++) {
        if (a >= r->atoms && (bit_of(r->held, a) || bit_of(r->cut, a))) return 11;
        both += bit_of(r->held, a) && bit_of(r->cut, a);
    }
    return both ? 12 : 0;
}

static bool settled(const uint64_t *held_words, const uint64_t *cut_words, size_t atom) {
    return bit_of(held_words, atom) || bit_of(cut_words, atom);
}

/* What is wrong with system, region and knowledge from 14 on, or 0. */
static size_t late_number(worzubil_system s, const worzubil_region *r, const worzubil_snapshot *k) {
    size_t stride = stride_of(s.rank);
    for (size_t a = 0; a < s.atoms && !s.refuted; a++)
        for (size_t j = s.rank; j < stride * 64; j++)
            if (bit_of(marks.want + a * stride, j)) return 14;
    if (r->atoms != s.atoms || (k->initialized && k->atoms != s.atoms)) return 15;
    for (size_t a = 0; a < LIMIT && k->initialized; a++)
        if ((bit_of(k->held, a) && !bit_of(r->held, a)) || (bit_of(k->cut, a) && !bit_of(r->cut, a))) return 16;
    return 0;
}

/* What is wrong with rows, constants, region and basis from 11 to 13, or 0. */
static size_t rows_number(worzubil_system s, const worzubil_region *r) {
    size_t width = width_of(s.atoms);
    for (size_t i = 0; i < s.rows; i++) {
        if (constants.want[i] > 1) return 11;
        for (size_t a = s.atoms; a < width * 64; a++)
            if (bit_of(rows.want + i * width, a)) return 11;
    }
    size_t number = region_number(r);
    for (size_t j = 0; number == 0 && j < s.rank; j++)
        if (basis.want[j] >= s.rows) number = 13;
    return number;
}

static bool rows_short(worzubil_system s) {
    return rows.n < s.rows * width_of(s.atoms) || constants.n < s.rows || basis.n < least(s.rows, s.atoms);
}

/* Why touched rows (`rows_too` not) or an inspection are refused, or 0. */
static size_t inspect_number(worzubil_system s, const worzubil_region *r, const worzubil_snapshot *k, bool rows_too) {
    if (s.atoms > LIMIT || s.rows > LIMIT || r->atoms > LIMIT || (k->initialized && k->atoms > LIMIT)) return 10;
    if (s.rank > least(s.rows, s.atoms)) return 13;
    if (marks.n < s.atoms * stride_of(s.rank)) return 9;
    if (rows_too && (rows_short(s) || forced_atoms.n < s.rank || forced_values.n < s.rank)) return 9;
    size_t number = rows_too ? rows_number(s, r) : region_number(r);
    return number != 0 ? number : late_number(s, r, k);
}

/* Why a probe is refused, or 0. */
static size_t probe_number(worzubil_system s, const worzubil_region *r) {
    if (s.atoms > LIMIT || s.rows > LIMIT || r->atoms > LIMIT) return 10;
    if (s.rank > least(s.rows, s.atoms)) return 13;
    if (rows_short(s)) return 9;
    size_t number = rows_number(s, r);
    return number != 0 ? number : r->atoms != s.atoms ? 15 : 0;
}

/* Whether basis row j is touched. */
static bool is_touched(worzubil_system s, const worzubil_region *r, const worzubil_snapshot *k, size_t j) {
    if (!k->initialized) return true;
    for (size_t a = 0; a < s.atoms; a++)
        if (settled(r->held, r->cut, a) != settled(k->held, k->cut, a) && bit_of(marks.want + a * stride_of(s.rank), j)) return true;
    return false;
}

/* Adds to the wanted lists what basis row j forces; says whether its parity is not wrong. */
static bool reads_well(worzubil_system s, const worzubil_region *r, size_t j, size_t *count) {
    size_t source = basis.want[j], open = 0, last = 0, value = constants.want[source];
    for (size_t a = 0; a < s.atoms; a++) {
        if (!bit_of(rows.want + source * width_of(s.atoms), a)) continue;
        value ^= bit_of(r->held, a);
        if (settled(r->held, r->cut, a)) continue;
        open++;
        last = a;
    }
    if (open == 1) {
        forced_atoms.want[*count] = last;
        forced_values.want[(*count)++] = (uint8_t)value;
    }
    return open > 0 || value == 0;
}

/* What an inspection must answer, and leave in the wanted lists. */
static worzubil_inspection inspected(worzubil_system s, worzubil_region r, worzubil_snapshot k) {
    worzubil_inspection want = {.number = inspect_number(s, &r, &k, true), .region = r, .known = k};
    want.kind = want.number != 0 ? WORZUBIL_REFUSED : s.refuted ? WORZUBIL_REFUTED : WORZUBIL_UNCHANGED;
    if (want.number != 0 || s.refuted || s.rank == 0) return want;
    for (size_t j = 0; j < s.rank; j++) {
        if (!is_touched(s, &r, &k, j) || reads_well(s, &r, j, &want.forced)) continue;
        want.kind = WORZUBIL_REFUTED;
        return want;
    }
    want.known.initialized = true;
    want.known.atoms = r.atoms;
    for (size_t i = 0; i < 8; i++) {
        want.known.held[i] = r.held[i];
        want.known.cut[i] = r.cut[i];
    }
    for (size_t i = 0; i < want.forced; i++) {
        size_t atom = forced_atoms.want[i];
        bool holds = forced_values.want[i] == 1;
        uint64_t *words = holds ? want.region.held : want.region.cut;
        if (bit_of(words, atom)) continue;
        if (settled(want.region.held, want.region.cut, atom)) {
            want.kind = WORZUBIL_REFUTED;
            return want;
        }
        words[atom / 64] |= (uint64_t)1 << (atom % 64);
        *(holds ? &want.held : &want.cut) += 1;
    }
    if (want.held + want.cut > 0) want.kind = WORZUBIL_CHANGED;
    return want;
}

/* What a probe must answer. */
static worzubil_probed probed(worzubil_system s, const worzubil_region *r) {
    worzubil_probed want = {.number = probe_number(s, r)};
    bool values[LIMIT];
    if (want.number != 0) return want;
    for (size_t a = 0; a < s.atoms; a++) want.undecided += !settled(r->held, r->cut, a);
    for (size_t j = 0; j < s.rank && !s.refuted; j++) {
        size_t low = 0, k = want.kept;
        values[k] = constants.want[basis.want[j]];
        for (size_t a = 0; a < s.atoms; a++) {
            bool has = bit_of(rows.want + basis.want[j] * width_of(s.atoms), a);
            bits[k][a] = has && !settled(r->held, r->cut, a);
            values[k] ^= has && bit_of(r->held, a);
        }
        for (size_t i = 0; i < k; i++) {
            if (!bits[k][lows[i]]) continue;
            for (size_t a = 0; a < s.atoms; a++) bits[k][a] ^= bits[i][a];
            values[k] ^= values[i];
        }
        while (low < s.atoms && !bits[k][low]) low++;
        if (low == s.atoms && values[k]) return want;
        lows[k] = low;
        want.kept += low < s.atoms;
    }
    want.yes = !s.refuted;
    return want;
}

/* ---- the calls */

static void one_word(void) {
    size_t atom = around(640);
    worzubil_located place = worzubil_locate(atom);
    check("locate", "the word", atom >> 6, place.word);
    check("locate", "the bit", (uint64_t)1 << (atom & 63), place.bit);

    uint64_t word = any_word();
    check("popcount", "the count", shared(&word, &word, 1), worzubil_popcount(word));

    uint64_t rest = word;
    for (size_t i = 0; i < 64; i++) {
        if (!bit_of(&word, i)) continue;
        worzubil_step step = worzubil_next(rest);
        rest &= ~((uint64_t)1 << i);
        check("next", "the kind", WORZUBIL_ANSWERED, step.kind);
        check("next", "the bit", i, step.bit);
        check("next", "the rest", rest, step.remaining);
    }
    worzubil_step end = worzubil_next(rest);
    check("next at the end", "the kind", WORZUBIL_NOTHING, end.kind);
    check("next at the end", "the bit", 0, end.bit);
    check("next at the end", "the rest", 0, end.remaining);
}

static void asked(void) {
    size_t n = left.n, atom = around(n * 64);
    bool same = n == right.n;
    size_t both = same ? shared(left.want, right.want, n) : 0;

    check("contains", "the answer", atom / 64 < n && bit_of(left.want, atom), worzubil_contains(at(&left), n, atom));
    answered("is_subset_of", same ? WORZUBIL_ANSWERED : WORZUBIL_UNFIT, both == shared(left.want, left.want, n),
             worzubil_is_subset_of(at(&left), n, at(&right), right.n));
    answered("intersection_parity", same ? WORZUBIL_ANSWERED : WORZUBIL_UNFIT, both % 2,
             worzubil_intersection_parity(at(&left), n, at(&right), right.n));
    answered("intersection_count", same ? WORZUBIL_ANSWERED : WORZUBIL_UNFIT, both,
             worzubil_intersection_count(at(&left), n, at(&right), right.n));
    answered("count", WORZUBIL_ANSWERED, shared(left.want, left.want, n), worzubil_count(at(&left), n));
    size_t least = lowest(left.want, n);
    answered("first", least < n * 64 ? WORZUBIL_ANSWERED : WORZUBIL_NOTHING, least, worzubil_first(at(&left), n));
    held("a question", &left);
    held("a question", &right);
}

static void changed(void) {
    size_t n = left.n, atom = around(n * 64);
    bool same = n == right.n;

    if (atom / 64 < n) left.want[atom / 64] |= (uint64_t)1 << (atom % 64);
    check("insert", "the answer", atom / 64 < n, worzubil_insert(at(&left), n, atom));
    held("insert", &left);

    for (size_t i = 0; same && i < n * 64; i++)
        if (bit_of(right.want, i)) left.want[i / 64] |= (uint64_t)1 << (i % 64);
    check("union_assign", "the answer", same, worzubil_union_assign(at(&left), n, at(&right), right.n));
    held("union_assign", &left);
    held("union_assign", &right);

    fill(&left, n);
    for (size_t i = 0; same && i < n * 64; i++)
        if (bit_of(right.want, i)) left.want[i / 64] ^= (uint64_t)1 << (i % 64);
    check("xor_assign", "the answer", same, worzubil_xor_assign(at(&left), n, at(&right), right.n));
    held("xor_assign", &left);
    held("xor_assign", &right);

    for (size_t i = 0; i < n; i++) left.want[i] = 0;
    worzubil_clear(at(&left), n);
    held("clear", &left);
}

static void of_rows(void) {
    size_t width = below(10), number = around(6);
    fill(&rows, below(6) * width + below(4));
    fill(&mask, below(4) ? width : below(10));
    if (below(8) == 0) width = around(9);
    size_t n = rows.n;
    bool within = lies_within(n, width, number), both = within && width <= mask.n;
    const uint64_t *row = rows.want + (within ? number * width : 0);
    size_t common = both ? shared(row, mask.want, width) : 0;

    worzubil_span span = worzubil_row(at(&rows), n, width, number);
    check("row", "the kind", within ? WORZUBIL_ANSWERED : WORZUBIL_UNFIT, span.kind);
    check("row", "the start", within ? number * width : 0, span.start);
    check("row", "the length", within ? width : 0, span.length);

    size_t least = within ? lowest(row, width) : 0;
    answered("lowest_atom", !within ? WORZUBIL_UNFIT : least < width * 64 ? WORZUBIL_ANSWERED : WORZUBIL_NOTHING, least,
             worzubil_lowest_atom(at(&rows), n, width, number));
    answered("overlap_parity", both ? WORZUBIL_ANSWERED : WORZUBIL_UNFIT, common % 2,
             worzubil_overlap_parity(at(&rows), n, width, number, at(&mask), mask.n));
    answered("overlap_count", both ? WORZUBIL_ANSWERED : WORZUBIL_UNFIT, common,
             worzubil_overlap_count(at(&rows), n, width, number, at(&mask), mask.n));
    held("a question of a row", &rows);
    held("a question of a row", &mask);

    size_t source = below(4) ? below(4) : around(6);
    fill_bytes(&constants, below(8));
    bool fit = source < number && number < constants.n && within;
    for (size_t i = 0; fit && i < width * 64; i++) {
        size_t from = source * width * 64 + i, to = number * width * 64 + i;
        if (bit_of(rows.want, from)) rows.want[to / 64] ^= (uint64_t)1 << (to % 64);
    }
    if (fit) constants.want[number] ^= constants.want[source];
    check("add", "the answer", fit,
          worzubil_add(at(&rows), n, constants.cells + GUARD, constants.n, width, number, source));
    held("add", &rows);
    held_bytes("add", &constants);
}

static void of_places(void) {
    size_t atoms = around(640);
    check("width", "the width", atoms / 64 + (atoms % 64 != 0), worzubil_width(atoms));

    size_t n = basis.n, place = around(n);
    answered("source_at", place < n ? WORZUBIL_ANSWERED : WORZUBIL_NOTHING, place < n ? basis.want[place] : 0,
             worzubil_source_at((const size_t *)at(&basis), n, place));
    held("source_at", &basis);
}

/* A column of the index that the marks hold, and then of one with a bit too many, or of another size. */
static void of_column(size_t n, size_t rank) {
    size_t atom = around(n);
    if (marks.n > 0 && below(8) == 0) put(&marks, below(marks.n), any_word());
    if (below(20) == 0) *(below(2) ? &n : &rank) = around(LIMIT);
    size_t number = column_number(n, rank, atom), stride = number == 0 ? stride_of(rank) : 0;
    check("column_number", "the number", number, worzubil_column_number(at(&marks), marks.n, n, rank, atom));
    worzubil_span span = worzubil_column(at(&marks), marks.n, n, rank, atom);
    check("column", "the kind", number == 0 ? WORZUBIL_ANSWERED : WORZUBIL_UNFIT, span.kind);
    check("column", "the start", number == 0 ? atom * stride : 0, span.start);
    check("column", "the length", stride, span.length);
    held("column", &marks);
}

/* A number of atoms or rows: mostly small, at times about a border. */
static size_t any_size(void) {
    switch (below(30)) {
    case 0: return 63 + below(3);
    case 1: return 127 + below(3);
    case 2: return below(40) ? below(300) : LIMIT - 1 + below(3);
    default: return below(12);
    }
}

/* A length that is enough, now and then by one, and seldom one too few. */
static size_t about(size_t enough) { return below(40) ? enough + (below(4) == 0) : enough - (enough > 0); }

static void same_region(const char *call, const worzubil_region *want, const worzubil_region *got) {
    check(call, "the region's atoms", want->atoms, got->atoms);
    for (size_t i = 0; i < 8; i++) {
        check(call, "a held word", want->held[i], got->held[i]);
        check(call, "a cut word", want->cut[i], got->cut[i]);
    }
}

static void same_known(const char *call, const worzubil_snapshot *want, const worzubil_snapshot *got) {
    check(call, "initialized", want->initialized, got->initialized);
    check(call, "the knowledge's atoms", want->atoms, got->atoms);
    for (size_t i = 0; i < 8; i++) {
        check(call, "an old held word", want->held[i], got->held[i]);
        check(call, "an old cut word", want->cut[i], got->cut[i]);
    }
}

/* A region of n atoms, mostly fit, with so many of 8 atoms settled. */
static worzubil_region any_region(size_t n, size_t eighths) {
    worzubil_new_region begun = worzubil_undecided(n);
    worzubil_region none = {.atoms = n <= LIMIT ? n : 0};
    check("undecided", "the number", n <= LIMIT ? 0 : 10, begun.number);
    same_region("undecided", &none, &begun.region);
    worzubil_region r = {.atoms = n};
    for (size_t a = 0; a < least(n, LIMIT); a++)
        if (below(8) < eighths) (below(2) ? r.held : r.cut)[a / 64] |= (uint64_t)1 << (a % 64);
    if (below(20) == 0) (below(2) ? r.held : r.cut)[below(8)] |= any_word();
    return r;
}

/* Holds or cuts an atom, and publishes the region. */
static void of_region(worzubil_region r, worzubil_snapshot k) {
    size_t atom = around(least(r.atoms, LIMIT)), unfit = region_number(&r);
    size_t number = unfit == 0 && atom >= r.atoms ? 18 : unfit;
    bool holds = below(2) == 0, fits = number == 0;
    worzubil_region want = r;
    size_t kind = WORZUBIL_TAKEN;
    if (!fits) {
        kind = WORZUBIL_REFUSED;
    } else if (settled(r.held, r.cut, atom)) {
        kind = bit_of(r.held, atom) == holds ? WORZUBIL_SAME : WORZUBIL_AGAINST;
    } else {
        (holds ? want.held : want.cut)[atom / 64] |= (uint64_t)1 << (atom % 64);
    }
    worzubil_decision got = holds ? worzubil_hold(r, atom) : worzubil_cut(r, atom);
    check("a decision", "the kind", kind, got.kind);
    check("a decision", "the number", number, got.number);
    same_region("a decision", &want, &got.region);

    worzubil_published done = worzubil_publish(k, r);
    worzubil_snapshot now = {.initialized = true, .atoms = r.atoms};
    for (size_t i = 0; i < 8; i++) {
        now.held[i] = r.held[i];
        now.cut[i] = r.cut[i];
    }
    check("publish", "the number", unfit, done.number);
    same_known("publish", unfit == 0 ? &now : &k, &done.known);
}

static void lend_record(worzubil_snapshot k) {
    for (size_t i = 0; i < GUARD; i++) record.before[i] = record.after[i] = CANARY;
    record.known = k;
}

static void same_record(const char *call, const worzubil_snapshot *want) {
    same_known(call, want, &record.known);
    for (size_t i = 0; i < GUARD; i++) {
        check(call, "a word before the record", CANARY, record.before[i]);
        check(call, "a word after the record", CANARY, record.after[i]);
    }
}

static void same_inspection(const char *call, const worzubil_inspection *want, const worzubil_inspection *got) {
    check(call, "the kind", want->kind, got->kind);
    check(call, "the number", want->number, got->number);
    check(call, "held", want->held, got->held);
    check(call, "cut", want->cut, got->cut);
    check(call, "forced", want->forced, got->forced);
    same_region(call, &want->region, &got->region);
    same_known(call, &want->known, &got->known);
}

/* What an inspection only reads. */
static void held_system(const char *call) {
    held(call, &rows);
    held_bytes(call, &constants);
    held(call, &basis);
    held(call, &marks);
}

static worzubil_inspection by_value(worzubil_system s, worzubil_region r, worzubil_snapshot k) {
    return worzubil_inspect(s, at(&rows), rows.n, constants.cells + GUARD, constants.n, (const size_t *)at(&basis), basis.n,
                            at(&marks), marks.n, r, k, (size_t *)at(&forced_atoms), forced_atoms.n,
                            forced_values.cells + GUARD, forced_values.n);
}

/* The calls that write where the caller keeps it, beside those by value: publish, inspect, and inspect with a list of entries. */
static void of_references(worzubil_system s, worzubil_region r, worzubil_snapshot k) {
    worzubil_published done = worzubil_publish(k, r);
    lend_record(k);
    check("publish_in", "the number", done.number, worzubil_publish_in(&record.known, r));
    same_record("publish_in", &done.known);

    fill(&forced_atoms, about(least(s.rank, LIMIT)));
    fill_bytes(&forced_values, about(least(s.rank, LIMIT)));
    static lent atoms;
    static lent_bytes values;
    atoms = forced_atoms;
    values = forced_values;
    worzubil_inspection want = by_value(s, r, k);
    lend_record(k);
    worzubil_seen seen = worzubil_inspect_in(s, at(&rows), rows.n, constants.cells + GUARD, constants.n,
                                             (const size_t *)at(&basis), basis.n, at(&marks), marks.n, r, &record.known,
                                             (size_t *)at(&atoms), atoms.n, values.cells + GUARD, values.n);
    worzubil_inspection got = {seen.kind, seen.number, seen.held, seen.cut, seen.forced, seen.region, record.known};
    same_inspection("inspect_in", &want, &got);
    same_record("inspect_in", &want.known);
    held_system("inspect_in");
    check("inspect_in", "all words of the atoms", 0, memcmp(forced_atoms.cells, atoms.cells, sizeof atoms.cells) != 0);
    check("inspect_in", "all bytes of the values", 0, memcmp(forced_values.cells, values.cells, sizeof values.cells) != 0);

    entries.n = about(least(s.rank, LIMIT)) + (below(8) ? 0 : below(LIMIT));
    fill(&forced_atoms, entries.n);
    fill_bytes(&forced_values, entries.n);
    memset(entries.cells, (int)below(256), sizeof entries.cells);
    for (size_t i = 0; i < entries.n; i++) {
        entries.cells[GUARD + i].atom = at(&forced_atoms)[i];
        entries.cells[GUARD + i].value = forced_values.cells[GUARD + i];
    }
    memcpy(entries.old, entries.cells, sizeof entries.old);
    want = by_value(s, r, k);
    got = worzubil_inspect_list(s, at(&rows), rows.n, constants.cells + GUARD, constants.n, (const size_t *)at(&basis), basis.n,
                                at(&marks), marks.n, r, k, entries.cells + GUARD, entries.n);
    same_inspection("inspect_list", &want, &got);
    held_system("inspect_list");
    for (size_t i = 0; i < entries.n; i++) {
        check("inspect_list", "an atom", at(&forced_atoms)[i], entries.cells[GUARD + i].atom);
        check("inspect_list", "a value", forced_values.cells[GUARD + i], entries.cells[GUARD + i].value);
    }
    size_t past = GUARD + got.forced;
    check("inspect_list", "before the list", 0, memcmp(entries.cells, entries.old, GUARD * sizeof *entries.cells) != 0);
    check("inspect_list", "past the forced entries", 0,
          memcmp(entries.cells + past, entries.old + past, sizeof entries.cells - past * sizeof *entries.cells) != 0);
}

/* Touched rows and an inspection of the system that the buffers hold. */
static void of_inspection(worzubil_system s, worzubil_region r, worzubil_snapshot k) {
    worzubil_selected got = worzubil_touched(s, at(&marks), marks.n, r, k);
    size_t number = inspect_number(s, &r, &k, false);
    check("touched", "the number", number, got.number);
    for (size_t j = 0; j < LIMIT; j++)
        check("touched", "a row", number == 0 && j < s.rank && is_touched(s, &r, &k, j), bit_of(got.rows.words, j));
    held("touched", &marks);

    fill(&forced_atoms, about(least(s.rank, LIMIT)));
    fill_bytes(&forced_values, about(least(s.rank, LIMIT)));
    worzubil_inspection want = inspected(s, r, k);
    worzubil_inspection said = by_value(s, r, k);
    same_inspection("inspect", &want, &said);
    held_system("inspect");
    held("inspect", &forced_atoms);
    held_bytes("inspect", &forced_values);
}

/* A probe of the system that the buffers hold. */
static void of_probe(worzubil_system s, worzubil_region r) {
    worzubil_probed want = probed(s, &r);
    worzubil_probed said = worzubil_probe(s, at(&rows), rows.n, constants.cells + GUARD, constants.n, (const size_t *)at(&basis),
                                          basis.n, r);
    check("probe", "the number", want.number, said.number);
    check("probe", "yes", want.yes, said.yes);
    check("probe", "undecided", want.undecided, said.undecided);
    check("probe", "kept", want.kept, said.kept);
    held("probe", &rows);
    held_bytes("probe", &constants);
    held("probe", &basis);
}

/* Makes one thing unfit, now and then. */
static void spoil(worzubil_system *s, worzubil_region *r, worzubil_snapshot *k) {
    size_t last = r->atoms > 0 && r->atoms <= LIMIT ? r->atoms - 1 : 0, place = constants.n > 0 ? below(constants.n) : 0;
    switch (below(40)) {
    case 0: s->rank = around(least(s->rank, LIMIT)); break;
    case 1: s->rows = around(least(s->rows, LIMIT)); break;
    case 2: s->atoms = around(least(s->atoms, LIMIT)); break;
    case 3: r->atoms = around(least(r->atoms, LIMIT)); break;
    case 4: k->atoms = around(least(r->atoms, LIMIT)); break;
    case 5: k->cut[below(8)] |= any_word(); break;
    case 6: s->refuted = !s->refuted; break;
    case 7:
        if (basis.n > 0) put(&basis, below(basis.n), around(least(s->rows, LIMIT)));
        break;
    case 8: *(below(3) == 0 ? &s->rows : below(2) ? &s->atoms : &r->atoms) = LIMIT + 1; break;
    case 9:
        if (constants.n > 0) constants.cells[GUARD + place] = constants.want[place] = 2;
        break;
    case 10:
        r->held[last / 64] |= (uint64_t)1 << (last % 64);
        r->cut[last / 64] |= (uint64_t)1 << (last % 64);
        break;
    default: break;
    }
}

/* A region of the prepared system and knowledge of a part of it, then up to two things that are unfit now and then. */
static void of_regions(worzubil_system s) {
    worzubil_region r = any_region(s.atoms, below(9));
    worzubil_snapshot k = worzubil_fresh();
    const worzubil_snapshot nothing = {.initialized = false};
    same_known("fresh", &nothing, &k);
    k.atoms = any_size();
    k.held[below(8)] = any_word();
    if (below(3) != 0) {
        k.initialized = true;
        k.atoms = r.atoms;
        for (size_t i = 0; i < 8; i++) {
            uint64_t part = below(3) ? any_word() : ~(uint64_t)0;
            k.held[i] = r.held[i] & part;
            k.cut[i] = r.cut[i] & part;
        }
    }
    spoil(&s, &r, &k);
    spoil(&s, &r, &k);
    of_region(r, k);
    of_inspection(s, r, k);
    of_references(s, r, k);
    of_probe(s, r);
}

static void of_systems(void) {
    bool largest = below(1000) == 0;
    size_t n = largest ? LIMIT - below(2) : any_size(), m = largest ? LIMIT - below(2) : any_size();
    size_t width = n <= LIMIT ? width_of(n) : 0, count = least(m, LIMIT), places = least(least(n, m), LIMIT);
    fill(&rows, about(count * width));
    fill_bytes(&constants, about(count));
    fill(&basis, about(places));
    fill(&unit_atoms, about(places));
    fill_bytes(&unit_values, about(places));
    fill(&marks, about(n <= LIMIT ? n * stride_of(places) : 0));
    fill(&mask, width);
    /* the mask is a truth that most constants meet; what is left of a fill in a row's last word are strays */
    bool stray = below(20) == 0, sparse = below(2) == 0;
    uint64_t last = n % 64 == 0 || stray ? ~(uint64_t)0 : ((uint64_t)1 << (n % 64)) - 1;
    for (size_t r = 0; r < count && r < constants.n && (r + 1) * width <= rows.n; r++) {
        size_t one = n > 0 ? below(n) : 0, other = n > 0 ? below(n) : 0;
        for (size_t i = 0; i < width; i++) {
            uint64_t few = (uint64_t)(one / 64 == i) << (one % 64) | (uint64_t)(other / 64 == i) << (other % 64);
            put(&rows, r * width + i, (sparse ? few : rows.want[r * width + i]) & (i + 1 == width ? last : ~(uint64_t)0));
        }
        size_t met = shared(rows.want + r * width, mask.want, width) % 2;
        constants.cells[GUARD + r] = constants.want[r] = (uint8_t)(below(60) ? met : below(20) ? 1 - met : 2);
    }
    if (below(200) == 0) *(below(2) ? &n : &m) = LIMIT + 1 + around(LIMIT) % (SIZE_MAX - LIMIT);

    worzubil_prepared want = prepared(n, m);
    worzubil_prepared got = worzubil_prepare(n, m, at(&rows), rows.n, constants.cells + GUARD, constants.n,
                                             (size_t *)at(&basis), basis.n, (size_t *)at(&unit_atoms), unit_atoms.n,
                                             unit_values.cells + GUARD, unit_values.n, at(&marks), marks.n);
    check("prepare", "the number", want.number, got.number);
    check("prepare", "the atoms", want.system.atoms, got.system.atoms);
    check("prepare", "the rows", want.system.rows, got.system.rows);
    check("prepare", "the rank", want.system.rank, got.system.rank);
    check("prepare", "refuted", want.system.refuted, got.system.refuted);
    check("prepare", "the additions", want.additions, got.additions);
    check("prepare", "the units", want.units, got.units);
    check("prepare", "the incidences", want.incidences, got.incidences);
    held("prepare", &rows);
    held_bytes("prepare", &constants);
    held("prepare", &basis);
    held("prepare", &unit_atoms);
    held_bytes("prepare", &unit_values);
    held("prepare", &marks);
    if (want.number != 0) return;
    of_regions(want.system);
    if (!want.system.refuted) of_column(n, want.system.rank);
}

/* A length that no memory has is refused before a word is read. */
static void too_wide(void) {
    fill(&left, 1);
    answered("first of too many", WORZUBIL_TOO_WIDE, 0, worzubil_first(at(&left), TOO_MANY));
    answered("count of too many", WORZUBIL_TOO_WIDE, 0, worzubil_count(at(&left), TOO_MANY));
    answered("intersection_count of too many", WORZUBIL_TOO_WIDE, 0,
             worzubil_intersection_count(at(&left), TOO_MANY, at(&left), TOO_MANY));
    answered("lowest_atom of too many", WORZUBIL_UNFIT, 0, worzubil_lowest_atom(at(&left), TOO_MANY, TOO_MANY, 0));
    answered("overlap_count of too many", WORZUBIL_UNFIT, 0,
             worzubil_overlap_count(at(&left), TOO_MANY, TOO_MANY, 0, at(&left), TOO_MANY));
    held("too many", &left);
}

int main(int argc, char **argv) {
    unsigned long rounds = argc > 1 ? strtoul(argv[1], NULL, 10) : 20000;
    for (round_number = 0; round_number < rounds; round_number++) {
        fill(&left, below(10));
        fill(&right, below(4) ? left.n : below(10));
        /* often a part of the other, so that a subset is met */
        for (size_t i = 0; i < left.n && i < right.n && round_number % 3 == 0; i++)
            at(&right)[i] = right.want[i] = left.want[i] | right.want[i];
        fill(&basis, below(10));
        one_word();
        asked();
        changed();
        of_rows();
        of_places();
        of_systems();
    }
    too_wide();
    printf("%lu checks passed\n", checks);
    return 0;
}
