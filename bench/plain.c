/* Preparation, inspection and probe as a C programmer would write them: plain_* for fit input, where nothing is checked, and checked_*
 * with the library's checks in front, in its order and under its numbers. */
#include "worzubil.h"

#include <string.h>

typedef struct {
    size_t number, rank, additions, units, incidences, refuted;
} plain_prepared;

typedef struct {
    size_t number, yes, undecided, kept;
} plain_probed;

/* The first word from i on that is not 0, or width. */
static size_t lowest_word(const uint64_t *row, size_t i, size_t width) {
    while (i < width && row[i] == 0) i++;
    return i;
}

static void add(uint64_t *row, const uint64_t *other, size_t i, size_t width) {
    for (; i < width; i++) row[i] ^= other[i];
}

plain_prepared plain_prepare(size_t n, size_t m, uint64_t *restrict rows, uint8_t *restrict constants, size_t *restrict basis,
                             size_t *restrict unit_atoms, uint8_t *restrict unit_values, uint64_t *restrict index) {
    size_t width = (n + 63) / 64, pivots[512] = {0};
    plain_prepared told = {0};
    for (size_t t = 0; t < m; t++) {
        uint64_t *row = rows + t * width;
        for (size_t i = 0;;) {
            i = lowest_word(row, i, width);
            if (i == width) {
                if (!constants[t]) break;
                told.refuted = 1;
                return told;
            }
            size_t atom = 64 * i + (size_t)__builtin_ctzll(row[i]);
            if (!pivots[atom]) {
                pivots[atom] = t + 1;
                basis[told.rank++] = t;
                break;
            }
            size_t source = pivots[atom] - 1;
            add(row, rows + source * width, i, width);
            constants[t] ^= constants[source];
            told.additions++;
        }
    }
    size_t stride = (told.rank + 127) / 128 * 2;
    memset(index, 0, n * stride * sizeof *index);
    for (size_t j = 0; j < told.rank; j++) {
        const uint64_t *row = rows + basis[j] * width;
        size_t before = told.incidences, last = 0;
        for (size_t i = 0; i < width; i++)
            for (uint64_t word = row[i]; word; word &= word - 1, told.incidences++) {
                last = 64 * i + (size_t)__builtin_ctzll(word);
                index[last * stride + j / 64] |= (uint64_t)1 << (j % 64);
            }
        if (told.incidences == before + 1) {
            unit_atoms[told.units] = last;
            unit_values[told.units++] = constants[basis[j]];
        }
    }
    return told;
}

/* Rows of W words; the pivots stand by their lowest atoms. */
#define PROBE(W)                                                                                                                           \
    typedef struct {                                                                                                                       \
        uint64_t words[W], value;                                                                                                          \
    } row_##W;                                                                                                                             \
    static plain_probed probe_##W(plain_probed told, size_t rank, const uint64_t *rows, const uint8_t *constants,                          \
                                         const size_t *basis, const uint64_t *held, const uint64_t *cut, row_##W *pivots) {                \
        for (size_t j = 0; j < rank; j++) {                                                                                                \
            const uint64_t *words = rows + basis[j] * W;                                                                                   \
            row_##W left;                                                                                                                  \
            uint64_t odd = 0;                                                                                                              \
            for (size_t i = 0; i < W; i++) {                                                                                               \
                odd ^= words[i] & held[i];                                                                                                 \
                left.words[i] = words[i] & ~(held[i] | cut[i]);                                                                            \
            }                                                                                                                              \
            left.value = constants[basis[j]] ^ (uint64_t)(__builtin_popcountll(odd) & 1);                                                  \
            bool kept = false;                                                                                                             \
            for (size_t i = 0; i < W && !kept; i++)                                                                                        \
                while (left.words[i]) {                                                                                                    \
                    row_##W *pivot = pivots + 64 * i + (size_t)__builtin_ctzll(left.words[i]);                                             \
                    if (!pivot->words[i]) {                                                                                                \
                        *pivot = left;                                                                                                     \
                        kept = true;                                                                                                       \
                        break;                                                                                                             \
                    }                                                                                                                      \
                    for (size_t k = i; k < W; k++) left.words[k] ^= pivot->words[k];                                                       \
                    left.value ^= pivot->value;                                                                                            \
                }                                                                                                                          \
            if (kept)                                                                                                                      \
                told.kept++;                                                                                                               \
            else if (left.value)                                                                                                           \
                return told;                                                                                                               \
        }                                                                                                                                  \
        told.yes = 1;                                                                                                                      \
        return told;                                                                                                                       \
    }
PROBE(1)
PROBE(2)
PROBE(3)
PROBE(4)
PROBE(5)
PROBE(6)
PROBE(7)
PROBE(8)

plain_probed plain_probe(size_t n, size_t rank, const uint64_t *rows, const uint8_t *constants, const size_t *basis, const uint64_t *held,
                         const uint64_t *cut) {
    size_t width = (n + 63) / 64;
    plain_probed told = {.undecided = n};
    for (size_t i = 0; i < width; i++) told.undecided -= (size_t)__builtin_popcountll(held[i] | cut[i]);
    switch (n <= 8 ? 0 : width) {
#define PIVOTS(width, W, N)                                                                 \
    case width: {                                                                           \
        row_##W pivots[N] = {0};                                                            \
        return probe_##W(told, rank, rows, constants, basis, held, cut, pivots);            \
    }
        PIVOTS(0, 1, 8)
        PIVOTS(1, 1, 64)
        PIVOTS(2, 2, 128)
        PIVOTS(3, 3, 192)
        PIVOTS(4, 4, 256)
        PIVOTS(5, 5, 320)
        PIVOTS(6, 6, 384)
        PIVOTS(7, 7, 448)
        PIVOTS(8, 8, 512)
    }
    return told;
}

enum { LIMIT = 512, MASK_WORDS = 8 };

/* The basis rows that decisions made since touch, as a set of places below the rank; all of them where nothing is known. */
static void touch(uint64_t *touched, size_t rank, const uint64_t *index, const worzubil_region *region, const worzubil_snapshot *known) {
    size_t stride = (rank + 127) / 128 * 2;
    for (size_t i = 0; i < MASK_WORDS; i++) touched[i] = known->initialized ? 0 : UINT64_MAX;
    for (size_t i = 0; known->initialized && i < MASK_WORDS; i++)
        for (uint64_t since = (region->held[i] | region->cut[i]) ^ known->held[i] ^ known->cut[i]; since; since &= since - 1) {
            const uint64_t *column = index + (64 * i + (size_t)__builtin_ctzll(since)) * stride;
            for (size_t w = 0; w < stride; w++) touched[w] |= column[w];
        }
    for (size_t i = 0; i < MASK_WORDS; i++)
        if (rank < 64 * i + 64) touched[i] &= rank <= 64 * i ? 0 : ((uint64_t)1 << (rank - 64 * i)) - 1;
}

/* Settles the forced atoms in order, up to one that is settled otherwise. */
static void settle(worzubil_inspection *told, const size_t *forced_atoms, const uint8_t *forced_values) {
    uint64_t *held = told->region.held, *cut = told->region.cut;
    for (size_t f = 0; f < told->forced; f++) {
        size_t i = forced_atoms[f] / 64;
        uint64_t bit = (uint64_t)1 << (forced_atoms[f] % 64);
        if ((forced_values[f] ? cut : held)[i] & bit) {
            told->kind = WORZUBIL_REFUTED;
            return;
        }
        if ((held[i] | cut[i]) & bit) continue;
        (forced_values[f] ? held : cut)[i] |= bit;
        (*(forced_values[f] ? &told->held : &told->cut))++;
    }
    if (told->held || told->cut) told->kind = WORZUBIL_CHANGED;
}

static void inspect_fit(worzubil_inspection *told, const worzubil_system *system, const uint64_t *rows, const uint8_t *constants,
                        const size_t *basis, const uint64_t *index, const worzubil_region *region, const worzubil_snapshot *known,
                        size_t *forced_atoms, uint8_t *forced_values) {
    size_t width = (system->atoms + 63) / 64;
    *told = (worzubil_inspection){.kind = system->refuted ? WORZUBIL_REFUTED : WORZUBIL_UNCHANGED, .region = *region, .known = *known};
    if (system->refuted || system->rank == 0) return;
    uint64_t touched[MASK_WORDS];
    touch(touched, system->rank, index, region, known);
    for (size_t t = 0; t < MASK_WORDS; t++)
        for (uint64_t left = touched[t]; left; left &= left - 1) {
            size_t source = basis[64 * t + (size_t)__builtin_ctzll(left)], open = 0, atom = 0;
            const uint64_t *row = rows + source * width;
            uint64_t odd = 0;
            for (size_t i = 0; i < width; i++) {
                uint64_t free = row[i] & ~(region->held[i] | region->cut[i]);
                open += (size_t)__builtin_popcountll(free);
                if (free) atom = 64 * i + (size_t)__builtin_ctzll(free);
                odd ^= row[i] & region->held[i];
            }
            if (open > 1) continue;
            uint8_t value = (uint8_t)(constants[source] ^ (__builtin_popcountll(odd) & 1));
            if (open == 1) {
                forced_atoms[told->forced] = atom;
                forced_values[told->forced++] = value;
            } else if (value) {
                told->kind = WORZUBIL_REFUTED;
                return;
            }
        }
    told->known = (worzubil_snapshot){.initialized = true, .atoms = region->atoms};
    memcpy(told->known.held, region->held, sizeof region->held);
    memcpy(told->known.cut, region->cut, sizeof region->cut);
    settle(told, forced_atoms, forced_values);
}

/* By value, and with the lengths, as the library has it. */
worzubil_inspection plain_inspect(worzubil_system system, const uint64_t *rows, size_t rows_length, const uint8_t *constants,
                                  size_t constants_length, const size_t *basis, size_t basis_length, const uint64_t *index,
                                  size_t index_length, worzubil_region region, worzubil_snapshot known, size_t *forced_atoms,
                                  size_t forced_atoms_length, uint8_t *forced_values, size_t forced_values_length) {
    (void)rows_length, (void)constants_length, (void)basis_length, (void)index_length, (void)forced_atoms_length, (void)forced_values_length;
    worzubil_inspection told;
    inspect_fit(&told, &system, rows, constants, basis, index, &region, &known, forced_atoms, forced_values);
    return told;
}

static size_t least(size_t a, size_t b) { return a < b ? a : b; }

/* What the words at one place of each of m rows have together. */
static uint64_t union_at(const uint64_t *rows, size_t width, size_t place, size_t m) {
    uint64_t joined = 0;
    for (size_t t = 0; t < m; t++) joined |= rows[t * width + place];
    return joined;
}

/* Only the last word of a row can have a bit at n or above. */
static bool any_strays(size_t n, size_t m, const uint64_t *rows, const uint8_t *constants) {
    size_t width = (n + 63) / 64;
    uint8_t joined = 0;
    for (size_t t = 0; t < m; t++) joined |= constants[t];
    return joined > 1 || (n % 64 != 0 && union_at(rows, width, width - 1, m) >> (n % 64) != 0);
}

static bool mask_strays(const uint64_t *mask, size_t n) {
    return (n % 64 != 0 && mask[n / 64] >> (n % 64) != 0) || lowest_word(mask, (n + 63) / 64, MASK_WORDS) < MASK_WORDS;
}

static bool masks_clash(const uint64_t *held, const uint64_t *cut) {
    for (size_t i = 0; i < MASK_WORDS; i++)
        if (held[i] & cut[i]) return true;
    return false;
}

static bool any_misnames(const size_t *basis, size_t rank, size_t m) {
    size_t naming = 0;
    for (size_t j = 0; j < rank; j++) naming += basis[j] < m;
    return naming != rank;
}

plain_prepared checked_prepare(size_t n, size_t m, uint64_t *restrict rows, size_t rows_length, uint8_t *restrict constants,
                               size_t constants_length, size_t *restrict basis, size_t basis_length, size_t *restrict unit_atoms,
                               size_t unit_atoms_length, uint8_t *restrict unit_values, size_t unit_values_length,
                               uint64_t *restrict index, size_t index_length) {
    if (n > LIMIT || m > LIMIT) return (plain_prepared){.number = 10};
    size_t places = least(m, n);
    if (rows_length < m * ((n + 63) / 64) || constants_length < m || basis_length < places || unit_atoms_length < places ||
        unit_values_length < places || index_length < n * ((places + 127) / 128 * 2))
        return (plain_prepared){.number = 9};
    if (any_strays(n, m, rows, constants)) return (plain_prepared){.number = 11};
    return plain_prepare(n, m, rows, constants, basis, unit_atoms, unit_values, index);
}

/* The region is its number of atoms and two masks of eight words. */
plain_probed checked_probe(size_t n, size_t m, size_t rank, const uint64_t *rows, size_t rows_length, const uint8_t *constants,
                           size_t constants_length, const size_t *basis, size_t basis_length, size_t atoms, const uint64_t *held,
                           const uint64_t *cut) {
    if (n > LIMIT || m > LIMIT || atoms > LIMIT) return (plain_probed){.number = 10};
    size_t places = least(m, n);
    if (rank > places) return (plain_probed){.number = 13};
    if (rows_length < m * ((n + 63) / 64) || constants_length < m || basis_length < places) return (plain_probed){.number = 9};
    if (any_strays(n, m, rows, constants) || mask_strays(held, atoms) || mask_strays(cut, atoms)) return (plain_probed){.number = 11};
    if (masks_clash(held, cut)) return (plain_probed){.number = 12};
    if (any_misnames(basis, rank, m)) return (plain_probed){.number = 13};
    if (atoms != n) return (plain_probed){.number = 15};
    return plain_probe(n, rank, rows, constants, basis, held, cut);
}

static bool within(const uint64_t *left, const uint64_t *right) {
    for (size_t i = 0; i < MASK_WORDS; i++)
        if (left[i] & ~right[i]) return false;
    return true;
}

/* Only the last two words of a column can have a bit at the rank or above. */
static bool over_rank(const uint64_t *index, size_t n, size_t rank) {
    size_t stride = (rank + 127) / 128 * 2, used = rank % 128;
    if (used == 0) return false;
    uint64_t last = union_at(index, stride, stride - 1, n);
    if (used >= 64) return last >> (used - 64) != 0;
    return last != 0 || union_at(index, stride, stride - 2, n) >> used != 0;
}

static size_t refusal_number(const worzubil_system *system, const uint64_t *rows, size_t rows_length, const uint8_t *constants,
                             size_t constants_length, const size_t *basis, size_t basis_length, const uint64_t *index,
                             size_t index_length, const worzubil_region *region, const worzubil_snapshot *known,
                             size_t forced_atoms_length, size_t forced_values_length) {
    size_t n = system->atoms, m = system->rows, rank = system->rank;
    if (n > LIMIT || m > LIMIT || region->atoms > LIMIT || (known->initialized && known->atoms > LIMIT)) return 10;
    size_t places = least(m, n);
    if (rank > places) return 13;
    if (rows_length < m * ((n + 63) / 64) || constants_length < m || basis_length < places ||
        index_length < n * ((rank + 127) / 128 * 2) || forced_atoms_length < rank || forced_values_length < rank)
        return 9;
    if (any_strays(n, m, rows, constants) || mask_strays(region->held, region->atoms) || mask_strays(region->cut, region->atoms)) return 11;
    if (masks_clash(region->held, region->cut)) return 12;
    if (any_misnames(basis, rank, m)) return 13;
    if (!system->refuted && over_rank(index, n, rank)) return 14;
    if (region->atoms != n || (known->initialized && known->atoms != n)) return 15;
    if (known->initialized && !(within(known->held, region->held) && within(known->cut, region->cut))) return 16;
    return 0;
}

worzubil_inspection checked_inspect(worzubil_system system, const uint64_t *rows, size_t rows_length, const uint8_t *constants,
                                    size_t constants_length, const size_t *basis, size_t basis_length, const uint64_t *index,
                                    size_t index_length, worzubil_region region, worzubil_snapshot known, size_t *forced_atoms,
                                    size_t forced_atoms_length, uint8_t *forced_values, size_t forced_values_length) {
    size_t number = refusal_number(&system, rows, rows_length, constants, constants_length, basis, basis_length, index, index_length,
                                   &region, &known, forced_atoms_length, forced_values_length);
    if (number) return (worzubil_inspection){.kind = WORZUBIL_REFUSED, .number = number, .region = region, .known = known};
    worzubil_inspection told;
    inspect_fit(&told, &system, rows, constants, basis, index, &region, &known, forced_atoms, forced_values);
    return told;
}
