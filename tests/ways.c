/* Demand 3 by brute force: rows and exact tables over up to 12 atoms are prepared, hold, cut and inspect calls follow, refused ones among
 * them, and after each call comes a probe. The assignments that meet every row and table as first handed in and agree with every decision
 * accepted are counted one by one, from what was handed in and not from what the library made of it: on yes there must be
 * 2^(undecided - kept), on no none. Seeded; the first argument sets the number of systems, the second the seed. */
#include <stdio.h>
#include <stdlib.h>
#include <string.h>

#include "worzubil.h"

enum { MOST_ATOMS = 12, MOST_THINGS = 14, MOST_NAMES = 4, ROOM = MOST_THINGS * MOST_NAMES, SPARE = 3, TOO_MANY = 513 };

/* A row or a table, as handed in. */
typedef struct {
    bool is_table, constant;
    size_t atoms; /* of a row: atom a is bit a */
    size_t k, names[MOST_NAMES];
    uint64_t forbidden[2];
} thing;

/* What preparation filled, and the lengths lent. */
typedef struct {
    worzubil_system system;
    uint64_t rows[ROOM + SPARE], index[MOST_ATOMS * 2 + SPARE];
    uint8_t constants[ROOM + SPARE];
    size_t basis[MOST_ATOMS + SPARE];
    size_t rows_length, constants_length, basis_length, index_length;
} buffers;

/* A forced list, and the lengths lent. */
typedef struct {
    size_t atoms[ROOM], atoms_length, values_length;
    uint8_t values[ROOM];
} list;

static thing things[MOST_THINGS];
static size_t n, m, width, count;   /* atoms, rows, words of a row, things */
static bool meets[1 << MOST_ATOMS]; /* by assignment: atom a is bit a */
static size_t holds, cuts;          /* the decisions accepted */
static buffers lent, before;
static worzubil_region region;
static worzubil_snapshot known;
static unsigned long number; /* of the system */
static size_t call;          /* since it was prepared */
static struct {
    unsigned long tables, refuted, accepted, against, inspections, changed, refused, probes, yes, no, ways;
} seen;

static uint64_t state;

static uint64_t any(void) {
    state ^= state << 13;
    state ^= state >> 7;
    state ^= state << 17;
    return state * 0x2545f4914f6cdd1du;
}

static size_t below(size_t limit) { return (size_t)(any() >> 11) % limit; }

static void require(bool so, const char *what) {
    if (so) return;
    printf("system %lu, call %zu: %s\n", number, call, what);
    exit(1);
}

/* ---- what is handed in */

static size_t pattern_of(const thing *t, size_t assignment) {
    size_t pattern = 0;
    for (size_t i = 0; i < t->k; i++) pattern |= (assignment >> t->names[i] & 1) << i;
    return pattern;
}

static bool meets_thing(const thing *t, size_t assignment) {
    if (t->is_table) return !(t->forbidden[0] >> pattern_of(t, assignment) & 1);
    bool odd = false;
    for (size_t a = 0; a < n; a++) odd ^= t->atoms >> a & assignment >> a & 1;
    return odd == t->constant;
}

/* Patterns, a bit each: an affine set around one of them, or any set. */
static uint64_t any_patterns(size_t k, size_t anchor) {
    size_t patterns = (size_t)1 << k;
    if (below(4) == 0) return below(3) == 0 ? 0 : any() & (((uint64_t)1 << patterns) - 1);
    uint64_t allowed = (uint64_t)1 << anchor;
    for (size_t steps = below(k + 1); steps > 0; steps--) {
        size_t step = below(patterns);
        uint64_t moved = 0;
        for (size_t p = 0; p < patterns; p++) moved |= (allowed >> p & 1) << (p ^ step);
        allowed |= moved;
    }
    return allowed;
}

/* A table that the library calls exact, with anything past its patterns; where it follows the truth, that is allowed. */
static worzubil_hull any_table(thing *t, size_t truth, bool follows) {
    t->is_table = true;
    t->k = below((n < MOST_NAMES ? n : MOST_NAMES) + 1);
    for (size_t a = 0, named = 0; a < n; a++)
        if (below(n - a) < t->k - named) t->names[named++] = a;
    size_t anchor = pattern_of(t, truth);
    for (;;) {
        uint64_t allowed = any_patterns(t->k, follows ? anchor : below((size_t)1 << t->k));
        if (follows && !(allowed >> anchor & 1)) continue;
        t->forbidden[0] = ~allowed;
        if (below(2)) t->forbidden[0] ^= any() << (1 << t->k);
        t->forbidden[1] = any();
        worzubil_proposal said = worzubil_propose(t->k, t->forbidden, 2);
        require(said.number == 0, "a table refused");
        if (said.hull.exact) return said.hull;
    }
}

static void hand_in(thing *t, size_t truth, bool follows) {
    memset(t, 0, sizeof *t);
    if (below(2)) {
        worzubil_hull hull = any_table(t, truth, follows);
        require(worzubil_write(hull, t->names, t->k, width, lent.rows, ROOM, lent.constants, ROOM, m), "equations not written");
        m += hull.count;
        seen.tables++;
        return;
    }
    size_t share = below(n + 1);
    for (size_t a = 0; a < n; a++) t->atoms |= (size_t)(below(n) < share) << a;
    t->constant = below(2);
    if (follows) t->constant ^= !meets_thing(t, truth);
    for (size_t i = 0; i < width; i++) lent.rows[m * width + i] = t->atoms;
    lent.constants[m++] = t->constant;
}

/* A system of what is handed in, prepared in buffers that may be too long and hold anything past what is wanted. */
static void begin(size_t truth) {
    unsigned char *bytes = (unsigned char *)&lent;
    for (size_t i = 0; i < sizeof lent; i++) bytes[i] = (unsigned char)any();
    n = below(MOST_ATOMS + 1);
    width = n > 0;
    m = 0;
    count = below(MOST_THINGS + 1);
    bool follows = below(4) != 0;
    for (size_t i = 0; i < count; i++) hand_in(&things[i], truth, follows);
    size_t places = m < n ? m : n, unit_atoms[MOST_ATOMS];
    uint8_t unit_values[MOST_ATOMS];
    lent.rows_length = m * width + below(SPARE + 1);
    lent.constants_length = m + below(SPARE + 1);
    lent.basis_length = places + below(SPARE + 1);
    lent.index_length = n * (places > 0) * 2 + below(SPARE + 1);
    worzubil_prepared said =
        worzubil_prepare(n, m, lent.rows, lent.rows_length, lent.constants, lent.constants_length, lent.basis, lent.basis_length,
                         unit_atoms, places, unit_values, places, lent.index, lent.index_length);
    require(said.number == 0, "a fit system refused");
    lent.system = said.system;
    memcpy(&before, &lent, sizeof lent);
    region = worzubil_undecided(n).region;
    known = worzubil_fresh();
    holds = cuts = 0;
}

/* ---- calls */

static bool same_words(const uint64_t *left, const uint64_t *right) { return memcmp(left, right, 8 * sizeof *left) == 0; }

static bool same_region(worzubil_region r) {
    return r.atoms == region.atoms && same_words(r.held, region.held) && same_words(r.cut, region.cut);
}

static bool same_known(worzubil_snapshot k) {
    return k.initialized == known.initialized && k.atoms == known.atoms && same_words(k.held, known.held) &&
           same_words(k.cut, known.cut);
}

/* A decision, as the truth has it or, in so many of 8, anyhow; the atom may be none of the n. */
static void decide(size_t truth, size_t astray) {
    size_t atom = n > 0 && below(8) ? below(n) : below(4) ? n + below(3) : SIZE_MAX;
    bool value = atom >= n || below(8) < astray ? below(2) : truth >> atom & 1;
    worzubil_decision said = (value ? worzubil_hold : worzubil_cut)(region, atom);
    require((said.kind == WORZUBIL_REFUSED) == (atom >= n), "a decision refused that is fit, or not refused that is unfit");
    if (said.kind == WORZUBIL_TAKEN || said.kind == WORZUBIL_SAME) {
        *(value ? &holds : &cuts) |= (size_t)1 << atom;
        seen.accepted++;
    } else {
        require(same_region(said.region), "a region altered on a decision that is not accepted");
        *(said.kind == WORZUBIL_REFUSED ? &seen.refused : &seen.against) += 1;
    }
    region = said.region;
}

static worzubil_inspection inspect_with(const buffers *b, list *forced) {
    for (size_t i = 0; i < ROOM; i++) {
        forced->atoms[i] = any();
        forced->values[i] = (uint8_t)any();
    }
    return worzubil_inspect(b->system, b->rows, b->rows_length, b->constants, b->constants_length, b->basis, b->basis_length, b->index,
                            b->index_length, region, known, forced->atoms, forced->atoms_length, forced->values,
                            forced->values_length);
}

static void inspect(void) {
    list forced = {.atoms_length = lent.system.rank + below(3), .values_length = lent.system.rank + below(3)};
    worzubil_inspection said = inspect_with(&lent, &forced);
    require(said.kind != WORZUBIL_REFUSED, "a fit inspection refused");
    region = said.region;
    known = said.known;
    seen.inspections++;
    seen.changed += said.kind == WORZUBIL_CHANGED;
}

/* What an inspection refuses, in the buffers or the lists: one thing damaged, or others than those prepared. */
static void damage(buffers *b, list *forced) {
    worzubil_system *s = &b->system;
    size_t rank = s->rank, row = m > 0 ? below(m) : 0;
    switch (below(10)) {
    case 0:
        if (rank > 0) forced->atoms_length = below(rank);
        break;
    case 1:
        if (rank > 0) forced->values_length = below(rank);
        break;
    case 2: b->constants[row] = (uint8_t)(2 + below(254)); break;
    case 3: b->rows[row] |= (uint64_t)1 << (n + below(64 - n)); break;
    case 4: b->basis[rank > 0 ? below(rank) : 0] = m + below(3); break;
    case 5: b->index[n > 0 ? below(n) * 2 + 1 : 0] |= any(); break;
    case 6: b->rows_length = m * width > 0 ? below(m * width) : 0; break;
    case 7: s->rank = (m < n ? m : n) + 1; break;
    case 8: *(below(2) ? &s->atoms : &s->rows) = TOO_MANY; break;
    default:
        for (size_t i = 0; i < ROOM; i++) b->rows[i] = any();
        *s = (worzubil_system){below(MOST_ATOMS + 1), below(MOST_ATOMS + 1), below(MOST_ATOMS + 1), below(2)};
    }
}

/* An inspection that is lent what is damaged or foreign; where it is not refused after all, it is not one of the calls. */
static void inspect_unfit(void) {
    static buffers damaged, copy;
    list forced = {.atoms_length = lent.system.rank, .values_length = lent.system.rank};
    memcpy(&damaged, &lent, sizeof lent);
    damage(&damaged, &forced);
    memcpy(&copy, &damaged, sizeof copy);
    uint64_t seed = state;
    worzubil_inspection said = inspect_with(&damaged, &forced);
    require(memcmp(&copy, &damaged, sizeof copy) == 0, "a buffer changed");
    if (said.kind != WORZUBIL_REFUSED) return;
    require(said.number != 0 && said.held + said.cut + said.forced == 0, "a refusal without a number, or with a count");
    require(same_region(said.region) && same_known(said.known), "a refused inspection altered region or knowledge");
    state = seed;
    for (size_t i = 0; i < ROOM; i++)
        require(forced.atoms[i] == any() && forced.values[i] == (uint8_t)any(), "a refused inspection wrote to its list");
    region = said.region;
    known = said.known;
    seen.refused++;
}

/* ---- the probe and the count */

static size_t count_ways(void) {
    size_t ways = 0;
    for (size_t x = 0; x < (size_t)1 << n; x++) ways += meets[x] && (x & holds) == holds && (x & cuts) == 0;
    return ways;
}

static void probe(void) {
    worzubil_probed said = worzubil_probe(lent.system, lent.rows, lent.rows_length, lent.constants, lent.constants_length, lent.basis,
                                          lent.basis_length, region);
    size_t open = 0, ways = count_ways();
    for (size_t a = 0; a < n; a++) open += !((region.held[0] | region.cut[0]) >> a & 1);
    require(said.number == 0, "a probe refused");
    require(said.undecided == open, "another number of undecided atoms");
    require(said.kept <= said.undecided, "more rows kept than atoms undecided");
    require(ways == (said.yes ? (size_t)1 << (said.undecided - said.kept) : 0), "another number of ways");
    require(memcmp(&lent, &before, sizeof lent) == 0, "a prepared buffer changed");
    seen.probes++;
    seen.yes += said.yes;
    seen.no += !said.yes && !lent.system.refuted;
    seen.ways += ways;
}

/* A system, and up to 20 calls. The decisions follow the truth that was handed in or one that meets everything, if there is one. */
static void one_system(void) {
    size_t truth = below(1 << MOST_ATOMS);
    begin(truth);
    size_t met = 0;
    for (size_t x = 0; x < (size_t)1 << n; x++) {
        meets[x] = true;
        for (size_t i = 0; i < count; i++) meets[x] = meets[x] && meets_thing(&things[i], x);
        if (meets[x] && below(++met) == 0) truth = x;
    }
    require(lent.system.refuted == (met == 0), "refuted with a way, or not refuted without one");
    seen.refuted += lent.system.refuted;
    probe();
    size_t astray = below(3) * below(5), calls = below(21);
    for (call = 1; call <= calls; call++) {
        size_t kind = below(8);
        if (kind < 5) {
            decide(truth, astray);
        } else if (kind < 7) {
            inspect();
        } else {
            inspect_unfit();
        }
        probe();
    }
}

int main(int argc, char **argv) {
    unsigned long systems = argc > 1 ? strtoul(argv[1], NULL, 10) : 50000;
    uint64_t seed = argc > 2 ? strtoull(argv[2], NULL, 10) : 0;
    for (number = 0; number < systems; number++) {
        state = (seed * 0x9e3779b97f4a7c15u + number + 1) * 0xd1342543de82ef95u | 1;
        call = 0;
        one_system();
    }
    printf("%lu systems (%lu refuted) of rows and %lu tables; ", systems, seen.refuted, seen.tables);
    printf("%lu decisions accepted, %lu against, %lu inspections (%lu changed), %lu refused calls; ", seen.accepted, seen.against,
           seen.inspections, seen.changed, seen.refused);
    printf("%lu probes: %lu yes with %lu ways, %lu no with none and %lu of refuted systems\n", seen.probes, seen.yes, seen.ways, seen.no,
           seen.probes - seen.yes - seen.no);
    return 0;
}
