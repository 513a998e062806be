/* A reducer of double star measures at work, in C. The same story as settle.rs, line by line.
 *
 * A group of six measures, numbered from 0, of which some may be swapped. True, or held, means swapped; false, or cut, means not swapped.
 * For m rows over n atoms, a row has worzubil_width(n) words and an atom's column 2 * ceil(min(m, n) / 128); here these are 1 and 2. */
#include <stdio.h>

#include "worzubil.h"

enum { ATOMS = 6, ROWS = 4, WIDTH = 1, COLUMN = 2 };

/* What is lent to the calls. */
static uint64_t rows[ROWS * WIDTH], columns[ATOMS * COLUMN];
static uint8_t constants[ROWS], unit_values[ROWS], forced_values[ROWS];
static size_t basis[ROWS], unit_atoms[ROWS], forced_atoms[ROWS];

/* What is handed in so far. */
static size_t count;

/* The numbers of the refusals below, in words; include/worzubil.h has those of every call, docs/FORMAT.md those of a file. */
static const char *meaning(size_t number) {
    switch (number) {
    case 9: return "a buffer is too short";
    case 18: return "the atom is not below the atom count";
    default: return "another number";
    }
}

/* ---- what the centres report */

/* Of the atoms, bit a for atom a, an odd (1) or an even (0) number is swapped. */
static void add_row(uint64_t atoms, uint8_t constant) {
    rows[count] = atoms;
    constants[count] = constant;
    count++;
}

/* Hands a table of two measures in, if parity equations can say it. Bit p is set where pattern p is forbidden. */
static void add_table(size_t a, size_t b, uint64_t patterns) {
    const size_t names[2] = {a, b};
    const uint64_t forbidden[2] = {patterns, 0};
    worzubil_proposal proposal = worzubil_propose(2, forbidden, 2);
    printf("table %zu %zu: ", a, b);
    if (proposal.number != 0) {
        printf("refused %zu\n", proposal.number);
    } else if (!proposal.hull.exact) {
        printf("not exact, left out\n");
    } else if (!worzubil_write(proposal.hull, names, 2, WIDTH, rows, ROWS * WIDTH, constants, ROWS, count)) {
        printf("no room, left out\n");
    } else {
        count += proposal.hull.count;
        printf("exact, equations: %zu\n", proposal.hull.count);
    }
}

static void hand_in(void) {
    add_row(1 << 0 | 1 << 1, 1);          /* of 0 and 1 an odd number is swapped */
    add_row(1 << 1 | 1 << 2 | 1 << 3, 0); /* of 1, 2 and 3 an even number */
    add_row(1 << 0 | 1 << 2 | 1 << 3, 1); /* this follows from the two above */
    add_table(2, 4, 1 << 0 | 1 << 3);     /* neither and both cannot be */
    add_table(4, 5, 1 << 3);              /* both cannot be */
}

/* Prepares what is handed in, with so many words lent for the rows. */
static worzubil_prepared prepare(size_t words) {
    return worzubil_prepare(ATOMS, count, rows, words, constants, ROWS, basis, ROWS, unit_atoms, ROWS, unit_values, ROWS, columns,
                            ATOMS * COLUMN);
}

/* ---- what is settled */

/* Tells what became of a decision, and hands the region on. */
static worzubil_region told(const char *what, size_t atom, worzubil_decision decision) {
    static const char *const kinds[] = {"taken", "same", "against"};
    if (decision.kind == WORZUBIL_REFUSED)
        printf("%s %zu: refused %zu: %s\n", what, atom, decision.number, meaning(decision.number));
    else
        printf("%s %zu: %s\n", what, atom, kinds[decision.kind]);
    return decision.region;
}

static void tell_ways(worzubil_system system, worzubil_region region) {
    worzubil_probed probed = worzubil_probe(system, rows, ROWS * WIDTH, constants, ROWS, basis, ROWS, region);
    if (probed.number != 0)
        printf("probe: refused %zu: %s\n", probed.number, meaning(probed.number));
    else if (probed.yes)
        printf("probe: 2^%zu ways\n", probed.undecided - probed.kept);
    else
        printf("probe: no way\n");
}

/* Inspects until nothing more is forced. The knowledge spares an inspection the rows in which nothing was settled since the last. */
static worzubil_region force(worzubil_system system, worzubil_region region) {
    static const char *const kinds[] = {"unchanged", "changed", "refuted", "refused"};
    worzubil_inspection seen = {.region = region, .known = worzubil_fresh()};
    do {
        seen = worzubil_inspect(system, rows, ROWS * WIDTH, constants, ROWS, basis, ROWS, columns, ATOMS * COLUMN, seen.region,
                                seen.known, forced_atoms, ROWS, forced_values, ROWS);
        printf("inspect: %s\n", kinds[seen.kind]);
        for (size_t i = 0; i < seen.forced; i++)
            printf("  %zu must be %s\n", forced_atoms[i], forced_values[i] == 1 ? "swapped" : "right");
    } while (seen.kind == WORZUBIL_CHANGED);
    return seen.region;
}

static void settle(worzubil_system system) {
    worzubil_region region = worzubil_undecided(ATOMS).region;
    tell_ways(system, region);
    region = told("hold", 0, worzubil_hold(region, 0));
    region = told("cut", 3, worzubil_cut(region, 3));
    region = told("cut", 0, worzubil_cut(region, 0));

    worzubil_region trial = told("trial: hold", 1, worzubil_hold(region, 1)); /* the region itself stays */
    tell_ways(system, trial);

    region = force(system, region);
    tell_ways(system, region);
    told("hold", ATOMS, worzubil_hold(region, ATOMS)); /* there is no such measure */
}

/* Four rows, but words for three. */
static void lend_too_little(void) {
    worzubil_prepared prepared = prepare(3);
    if (prepared.number != 0)
        printf("prepare: refused %zu: %s\n", prepared.number, meaning(prepared.number));
    else
        printf("prepare: done\n");
}

static void answer(const uint8_t *file, size_t length) {
    static uint8_t text[WORZUBIL_ROOM(64)];
    worzubil_answered answered = worzubil_answer_file(file, length, text, sizeof text);
    fwrite(text, 1, answered.length, stdout);
}

int main(void) {
    hand_in();
    worzubil_prepared prepared = prepare(ROWS * WIDTH);
    if (prepared.number != 0) return 1;
    worzubil_system system = prepared.system;
    printf("system: %zu rows, rank %zu, %s\n", system.rows, system.rank, system.refuted ? "refuted" : "sound");
    settle(system);
    lend_too_little();

    /* atoms 2, row 1: 0 1, decide 0 1, inspect, probe */
    uint8_t file[] = {4, 0, 1, 0, 2, 0, 7, 0, 2, 0, 1, 0, 0, 1, 0, 5, 0, 4, 0, 0, 0, 1, 2, 0, 5, 0, 2, 0, 6, 0};
    printf("a file:\n");
    answer(file, sizeof file);
    file[13] = 2; /* its row names atom 2, which is not there */
    printf("a file with a fault:\n");
    answer(file, sizeof file);
    return 0;
}
