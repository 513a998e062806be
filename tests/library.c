/* Asks the compiled library: library states and runs in, one a line, and their answers out, in the text form of docs/ORACLE.md. Every lent
   buffer stands between canaries. An answer that no one can give is printed where a call touched one of them, or a cell that it does not
   name, or where a refused call changed something. */
#include <inttypes.h>
#include <stdio.h>
#include <stdlib.h>
#include <string.h>

#include "../include/worzubil.h"

enum { GUARD = 4, MOST_VALUES = 8192, CANARY = 0x5a };

/* A lent buffer, and all of its bytes as they were lent. */
typedef struct {
    unsigned char *bytes, *copy;
    void *cells;
    size_t length, size; /* of one cell, in bytes */
} buffer;

static char *token; /* the one to read next */
static uint64_t values[MOST_VALUES];

static void advance(void) { token = strtok(NULL, " \n"); }

/* The values after the name that is next, up to the next name; says how many. */
static size_t read_field(int base) {
    size_t count = 0;
    for (advance(); token && strspn(token, "0123456789abcdef") == strlen(token); advance()) {
        if (count == MOST_VALUES) exit(2);
        values[count++] = strtoull(token, NULL, base);
    }
    return count;
}

static uint64_t read_number(void) { return read_field(10) ? values[0] : 0; }

static size_t total(const buffer *b) { return (b->length + 2 * GUARD) * b->size; }

/* A buffer of cells that differ from their neighbours. */
static buffer lend(size_t size, size_t length) {
    buffer b = {.length = length, .size = size};
    b.bytes = malloc(total(&b));
    b.copy = malloc(total(&b));
    if (!b.bytes || !b.copy) exit(2);
    for (size_t i = 0; i < total(&b); i++) b.bytes[i] = b.copy[i] = (unsigned char)(CANARY + 37 * i);
    b.cells = b.bytes + GUARD * size;
    return b;
}

/* A buffer of the values last read. */
static buffer lend_words(size_t length) {
    buffer b = lend(sizeof(uint64_t), length);
    memcpy(b.cells, values, length * sizeof(uint64_t));
    memcpy(b.copy, b.bytes, total(&b));
    return b;
}

static buffer lend_bytes(size_t length) {
    buffer b = lend(1, length);
    for (size_t i = 0; i < length; i++) ((uint8_t *)b.cells)[i] = (uint8_t)values[i];
    memcpy(b.copy, b.bytes, total(&b));
    return b;
}

/* Whether all but the first `named` cells hold what they held. */
static bool stands(const buffer *b, size_t named) {
    size_t past = (GUARD + named) * b->size;
    return named <= b->length && memcmp(b->bytes, b->copy, GUARD * b->size) == 0 &&
           memcmp(b->bytes + past, b->copy + past, total(b) - past) == 0;
}

static void give_back(buffer *b) {
    free(b->bytes);
    free(b->copy);
}

static void print_words(const char *name, const buffer *b, size_t start, size_t count) {
    printf("%s", name);
    for (size_t i = 0; i < count; i++) printf(" %" PRIx64, ((uint64_t *)b->cells)[start + i]);
}

static void print_bytes(const char *name, const buffer *b, size_t count) {
    printf("%s", name);
    for (size_t i = 0; i < count; i++) printf(" %u", ((uint8_t *)b->cells)[i]);
}

static void print_numbers(const char *name, const buffer *b, size_t count) {
    printf("%s", name);
    for (size_t i = 0; i < count; i++) printf(" %zu", ((size_t *)b->cells)[i]);
}

static void hull(void) {
    size_t k = read_number();
    buffer table = lend_words(read_field(16));
    worzubil_proposal said = worzubil_propose(k, table.cells, table.length);
    if (!stands(&table, 0)) {
        printf("table touched");
    } else if (said.number != 0) {
        printf("refused %zu", said.number);
    } else {
        printf("hull %zu %s", said.hull.count, said.hull.exact ? "exact" : "inexact");
    }
    for (size_t i = 0; i < 8; i++) {
        worzubil_equation e = said.hull.equations[i];
        if (said.number == 0 && i < said.hull.count) {
            printf(" %u %u", e.coefficients, e.constant);
        } else if (e.coefficients != 0 || e.constant) {
            printf(" unused place %zu not 0", i);
        }
    }
    if (said.number != 0 && (said.hull.count != 0 || said.hull.exact)) printf(" field not 0");
    give_back(&table);
}

/* The answer of a call that was not refused. */
static void print_prepared(worzubil_prepared said, const buffer *rows, const buffer *constants, const buffer *basis,
                           const buffer *unit_atoms, const buffer *unit_values, const buffer *index) {
    worzubil_system system = said.system;
    printf("system %zu %zu %zu %zu %zu %zu %s", system.atoms, system.rows, system.rank, said.additions, said.units,
           said.incidences, system.refuted ? "refuted" : "sound");
    print_words(" rows", rows, 0, system.rows * ((system.atoms + 63) / 64));
    print_bytes(" constants", constants, system.rows);
    print_numbers(" basis", basis, system.rank);
    printf(" units");
    for (size_t i = 0; i < said.units; i++)
        printf(" %zu %u", ((size_t *)unit_atoms->cells)[i], ((uint8_t *)unit_values->cells)[i]);
    print_words(" index", index, 0, system.refuted ? 0 : system.atoms * ((system.rank + 127) / 128 * 2));
}

static void prepare(void) {
    read_field(10);
    size_t n = values[0], m = values[1];
    buffer rows = lend_words(read_field(16));
    buffer constants = lend_bytes(read_field(10));
    read_field(10);
    buffer basis = lend(sizeof(size_t), values[0]), unit_atoms = lend(sizeof(size_t), values[1]);
    buffer unit_values = lend(1, values[2]), index = lend(sizeof(uint64_t), values[3]);
    worzubil_prepared said = worzubil_prepare(n, m, rows.cells, rows.length, constants.cells, constants.length, basis.cells,
                                              basis.length, unit_atoms.cells, unit_atoms.length, unit_values.cells,
                                              unit_values.length, index.cells, index.length);
    worzubil_system system = said.system;
    bool fit = said.number == 0, indexed = fit && !system.refuted;
    bool left = stands(&rows, fit ? m * ((n + 63) / 64) : 0) && stands(&constants, fit ? m : 0) && stands(&basis, system.rank) &&
                stands(&unit_atoms, said.units) && stands(&unit_values, said.units) &&
                stands(&index, indexed ? n * ((system.rank + 127) / 128 * 2) : 0);
    bool zero = system.atoms + system.rows + system.rank + said.additions + said.units + said.incidences == 0 && !system.refuted;
    if (!left) {
        printf("a cell touched that is not named");
    } else if (fit && (system.atoms != n || system.rows != m)) {
        printf("another system");
    } else if (fit) {
        print_prepared(said, &rows, &constants, &basis, &unit_atoms, &unit_values, &index);
    } else {
        printf("refused %zu%s", said.number, zero ? "" : " and a field is not 0");
    }
    give_back(&rows);
    give_back(&constants);
    give_back(&basis);
    give_back(&unit_atoms);
    give_back(&unit_values);
    give_back(&index);
}

static void column(void) {
    size_t atom = read_number(), n = read_number(), rank = read_number();
    buffer index = lend_words(read_field(16));
    worzubil_span span = worzubil_column(index.cells, index.length, n, rank, atom);
    size_t number = worzubil_column_number(index.cells, index.length, n, rank, atom);
    if (!stands(&index, 0)) {
        printf("index touched");
    } else if (span.start > index.length || span.length > index.length - span.start) {
        printf("a column outside of the index");
    } else if (number == 0 && span.kind == WORZUBIL_ANSWERED) {
        print_words("column", &index, span.start, span.length);
    } else if (number != 0 && span.kind == WORZUBIL_UNFIT && span.start == 0 && span.length == 0) {
        printf("refused %zu", number);
    } else {
        printf("number %zu with kind %zu, start %zu, length %zu", number, span.kind, span.start, span.length);
    }
    give_back(&index);
}

/* Adds to the answer what no answer can have. */
static void blame(bool when, const char *what) {
    if (when) printf(" %s", what);
}

/* ---- regions and knowledge */

static void read_mask(uint64_t *words) {
    size_t count = read_field(16);
    if (count > 8) exit(2);
    memcpy(words, values, count * sizeof(uint64_t));
}

static worzubil_region read_region(void) {
    worzubil_region region = {.atoms = read_number()};
    read_mask(region.held);
    read_mask(region.cut);
    return region;
}

/* Where it is not initialized, the fields that do not count hold something. */
static worzubil_snapshot read_known(void) {
    worzubil_snapshot known = {.atoms = 600, .held = {3, 5}, .cut = {3, 7, 1}};
    if (read_field(10) == 0) {
        advance();
        return known;
    }
    memset(&known, 0, sizeof known);
    known.initialized = true;
    known.atoms = values[0];
    read_mask(known.held);
    read_mask(known.cut);
    return known;
}

static bool same_words(const uint64_t *left, const uint64_t *right) { return memcmp(left, right, 8 * sizeof(uint64_t)) == 0; }

static bool same_region(worzubil_region left, worzubil_region right) {
    return left.atoms == right.atoms && same_words(left.held, right.held) && same_words(left.cut, right.cut);
}

static bool same_known(worzubil_snapshot left, worzubil_snapshot right) {
    return left.initialized == right.initialized && left.atoms == right.atoms && same_words(left.held, right.held) &&
           same_words(left.cut, right.cut);
}

/* A mask of n atoms. */
static void print_mask(const char *name, const uint64_t *words, size_t n) {
    printf(" %s", name);
    for (size_t i = 0; i < 8; i++) {
        if (i * 64 < n) {
            printf(" %" PRIx64, words[i]);
        } else {
            blame(words[i] != 0, "a word past the atoms is not 0");
        }
    }
}

static void print_region(worzubil_region region) {
    print_mask("held", region.held, region.atoms);
    print_mask("cut", region.cut, region.atoms);
}

static void print_known(worzubil_snapshot known) {
    if (!known.initialized) {
        printf(" known fresh");
        return;
    }
    printf(" known %zu", known.atoms);
    print_mask("oldheld", known.held, known.atoms);
    print_mask("oldcut", known.cut, known.atoms);
}

/* ---- decisions, inspections and probes */

/* Region and knowledge, as the last call left them. */
static worzubil_region region;
static worzubil_snapshot known;

/* What a prepared system is lent. */
typedef struct {
    worzubil_system system;
    buffer rows, constants, basis, index;
} filled;

/* Decides, and prints the answer; says whether it was not refused. */
static bool decide(size_t atom, bool value) {
    static const char *const kinds[] = {"taken", "same", "against"};
    worzubil_decision said = (value ? worzubil_hold : worzubil_cut)(region, atom);
    bool refused = said.kind == WORZUBIL_REFUSED;
    if (refused) {
        printf("refused %zu", said.number);
    } else {
        printf("%s", said.kind < 3 ? kinds[said.kind] : "another kind");
    }
    blame(refused != (said.number != 0), "a number without a refusal, or none with it");
    blame(said.kind != WORZUBIL_TAKEN && !same_region(region, said.region), "the region is not as passed");
    blame(region.atoms != said.region.atoms, "another atom count");
    region = said.region;
    return !refused;
}

/* Inspects with forced lists of so many entries, and prints the answer, and the state after it: of a refused one only if `always`. */
static void inspect(const filled *lent, size_t atoms_length, size_t values_length, bool always) {
    static const char *const kinds[] = {"unchanged", "changed", "refuted"};
    buffer atoms = lend(sizeof(size_t), atoms_length), forced = lend(1, values_length);
    const buffer *rows = &lent->rows, *constants = &lent->constants, *basis = &lent->basis, *index = &lent->index;
    worzubil_inspection said =
        worzubil_inspect(lent->system, rows->cells, rows->length, constants->cells, constants->length, basis->cells, basis->length,
                         index->cells, index->length, region, known, atoms.cells, atoms.length, forced.cells, forced.length);
    bool refused = said.kind == WORZUBIL_REFUSED;
    if (!refused || always) printf("inspect ");
    if (refused) {
        printf("refused %zu", said.number);
    } else {
        printf("%s %zu %zu", said.kind < 3 ? kinds[said.kind] : "another kind", said.held, said.cut);
    }
    blame(refused != (said.number != 0), "a number without a refusal, or none with it");
    blame(refused && said.held + said.cut + said.forced != 0, "a field is not 0");
    blame(refused && !same_region(region, said.region), "the region is not as passed");
    blame((refused || !said.known.initialized) && !same_known(known, said.known), "the knowledge is not as passed");
    blame(region.atoms != said.region.atoms, "another atom count");
    bool stand = stands(rows, 0) && stands(constants, 0) && stands(basis, 0) && stands(index, 0);
    bool named = stands(&atoms, said.forced) && stands(&forced, said.forced);
    blame(!stand || !named, "a cell touched that is not named");
    region = said.region;
    known = said.known;
    if (!refused || always) {
        print_region(region);
        printf(" forced");
        for (size_t i = 0; i < said.forced && named; i++)
            printf(" %zu %u", ((size_t *)atoms.cells)[i], ((uint8_t *)forced.cells)[i]);
        print_known(known);
    }
    give_back(&atoms);
    give_back(&forced);
}

/* Probes, and prints the answer. */
static void probe(const filled *lent) {
    const buffer *rows = &lent->rows, *constants = &lent->constants, *basis = &lent->basis;
    worzubil_probed said = worzubil_probe(lent->system, rows->cells, rows->length, constants->cells, constants->length, basis->cells,
                                          basis->length, region);
    if (said.number != 0) {
        printf("refused %zu", said.number);
        blame(said.yes || said.undecided + said.kept != 0, "a field is not 0");
    } else {
        printf("probe %s %zu %zu", said.yes ? "yes" : "no", said.undecided, said.kept);
    }
    blame(!stands(rows, 0) || !stands(constants, 0) || !stands(basis, 0), "a cell touched that is not named");
}

static void decide_state(bool value) {
    size_t atom = read_number();
    region = read_region();
    if (decide(atom, value)) print_region(region);
}

static worzubil_system read_system(void) {
    if (read_field(10) != 3) exit(2);
    worzubil_system system = {values[0], values[1], values[2], strcmp(token, "refuted") == 0};
    advance();
    return system;
}

static void touched_state(void) {
    worzubil_system system = read_system();
    buffer index = lend_words(read_field(16));
    region = read_region();
    known = read_known();
    worzubil_selected said = worzubil_touched(system, index.cells, index.length, region, known);
    printf(said.number != 0 ? "refused %zu" : "touched", said.number);
    for (size_t j = 0; j < 512; j++)
        if (said.rows.words[j / 64] >> (j % 64) & 1) printf(" %zu", j);
    blame(!stands(&index, 0), "index touched");
    give_back(&index);
}

static void inspect_state(void) {
    filled lent = {.system = read_system()};
    lent.rows = lend_words(read_field(16));
    lent.constants = lend_bytes(read_field(10));
    lent.basis = lend_words(read_field(10));
    lent.index = lend_words(read_field(16));
    region = read_region();
    known = read_known();
    size_t count = read_field(10);
    inspect(&lent, values[0], values[count - 1], false);
    give_back(&lent.rows);
    give_back(&lent.constants);
    give_back(&lent.basis);
    give_back(&lent.index);
}

static void probe_state(void) {
    filled lent = {.system = read_system()};
    lent.rows = lend_words(read_field(16));
    lent.constants = lend_bytes(read_field(10));
    lent.basis = lend_words(read_field(10));
    region = read_region();
    probe(&lent);
    give_back(&lent.rows);
    give_back(&lent.constants);
    give_back(&lent.basis);
}

/* ---- runs */

/* The calls of a run, from the first on, over one region and one knowledge. */
static void run_calls(const filled *lent) {
    region = worzubil_undecided(lent->system.atoms).region;
    known = worzubil_fresh();
    advance();
    while (token) {
        const char *call = token;
        size_t count = read_field(10);
        if (count != (strcmp(call, "probe") == 0 ? 0 : 2)) exit(2);
        printf("; ");
        if (strcmp(call, "inspect") == 0) {
            inspect(lent, values[0], values[1], true);
            continue;
        }
        if (count == 0) {
            probe(lent);
        } else {
            size_t atom = values[0];
            bool value = values[1] != 0;
            printf("decide %zu %d ", atom, value);
            decide(atom, value);
        }
        print_region(region);
        printf(" forced");
        print_known(known);
    }
}

/* A system, prepared here with buffers of just the lengths wanted, and then calls. */
static void run(void) {
    read_field(10);
    size_t n = values[0], m = values[1], places = n < m ? n : m;
    filled lent = {.rows = lend_words(read_field(16))};
    lent.constants = lend_bytes(read_field(10));
    lent.basis = lend(sizeof(size_t), places);
    lent.index = lend(sizeof(uint64_t), n * ((places + 127) / 128 * 2));
    buffer unit_atoms = lend(sizeof(size_t), places), unit_values = lend(1, places);
    worzubil_prepared said = worzubil_prepare(n, m, lent.rows.cells, lent.rows.length, lent.constants.cells, lent.constants.length,
                                              lent.basis.cells, lent.basis.length, unit_atoms.cells, unit_atoms.length,
                                              unit_values.cells, unit_values.length, lent.index.cells, lent.index.length);
    if (said.number != 0) exit(2);
    print_prepared(said, &lent.rows, &lent.constants, &lent.basis, &unit_atoms, &unit_values, &lent.index);
    lent.system = said.system;
    buffer *kept[] = {&lent.rows, &lent.constants, &lent.basis, &lent.index};
    for (size_t i = 0; i < 4; i++) memcpy(kept[i]->copy, kept[i]->bytes, total(kept[i]));
    run_calls(&lent);
    for (size_t i = 0; i < 4; i++) give_back(kept[i]);
    give_back(&unit_atoms);
    give_back(&unit_values);
}

/* Whether the call is known. */
static bool answer(const char *call) {
    static const char *const names[] = {"hull", "prepare", "column", "touched", "inspect", "probe", "run"};
    static void (*const calls[])(void) = {hull, prepare, column, touched_state, inspect_state, probe_state, run};
    for (size_t i = 0; i < sizeof names / sizeof *names; i++) {
        if (strcmp(call, names[i]) != 0) continue;
        calls[i]();
        return true;
    }
    bool holds = strcmp(call, "hold") == 0;
    if (!holds && strcmp(call, "cut") != 0) return false;
    decide_state(holds);
    return true;
}

int main(void) {
    char *line = NULL;
    size_t room = 0;
    while (getline(&line, &room, stdin) > 0) {
        const char *call = strtok(line, " \n");
        advance();
        printf("%s\n", answer(call) ? "" : "unknown");
    }
    free(line);
    return 0;
}
