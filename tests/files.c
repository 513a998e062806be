/* Asks the compiled library of files: files in, and for each the line of its load and its text out, after their length in 4 bytes,
   little-endian. Every file is loaded and answered twice, with just the room that is wanted and with less, each time between canaries.
   What no file has is written where a call touched a canary or memory past what it fills, or where a refused call touched any. */
#include <stdio.h>
#include <stdlib.h>
#include <string.h>

#include "../include/worzubil.h"

enum { GUARD = 64, CANARY = 0x5a };

static void *must(void *memory) {
    if (!memory) exit(2);
    return memory;
}

/* Memory of so many bytes between canaries, itself of canaries. */
static void *lend(size_t length) {
    unsigned char *memory = must(malloc(length + 2 * GUARD));
    memset(memory, CANARY, length + 2 * GUARD);
    return memory + GUARD;
}

/* Whether all but the first bytes still are. */
static bool untouched(const void *lent, size_t length, size_t first) {
    const unsigned char *bytes = (const unsigned char *)lent - GUARD;
    for (size_t i = 0; i < length + 2 * GUARD; i++)
        if ((i < GUARD || i >= GUARD + first) && bytes[i] != CANARY) return false;
    return true;
}

static void give_back(void *lent) { free((unsigned char *)lent - GUARD); }

/* "loaded", the number and place of the check, atoms, rows, the words of all rows and their constants. */
static void load(FILE *told, const unsigned char *file, size_t length) {
    worzubil_checked check = worzubil_check(file, length);
    size_t words = check.rows * worzubil_width(check.atoms), m = check.rows;
    uint64_t *rows = lend(8 * words);
    unsigned char *constants = lend(m);
    bool good = true;
    if (m > 0) good = worzubil_load(file, length, rows, words, constants, m - 1).number == 9;
    if (words > 0) good = good && worzubil_load(file, length, rows, words - 1, constants, m).number == 9;
    good = good && untouched(rows, 8 * words, 0) && untouched(constants, m, 0);
    worzubil_checked loaded = worzubil_load(file, length, rows, words, constants, m);
    good = good && !memcmp(&loaded, &check, sizeof check) && untouched(rows, 8 * words, 8 * words) && untouched(constants, m, m);
    fprintf(told, good ? "loaded %zu %zu %zu %zu" : "broken", check.number, check.offset, check.atoms, check.rows);
    for (size_t i = 0; i < words; i++) fprintf(told, " %llx", (unsigned long long)rows[i]);
    for (size_t i = 0; i < m; i++) fprintf(told, " %d", constants[i]);
    fputs("\n", told);
    give_back(rows);
    give_back(constants);
}

static void answer(FILE *told, const unsigned char *file, size_t length) {
    size_t room = WORZUBIL_ROOM(length);
    unsigned char *out = lend(room);
    worzubil_answered less = worzubil_answer_file(file, length, out, room - 1);
    bool good = less.number == 9 && less.length == 0 && untouched(out, room, 0);
    worzubil_answered answered = worzubil_answer_file(file, length, out, room);
    good = good && answered.number == 0 && answered.length <= room && untouched(out, room, answered.length);
    if (!good) fputs("broken\n", told);
    fwrite(out, 1, good ? answered.length : 0, told);
    give_back(out);
}

int main(void) {
    unsigned char head[4];
    while (fread(head, 1, 4, stdin) == 4) {
        size_t length = head[0] | (size_t)head[1] << 8 | (size_t)head[2] << 16 | (size_t)head[3] << 24, size;
        unsigned char *file = must(malloc(length + 1));
        char *text;
        FILE *told = must(open_memstream(&text, &size));
        if (fread(file, 1, length, stdin) != length) return 2;
        load(told, file, length);
        answer(told, file, length);
        if (fclose(told)) return 2;
        unsigned char sent[4] = {size & 255, size >> 8 & 255, size >> 16 & 255, size >> 24 & 255};
        if (fwrite(sent, 1, 4, stdout) != 4 || fwrite(text, 1, size, stdout) != size) return 2;
        free(text);
        free(file);
    }
    return 0;
}
