/* A console in small: rewrites a script under its guideline, runs what was written, and prints the log as the store files it. A refusal prints its
 * number and place, and what it says on standard error.
 *
 *   cc -O2 -Iinclude examples/console.c crates/console/out/libconsole.a -o console
 *   ./console show.scr show.gl
 *
 * Two calls, as a console makes them: rewriting before the show, the run during it. lorgwin_memory_rehearse does both in one. */
#include <errno.h>
#include <stdio.h>
#include <stdlib.h>

#include "lorgwin.h"

/* The steps of a rehearsal, and how this program ends when it lists nothing. */
enum { BUDGET = 1000, REFUSED = 1, UNUSABLE = 2 };

/* One byte more than the longest file that is accepted, so that a longer one is seen to be too long. */
static uint8_t script[LORGWIN_SCRIPT_MAX_BYTES + 1], guideline[LORGWIN_GUIDELINE_MAX_BYTES + 1];
static lorgwin_memory memory;

/* A missing file reads as empty. One that is there and cannot be read ends the program: a guideline taken for empty would log nothing. */
static size_t load(const char *name, uint8_t *bytes, size_t most) {
    FILE *file = fopen(name, "rb");
    if (!file && errno == ENOENT) return 0;
    size_t n = file ? fread(bytes, 1, most, file) : 0;
    if (!file || ferror(file)) {
        perror(name);
        exit(UNUSABLE);
    }
    fclose(file);
    return n;
}

/* A word of an entry: 32 bits, the low byte first. */
static unsigned word(const uint8_t *bytes) {
    return (unsigned)bytes[0] | (unsigned)bytes[1] << 8 | (unsigned)bytes[2] << 16 | (unsigned)bytes[3] << 24;
}

static int refused(uint32_t number, uint32_t place) {
    printf("%u %u\n", (unsigned)number, (unsigned)place);
    fprintf(stderr, "refused with number %u, place %u: %s\n", (unsigned)number, (unsigned)place, lorgwin_number_words(number));
    return REFUSED;
}

int main(int argc, char **argv) {
    if (argc != 3) {
        fprintf(stderr, "usage: %s SCRIPT GUIDELINE\n", argv[0]);
        return UNUSABLE;
    }
    size_t script_len = load(argv[1], script, sizeof script);
    size_t guideline_len = load(argv[2], guideline, sizeof guideline);

    lorgwin_rewriting written = lorgwin_memory_rewrite(&memory, script, script_len, guideline, guideline_len);
    if (written.number != LORGWIN_ACCEPTED) return refused(written.number, written.place);

    lorgwin_rewritten_run run = lorgwin_memory_run_rewritten(&memory, written.records, guideline, guideline_len, BUDGET);
    if (run.number != LORGWIN_ACCEPTED) return refused(run.number, run.place);

    for (size_t i = 0; i < run.log_count; i++) {
        const uint8_t *entry = memory.log + LORGWIN_ENTRY_BYTES * i;
        printf("%u %u %u %u\n", word(entry + LORGWIN_ENTRY_TIME), word(entry + LORGWIN_ENTRY_FUNCTION), word(entry + LORGWIN_ENTRY_VIEW_KIND),
               word(entry + LORGWIN_ENTRY_VIEW_NUMBER));
    }
    printf("%s %u\n", lorgwin_outcome_words(run.outcome), (unsigned)run.steps);
    return 0;
}
