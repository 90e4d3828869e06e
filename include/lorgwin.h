/* Lorgwin: the entries of the script engine for C and C++. `rt lib` in crates/console builds the archive, crates/console/out/libconsole.a.
 *
 * Every entry ends, whatever it is given, and reads and writes nothing beyond the buffers that it is lent. No buffer that is written may overlap
 * another argument of the same call, and no pointer is null, not even with length 0. A refusal (number not 0) alters no lent byte, and all words
 * after `place` are then 0. docs/FORMATS.md lists the numbers and their places.
 *
 * The archive has the seven entries. The other functions here are inline; the last four call entries with all buffers in one lorgwin_memory. */
#ifndef LORGWIN_H
#define LORGWIN_H

#include <stddef.h>
#include <stdint.h>

#ifdef __cplusplus
extern "C" {
#endif

/* The minor number is the last item of document 02, the requests that came after the scope, that is in. */
#define LORGWIN_VERSION_MAJOR 1
#define LORGWIN_VERSION_MINOR 2

/* A refusal's number and place; 0 and 0 where nothing is refused. */
typedef struct {
    uint32_t number, place;
} lorgwin_verdict;

/* The same with the count of records written. */
typedef struct {
    uint32_t number, place, records;
} lorgwin_rewriting;

/* The same with the outcome and the steps made. */
typedef struct {
    uint32_t number, place, outcome, steps;
} lorgwin_plain_run;

/* The same with the counts of entries in history and log. */
typedef struct {
    uint32_t number, place, outcome, steps, history_count, log_count;
} lorgwin_rewritten_run;

/* Refusal numbers, in words by lorgwin_number_words. The script's author mends 1 to 7, the guideline's author 11 to 17, the caller 21 to 23. */
enum {
    LORGWIN_ACCEPTED = 0,
    LORGWIN_SCRIPT_LENGTH = 1,
    LORGWIN_SCRIPT_RECORD = 2,
    LORGWIN_SCRIPT_ORDER = 3,
    LORGWIN_SCRIPT_DEFINITION = 4,
    LORGWIN_SCRIPT_VARIABLE = 5,
    LORGWIN_SCRIPT_FUNCTION = 6,
    LORGWIN_SCRIPT_COMMAND = 7,
    LORGWIN_GUIDELINE_LENGTH = 11,
    LORGWIN_GUIDELINE_RECORD = 12,
    LORGWIN_GUIDELINE_ORDER = 13,
    LORGWIN_GUIDELINE_VARIABLE = 14,
    LORGWIN_GUIDELINE_COUNT = 15,
    LORGWIN_GUIDELINE_INDEX = 16,
    LORGWIN_GUIDELINE_FUNCTION = 17,
    LORGWIN_OUTPUT_SHORT = 21,
    LORGWIN_BUDGET = 22,
    LORGWIN_BUFFER_SHORT = 23
};

/* Outcomes, in words by lorgwin_outcome_words. */
enum { LORGWIN_VALUE = 0, LORGWIN_STUCK = 1, LORGWIN_SPENT = 2, LORGWIN_LARGE = 3, LORGWIN_FULL = 4 };

/* Bytes of a record of a script, of a record of a guideline, and of an entry of history or log. */
#define LORGWIN_SCRIPT_RECORD_BYTES 8
#define LORGWIN_GUIDELINE_RECORD_BYTES 16
#define LORGWIN_ENTRY_BYTES 16

/* Where the words of an entry stand in it, each 32 bits with the low byte first. */
enum { LORGWIN_ENTRY_TIME = 0, LORGWIN_ENTRY_FUNCTION = 4, LORGWIN_ENTRY_VIEW_KIND = 8, LORGWIN_ENTRY_VIEW_NUMBER = 12 };

/* The longest script and guideline that are taken, the longest script that rewriting writes and the rewritten run takes, and the largest budget. */
#define LORGWIN_SCRIPT_MAX_RECORDS 1024
#define LORGWIN_SCRIPT_MAX_BYTES 8192
#define LORGWIN_GUIDELINE_MAX_RECORDS 256
#define LORGWIN_GUIDELINE_MAX_BYTES 4096
#define LORGWIN_REWRITTEN_MAX_RECORDS 1296
#define LORGWIN_REWRITTEN_BYTES 10368
#define LORGWIN_MAX_BUDGET 1000000

/* Bytes that an entry uses of a buffer; bytes past them stay as they are. Within them, what is unused is zero afterwards. */
#define LORGWIN_TABLE_BYTES 8192
#define LORGWIN_EXPRESSION_BYTES 24576
#define LORGWIN_SCRATCH_BYTES 24576
#define LORGWIN_HISTORY_BYTES 16384
#define LORGWIN_LOG_BYTES 16384

/* What lorgwin_pass_term answers where no whole term begins. */
#define LORGWIN_NO_TERM UINT64_MAX

/* Checks a script, then a guideline with the functions of that script: numbers 1 to 7, then 11 to 17. */
lorgwin_verdict lorgwin_check(
    const uint8_t *script, size_t script_len,
    const uint8_t *guideline, size_t guideline_len);

/* Writes the derived predicates of a guideline: p(a, b) is bit b mod 8 of byte 512 p + 8 a + b div 8, values numbered by first appearance.
 * Numbers: 23 for a table too short, then 11 to 16. What the table held before does not matter. */
lorgwin_verdict lorgwin_derive(
    const uint8_t *guideline, size_t guideline_len,
    uint8_t *table, size_t table_len);

/* The record after the whole term that begins at a record, going by kinds alone, or LORGWIN_NO_TERM. */
uint64_t lorgwin_pass_term(
    const uint8_t *script, size_t script_len,
    uint64_t record);

/* Rewrites a script under a guideline into `out`: numbers 1 to 7, 11 to 17, then 21 for an output too short. Only the needed bytes are
 * written. */
lorgwin_rewriting lorgwin_rewrite(
    const uint8_t *script, size_t script_len,
    const uint8_t *guideline, size_t guideline_len,
    uint8_t *out, size_t out_len);

/* Runs a script that is not rewritten, for at most `budget` steps: numbers 22, 23, then 1 to 7. Leaves the last expression at the front of its
 * buffer. */
lorgwin_plain_run lorgwin_run_plain(
    const uint8_t *script, size_t script_len,
    uint32_t budget,
    uint8_t *expression, size_t expression_len,
    uint8_t *scratch, size_t scratch_len);

/* Runs a script that lorgwin_rewrite wrote under this same guideline (any other is run too, but its log may have gaps), for at most `budget`
 * steps: numbers 22, 23, 1 to 7, then 11 to 17. Leaves the last expression at the front of its buffer, the entries of history and log in theirs,
 * LORGWIN_ENTRY_BYTES each, and the derived predicates in the table. */
lorgwin_rewritten_run lorgwin_run_rewritten(
    const uint8_t *script, size_t script_len,
    const uint8_t *guideline, size_t guideline_len,
    uint32_t budget,
    uint8_t *expression, size_t expression_len,
    uint8_t *scratch, size_t scratch_len,
    uint8_t *history, size_t history_len,
    uint8_t *log, size_t log_len,
    uint8_t *table, size_t table_len);

/* Rewrites a script into `out` and runs what was written, as lorgwin_rewrite and lorgwin_run_rewritten do in turn: numbers 22, 23, then those
 * of lorgwin_rewrite, all tested before anything is written. */
lorgwin_rewritten_run lorgwin_rehearse(
    const uint8_t *script, size_t script_len,
    const uint8_t *guideline, size_t guideline_len,
    uint32_t budget,
    uint8_t *out, size_t out_len,
    uint8_t *expression, size_t expression_len,
    uint8_t *scratch, size_t scratch_len,
    uint8_t *history, size_t history_len,
    uint8_t *log, size_t log_len,
    uint8_t *table, size_t table_len);

/* What a refusal's number says. */
static inline const char *lorgwin_number_words(uint32_t number) {
    switch (number) {
    case LORGWIN_ACCEPTED: return "nothing is refused";
    case LORGWIN_SCRIPT_LENGTH: return "the script's length is 0, no multiple of 8, or above the limit";
    case LORGWIN_SCRIPT_RECORD: return "a script record of unknown kind, with a spare byte set or a number out of range";
    case LORGWIN_SCRIPT_ORDER: return "a script record that cannot stand here, or the script ends too early";
    case LORGWIN_SCRIPT_DEFINITION: return "a definition whose number is not the next, or a 129th";
    case LORGWIN_SCRIPT_VARIABLE: return "a variable that no abstraction around it binds";
    case LORGWIN_SCRIPT_FUNCTION: return "a function name that is not defined";
    case LORGWIN_SCRIPT_COMMAND: return "callEvent or emit where it may not stand, or over 1,024 records besides commands";
    case LORGWIN_GUIDELINE_LENGTH: return "the guideline's length is no multiple of 16 or above the limit";
    case LORGWIN_GUIDELINE_RECORD: return "a guideline record of unknown kind, with a spare byte set or a field out of range";
    case LORGWIN_GUIDELINE_ORDER: return "a guideline record that its section or head does not allow, or a rule head with no atom";
    case LORGWIN_GUIDELINE_VARIABLE: return "a head variable that the rule's body does not bind";
    case LORGWIN_GUIDELINE_COUNT: return "a 65th value, a fifth atom, a fifth trigger or a ninth logged clause";
    case LORGWIN_GUIDELINE_INDEX: return "a condition that names a trigger its clause does not have";
    case LORGWIN_GUIDELINE_FUNCTION: return "a function that the script does not define";
    case LORGWIN_OUTPUT_SHORT: return "the output is too short for the rewritten script";
    case LORGWIN_BUDGET: return "the budget is above 1,000,000";
    case LORGWIN_BUFFER_SHORT: return "a lent buffer is too short";
    default: return "unknown number";
    }
}

/* An outcome's name. */
static inline const char *lorgwin_outcome_words(uint32_t outcome) {
    switch (outcome) {
    case LORGWIN_VALUE: return "value";
    case LORGWIN_STUCK: return "stuck";
    case LORGWIN_SPENT: return "spent";
    case LORGWIN_LARGE: return "large";
    case LORGWIN_FULL: return "full";
    default: return "unknown outcome";
    }
}

/* All buffers of the calls below, 100,480 bytes. It may hold anything before a call. The call's entry is lent the fields by their names, and
 * `rewritten` as `out`; fields that it is not lent stay as they are. The script and the guideline that are given do not lie in it. */
typedef struct {
    uint8_t expression[LORGWIN_EXPRESSION_BYTES], scratch[LORGWIN_SCRATCH_BYTES];
    uint8_t history[LORGWIN_HISTORY_BYTES], log[LORGWIN_LOG_BYTES];
    uint8_t table[LORGWIN_TABLE_BYTES], rewritten[LORGWIN_REWRITTEN_BYTES];
} lorgwin_memory;

/* A file as the calls below take it: a null pointer with length 0 is an empty one. With any other length it becomes a file of one byte, which is
 * refused for its length (1 or 11): a guideline that was not read is not taken for empty, since that would log nothing. */
static inline const uint8_t *lorgwin_given(const uint8_t *bytes, size_t *len) {
    static const uint8_t none = 0;
    if (bytes) return bytes;
    if (*len) *len = 1;
    return &none;
}

/* lorgwin_rewrite, into `rewritten`. */
static inline lorgwin_rewriting lorgwin_memory_rewrite(
    lorgwin_memory *memory,
    const uint8_t *script, size_t script_len,
    const uint8_t *guideline, size_t guideline_len) {
    script = lorgwin_given(script, &script_len);
    guideline = lorgwin_given(guideline, &guideline_len);
    return lorgwin_rewrite(script, script_len, guideline, guideline_len, memory->rewritten, sizeof memory->rewritten);
}

/* lorgwin_run_plain. */
static inline lorgwin_plain_run lorgwin_memory_run_plain(
    lorgwin_memory *memory,
    const uint8_t *script, size_t script_len,
    uint32_t budget) {
    script = lorgwin_given(script, &script_len);
    return lorgwin_run_plain(
        script, script_len, budget,
        memory->expression, sizeof memory->expression,
        memory->scratch, sizeof memory->scratch);
}

/* lorgwin_run_rewritten of the script in `rewritten`: as many records as lorgwin_memory_rewrite returned, under the same guideline. */
static inline lorgwin_rewritten_run lorgwin_memory_run_rewritten(
    lorgwin_memory *memory,
    uint32_t records,
    const uint8_t *guideline, size_t guideline_len,
    uint32_t budget) {
    /* More records than `rewritten` holds are number 1, and so is length 0, which is lent in their place. */
    const size_t record_len = LORGWIN_SCRIPT_RECORD_BYTES;
    const size_t script_len = records <= LORGWIN_REWRITTEN_MAX_RECORDS ? records * record_len : 0;
    guideline = lorgwin_given(guideline, &guideline_len);
    return lorgwin_run_rewritten(
        memory->rewritten, script_len, guideline, guideline_len, budget,
        memory->expression, sizeof memory->expression,
        memory->scratch, sizeof memory->scratch,
        memory->history, sizeof memory->history,
        memory->log, sizeof memory->log,
        memory->table, sizeof memory->table);
}

/* lorgwin_rehearse: both in one call. */
static inline lorgwin_rewritten_run lorgwin_memory_rehearse(
    lorgwin_memory *memory,
    const uint8_t *script, size_t script_len,
    const uint8_t *guideline, size_t guideline_len,
    uint32_t budget) {
    script = lorgwin_given(script, &script_len);
    guideline = lorgwin_given(guideline, &guideline_len);
    return lorgwin_rehearse(
        script, script_len, guideline, guideline_len, budget,
        memory->rewritten, sizeof memory->rewritten,
        memory->expression, sizeof memory->expression,
        memory->scratch, sizeof memory->scratch,
        memory->history, sizeof memory->history,
        memory->log, sizeof memory->log,
        memory->table, sizeof memory->table);
}

#ifdef __cplusplus
}
#endif

#endif
