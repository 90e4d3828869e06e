/* Tests include/lorgwin.h, as C and as C++: every entry by parameter name (by_name.py prints by_name.h), the constants, the words and the calls over
 * lorgwin_memory.
 *
 * Before each call six buffers hold noise, no two the same. After it every byte of all six is compared, those too that the call was not lent. So
 * two buffers whose names are exchanged in a prototype are seen: one has what belongs in the other.
 *
 *   header          runs the tests
 *   header words    prints the numbers with their names and words, as the rows of a document's table */
#include <stdio.h>
#include <string.h>

#include "by_name.h"

#if LORGWIN_VERSION_MAJOR != 1 || LORGWIN_VERSION_MINOR < 2
#error "this test is for version 1.2 and later"
#endif

#define COUNT(array) (sizeof array / sizeof array[0])

typedef struct {
    const uint8_t *bytes;
    size_t len;
} file;

#define WHOLE(array) {array, sizeof array}
#define NONE {nothing, 0}

static const uint8_t nothing[1] = {0};

/* Records of a script and of a guideline, and entries of history and log, with numbers below 256. */
#define R(kind, number) kind, 0, 0, 0, number, 0, 0, 0
#define G(kind, one, two, three, first, second) kind, one, two, three, first, 0, 0, 0, second, 0, 0, 0, 0, 0, 0, 0
#define E(time, function, kind, number) time, 0, 0, 0, function, 0, 0, 0, kind, 0, 0, 0, number, 0, 0, 0

/* ---- buffers, and what a call is to leave in them */

enum { OUT, EXPRESSION, SCRATCH, HISTORY, LOG, TABLE, BUFFERS };
enum { SPARE = 96, ROOM = LORGWIN_EXPRESSION_BYTES + 2 * SPARE };

static const char *const names[BUFFERS] = {"out", "expression", "scratch", "history", "log", "table"};
static const size_t sizes[BUFFERS] = {LORGWIN_REWRITTEN_BYTES, LORGWIN_EXPRESSION_BYTES, LORGWIN_SCRATCH_BYTES,
                                      LORGWIN_HISTORY_BYTES,   LORGWIN_LOG_BYTES,        LORGWIN_TABLE_BYTES};
static uint8_t lent[BUFFERS][ROOM], wanted[BUFFERS][ROOM];
static size_t lengths[BUFFERS];

/* New noise in all buffers. They are lent with some bytes more than their sizes; more lie past those. */
static void prepare(void) {
    static uint32_t noise = 1;
    for (int i = 0; i < BUFFERS; i++) {
        for (size_t at = 0; at < ROOM; at++) {
            noise = noise * 1664525u + 1013904223u;
            lent[i][at] = (uint8_t)(noise >> 24);
        }
        lengths[i] = sizes[i] + SPARE;
    }
    memcpy(wanted, lent, sizeof lent);
}

/* The next call is to leave these bytes in a buffer, and zeros after them up to a size. */
static void leave(int buffer, file front, size_t size) {
    memset(wanted[buffer], 0, size);
    memcpy(wanted[buffer], front.bytes, front.len);
}

/* ---- answers: the words of any entry, 0 where it has no such word */

typedef struct {
    uint32_t number, place, records, outcome, steps, history_count, log_count;
} answer;

static unsigned long comparisons, failures;

static void same(const char *call, const char *vector, const char *what, uint64_t found, uint64_t right) {
    comparisons++;
    if (found == right) return;
    failures++;
    printf("%s, %s: %s is %llu, not %llu\n", call, vector, what, (unsigned long long)found, (unsigned long long)right);
}

static answer verdict(uint32_t number, uint32_t place) {
    answer all;
    memset(&all, 0, sizeof all);
    all.number = number;
    all.place = place;
    return all;
}

static answer of_rewriting(lorgwin_rewriting found) {
    answer all = verdict(found.number, found.place);
    all.records = found.records;
    return all;
}

static answer of_plain_run(lorgwin_plain_run found) {
    answer all = verdict(found.number, found.place);
    all.outcome = found.outcome;
    all.steps = found.steps;
    return all;
}

static answer of_rewritten_run(lorgwin_rewritten_run found) {
    answer all = verdict(found.number, found.place);
    all.outcome = found.outcome;
    all.steps = found.steps;
    all.history_count = found.history_count;
    all.log_count = found.log_count;
    return all;
}

/* Compares every word, and every byte of every buffer. */
static void expect(const char *call, const char *vector, answer found, answer right) {
    same(call, vector, "number", found.number, right.number);
    same(call, vector, "place", found.place, right.place);
    same(call, vector, "records", found.records, right.records);
    same(call, vector, "outcome", found.outcome, right.outcome);
    same(call, vector, "steps", found.steps, right.steps);
    same(call, vector, "history_count", found.history_count, right.history_count);
    same(call, vector, "log_count", found.log_count, right.log_count);
    for (int i = 0; i < BUFFERS; i++) {
        size_t at = 0;
        while (at < ROOM && lent[i][at] == wanted[i][at]) at++;
        comparisons++;
        if (at == ROOM) continue;
        failures++;
        printf("%s, %s: byte %lu of %s is %d, not %d\n", call, vector, (unsigned long)at, names[i], lent[i][at], wanted[i][at]);
    }
}

/* ---- the entries, by parameter name */

#define GIVE(name) (named.name = name.bytes, named.name##_len = name.len)
#define LEND(name, buffer) (named.name = lent[buffer], named.name##_len = lengths[buffer])

static answer check(file script, file guideline) {
    lorgwin_check_named named;
    GIVE(script);
    GIVE(guideline);
    lorgwin_verdict found = lorgwin_check_by_name(named);
    return verdict(found.number, found.place);
}

static answer derive(file guideline) {
    lorgwin_derive_named named;
    GIVE(guideline);
    LEND(table, TABLE);
    lorgwin_verdict found = lorgwin_derive_by_name(named);
    return verdict(found.number, found.place);
}

static uint64_t pass_term(file script, uint64_t record) {
    lorgwin_pass_term_named named;
    GIVE(script);
    named.record = record;
    return lorgwin_pass_term_by_name(named);
}

static answer rewrite(file script, file guideline) {
    lorgwin_rewrite_named named;
    GIVE(script);
    GIVE(guideline);
    LEND(out, OUT);
    return of_rewriting(lorgwin_rewrite_by_name(named));
}

static answer run_plain(file script, uint32_t budget) {
    lorgwin_run_plain_named named;
    GIVE(script);
    named.budget = budget;
    LEND(expression, EXPRESSION);
    LEND(scratch, SCRATCH);
    return of_plain_run(lorgwin_run_plain_by_name(named));
}

static answer run_rewritten(file script, file guideline, uint32_t budget) {
    lorgwin_run_rewritten_named named;
    GIVE(script);
    GIVE(guideline);
    named.budget = budget;
    LEND(expression, EXPRESSION);
    LEND(scratch, SCRATCH);
    LEND(history, HISTORY);
    LEND(log, LOG);
    LEND(table, TABLE);
    return of_rewritten_run(lorgwin_run_rewritten_by_name(named));
}

static answer rehearse(file script, file guideline, uint32_t budget) {
    lorgwin_rehearse_named named;
    GIVE(script);
    GIVE(guideline);
    named.budget = budget;
    LEND(out, OUT);
    LEND(expression, EXPRESSION);
    LEND(scratch, SCRATCH);
    LEND(history, HISTORY);
    LEND(log, LOG);
    LEND(table, TABLE);
    return of_rewritten_run(lorgwin_rehearse_by_name(named));
}

/* ---- shows that are accepted */

typedef struct {
    const char *name;
    file script, guideline;
    uint32_t budget, outcome, steps, history_count, log_count;
    file left[BUFFERS]; /* what a rehearsal leaves at the front of each buffer */
} show;

/* Functions 0 (override) and 1 (fire) give back their argument; main overrides 3 and then fires 7. */
#define MAIN R(5, 0), R(4, 0), R(5, 0), R(2, 1), R(3, 7), R(5, 0), R(2, 0), R(3, 3)
static const uint8_t script_bytes[] = {R(8, 0), R(1, 0), R(8, 1), R(1, 0), MAIN};

/* Fact p0(3:3, 3:7); rule p1(x, y) :- p0(x, y); log 1 after 0 where p1(x1, x0). */
static const uint8_t guideline_bytes[] = {G(1, 0, 3, 3, 3, 7), G(2, 1, 0, 1, 0, 0), G(3, 0, 0, 1, 0, 0),
                                          G(4, 0, 0, 0, 1, 0), G(5, 0, 0, 0, 0, 0), G(7, 1, 1, 0, 0, 0)};

static const uint8_t written[] = {R(8, 0), R(6, 0), R(1, 0), R(1, 0), R(8, 1), R(6, 1), R(1, 0), R(7, 1), R(1, 0), R(1, 0), MAIN};
static const uint8_t seven[] = {R(3, 7)};
static const uint8_t both_calls[] = {E(0, 0, 3, 3), E(2, 1, 3, 7)}, first_call[] = {E(0, 0, 3, 3)}, second_call[] = {E(2, 1, 3, 7)};
static const uint8_t after_override[] = {R(5, 0), R(4, 0), R(5, 0), R(2, 1), R(3, 7), R(3, 3)};
static uint8_t both_predicates[512 + 1];

/* A constant is called. */
static const uint8_t stuck[] = {R(5, 0), R(3, 7), R(3, 7)};

/* The first step would put a value of 600 records in two places. */
static uint8_t large[LORGWIN_SCRIPT_RECORD_BYTES * 605];

/* Function 0 calls itself for ever, and each call is logged: history and log fill up to their last byte. */
static const uint8_t endless[] = {R(8, 0), R(5, 0), R(2, 0), R(1, 0), R(5, 0), R(2, 0), R(3, 1)};
static const uint8_t log_all[] = {G(4, 0, 0, 0, 0, 0)};
static const uint8_t endless_written[] = {R(8, 0), R(6, 0), R(1, 0), R(7, 0), R(1, 0), R(5, 0), R(2, 0), R(1, 0), R(5, 0), R(2, 0), R(3, 1)};
static const uint8_t again[] = {R(5, 0), R(2, 0), R(3, 1)};
static uint8_t all_calls[LORGWIN_HISTORY_BYTES];

enum { ENTRIES = LORGWIN_HISTORY_BYTES / LORGWIN_ENTRY_BYTES };

static const show shows[] = {
    {"a fire after an override", WHOLE(script_bytes), WHOLE(guideline_bytes), LORGWIN_MAX_BUDGET, LORGWIN_VALUE, 3, 2, 1,
     {WHOLE(written), WHOLE(seven), NONE, WHOLE(both_calls), WHOLE(second_call), WHOLE(both_predicates)}},
    {"cut off after the override", WHOLE(script_bytes), WHOLE(guideline_bytes), 1, LORGWIN_SPENT, 1, 1, 0,
     {WHOLE(written), WHOLE(after_override), NONE, WHOLE(first_call), NONE, WHOLE(both_predicates)}},
    {"an empty guideline", WHOLE(script_bytes), NONE, 3, LORGWIN_VALUE, 3, 0, 0, {WHOLE(script_bytes), WHOLE(seven), NONE, NONE, NONE, NONE}},
    {"a constant called", WHOLE(stuck), NONE, 1000, LORGWIN_STUCK, 0, 0, 0, {WHOLE(stuck), WHOLE(stuck), NONE, NONE, NONE, NONE}},
    {"a step too large", WHOLE(large), NONE, 1000, LORGWIN_LARGE, 0, 0, 0, {WHOLE(large), WHOLE(large), NONE, NONE, NONE, NONE}},
    {"a full history", WHOLE(endless), WHOLE(log_all), 2000, LORGWIN_FULL, ENTRIES, ENTRIES, ENTRIES,
     {WHOLE(endless_written), WHOLE(again), NONE, WHOLE(all_calls), WHOLE(all_calls), NONE}},
};

static void record(uint8_t *at, uint8_t kind) {
    const uint8_t bytes[] = {R(kind, 0)};
    memcpy(at, bytes, sizeof bytes);
}

/* The files that are too long to write down. */
static void build(void) {
    both_predicates[0] = both_predicates[512] = 2; /* p0 and p1 of value 0 and value 1 */

    static const uint8_t kinds[] = {5, 4, 5, 1, 1};
    const size_t last = COUNT(large) / LORGWIN_SCRIPT_RECORD_BYTES - 1;
    for (size_t i = 0; i <= last; i++) {
        record(large + LORGWIN_SCRIPT_RECORD_BYTES * i, i < COUNT(kinds) ? kinds[i] : i < last ? 4 : 1);
    }

    for (int i = 0; i < ENTRIES; i++) {
        const uint8_t entry[] = {E((uint8_t)i, 0, 3, 1)};
        memcpy(all_calls + LORGWIN_ENTRY_BYTES * i, entry, sizeof entry);
        all_calls[LORGWIN_ENTRY_BYTES * i + 1] = (uint8_t)(i >> 8);
    }
}

static void leave_run(const show *s) {
    for (int i = EXPRESSION; i < BUFFERS; i++) leave(i, s->left[i], sizes[i]);
}

static answer run_answer(const show *s) {
    answer all = verdict(LORGWIN_ACCEPTED, 0);
    all.outcome = s->outcome;
    all.steps = s->steps;
    all.history_count = s->history_count;
    all.log_count = s->log_count;
    return all;
}

static uint32_t records(file script) { return (uint32_t)(script.len / LORGWIN_SCRIPT_RECORD_BYTES); }

static answer rewriting_answer(const show *s) {
    answer all = verdict(LORGWIN_ACCEPTED, 0);
    all.records = records(s->left[OUT]);
    return all;
}

/* A full history ends the rewritten run only: the plain run goes on, here until the budget is spent. */
static answer plain_answer(const show *s) {
    answer all = verdict(LORGWIN_ACCEPTED, 0);
    all.outcome = s->outcome;
    all.steps = s->steps;
    if (s->outcome == LORGWIN_FULL) {
        all.outcome = LORGWIN_SPENT;
        all.steps = s->budget;
    }
    return all;
}

static void accepted(const show *s) {
    prepare();
    expect("check", s->name, check(s->script, s->guideline), verdict(LORGWIN_ACCEPTED, 0));
    prepare();
    leave(TABLE, s->left[TABLE], sizes[TABLE]);
    expect("derive", s->name, derive(s->guideline), verdict(LORGWIN_ACCEPTED, 0));
    prepare();
    leave(OUT, s->left[OUT], s->left[OUT].len);
    expect("rewrite", s->name, rewrite(s->script, s->guideline), rewriting_answer(s));
    prepare();
    leave(EXPRESSION, s->left[EXPRESSION], sizes[EXPRESSION]);
    leave(SCRATCH, s->left[SCRATCH], sizes[SCRATCH]);
    expect("run_plain", s->name, run_plain(s->script, s->budget), plain_answer(s));
    prepare();
    leave_run(s);
    expect("run_rewritten", s->name, run_rewritten(s->left[OUT], s->guideline, s->budget), run_answer(s));
    prepare();
    leave_run(s);
    leave(OUT, s->left[OUT], s->left[OUT].len);
    expect("rehearse", s->name, rehearse(s->script, s->guideline, s->budget), run_answer(s));
}

/* Commands, their arguments and their rests; main begins at record 10. */
static void terms(void) {
    static const file script = WHOLE(written);
    static const uint64_t after[][2] = {{0, LORGWIN_NO_TERM}, {1, 4}, {2, 3}, {5, 10}, {7, 10}, {10, 18}, {12, 15}, {18, LORGWIN_NO_TERM}};
    for (size_t i = 0; i < COUNT(after); i++) {
        same("pass_term", "a rewritten script", "the record after", pass_term(script, after[i][0]), after[i][1]);
    }
    same("pass_term", "a record past all", "the record after", pass_term(script, UINT64_MAX), LORGWIN_NO_TERM);
}

/* ---- refusals: each number by a file that has this fault only */

typedef struct {
    uint32_t number, place;
    file script, guideline;
} refusal;

static const uint8_t one[] = {R(3, 1)};
static const uint8_t unknown_kind[] = {R(5, 0), R(3, 1), R(11, 0)};
static const uint8_t ends_early[] = {R(5, 0), R(3, 1)};
static const uint8_t not_the_next[] = {R(8, 0), R(1, 0), R(8, 2), R(1, 0), R(3, 1)};
static const uint8_t unbound[] = {R(5, 0), R(3, 1), R(4, 0), R(1, 1)};
static const uint8_t undefined[] = {R(5, 0), R(2, 0), R(3, 1)};
static const uint8_t misplaced[] = {R(8, 0), R(1, 0), R(6, 0), R(3, 1), R(3, 1)};
static const uint8_t unknown_guideline_kind[] = {G(4, 0, 0, 0, 0, 0), G(10, 0, 0, 0, 0, 0)};
static const uint8_t no_atom[] = {G(2, 0, 0, 0, 0, 0)};
static const uint8_t unbound_head[] = {G(1, 0, 3, 3, 1, 1), G(2, 0, 0, 1, 0, 0), G(3, 0, 0, 0, 0, 0)};
static const uint8_t five_triggers[] = {G(4, 0, 0, 0, 0, 0), G(5, 0, 0, 0, 0, 0), G(5, 0, 0, 0, 0, 0),
                                        G(5, 0, 0, 0, 0, 0), G(5, 0, 0, 0, 0, 0), G(5, 0, 0, 0, 0, 0)};
static const uint8_t no_such_trigger[] = {G(4, 0, 0, 0, 0, 0), G(6, 0, 0, 1, 0, 0)};
static const uint8_t no_such_function[] = {G(4, 0, 0, 0, 0, 0), G(5, 0, 0, 0, 1, 0), G(5, 0, 0, 0, 2, 0)};

static const refusal refusals[] = {
    {LORGWIN_SCRIPT_LENGTH, 0, NONE, NONE},
    {LORGWIN_SCRIPT_RECORD, 2, WHOLE(unknown_kind), NONE},
    {LORGWIN_SCRIPT_ORDER, 2, WHOLE(ends_early), NONE},
    {LORGWIN_SCRIPT_DEFINITION, 2, WHOLE(not_the_next), NONE},
    {LORGWIN_SCRIPT_VARIABLE, 3, WHOLE(unbound), NONE},
    {LORGWIN_SCRIPT_FUNCTION, 1, WHOLE(undefined), NONE},
    {LORGWIN_SCRIPT_COMMAND, 2, WHOLE(misplaced), NONE},
    {LORGWIN_GUIDELINE_LENGTH, 0, WHOLE(script_bytes), {guideline_bytes, sizeof guideline_bytes - 1}},
    {LORGWIN_GUIDELINE_RECORD, 1, WHOLE(script_bytes), WHOLE(unknown_guideline_kind)},
    {LORGWIN_GUIDELINE_ORDER, 1, WHOLE(script_bytes), WHOLE(no_atom)},
    {LORGWIN_GUIDELINE_VARIABLE, 1, WHOLE(script_bytes), WHOLE(unbound_head)},
    {LORGWIN_GUIDELINE_COUNT, 5, WHOLE(script_bytes), WHOLE(five_triggers)},
    {LORGWIN_GUIDELINE_INDEX, 1, WHOLE(script_bytes), WHOLE(no_such_trigger)},
    {LORGWIN_GUIDELINE_FUNCTION, 2, WHOLE(script_bytes), WHOLE(no_such_function)},
};

/* By every entry that is given the faulty file; deriving knows no script and so no functions. */
static void refused(const refusal *r) {
    const char *words = lorgwin_number_words(r->number);
    const answer right = verdict(r->number, r->place);
    prepare();
    expect("check", words, check(r->script, r->guideline), right);
    expect("rewrite", words, rewrite(r->script, r->guideline), right);
    expect("run_rewritten", words, run_rewritten(r->script, r->guideline, 1000), right);
    expect("rehearse", words, rehearse(r->script, r->guideline, 1000), right);
    if (r->number <= LORGWIN_SCRIPT_COMMAND) {
        expect("run_plain", words, run_plain(r->script, 1000), right);
    } else if (r->number < LORGWIN_GUIDELINE_FUNCTION) {
        expect("derive", words, derive(r->guideline), right);
    }
}

/* The caller's: a budget above the largest, the output or a buffer a byte too short. With exactly its bytes none is too short. */
static void refused_caller(const show *s) {
    const uint32_t budget = LORGWIN_MAX_BUDGET + 1;
    const file rewritten = s->left[OUT];
    prepare();
    expect("run_plain", "a budget too large", run_plain(s->script, budget), verdict(LORGWIN_BUDGET, 0));
    expect("run_rewritten", "a budget too large", run_rewritten(rewritten, s->guideline, budget), verdict(LORGWIN_BUDGET, 0));
    expect("rehearse", "a budget too large", rehearse(s->script, s->guideline, budget), verdict(LORGWIN_BUDGET, 0));

    lengths[OUT] = rewritten.len - 1;
    expect("rewrite", "out too short", rewrite(s->script, s->guideline), verdict(LORGWIN_OUTPUT_SHORT, 0));
    expect("rehearse", "out too short", rehearse(s->script, s->guideline, s->budget), verdict(LORGWIN_OUTPUT_SHORT, 0));

    const answer right = verdict(LORGWIN_BUFFER_SHORT, 0);
    for (int i = EXPRESSION; i < BUFFERS; i++) {
        prepare();
        lengths[i] = sizes[i] - 1;
        if (i == EXPRESSION || i == SCRATCH) expect("run_plain", names[i], run_plain(s->script, s->budget), right);
        if (i == TABLE) expect("derive", names[i], derive(s->guideline), right);
        expect("run_rewritten", names[i], run_rewritten(rewritten, s->guideline, s->budget), right);
        expect("rehearse", names[i], rehearse(s->script, s->guideline, s->budget), right);
    }

    prepare();
    memcpy(lengths, sizes, sizeof lengths);
    lengths[OUT] = rewritten.len;
    leave(OUT, rewritten, rewritten.len);
    leave_run(s);
    expect("rehearse", "buffers of exactly their bytes", rehearse(s->script, s->guideline, s->budget), run_answer(s));
}

/* Files of zeros are refused at their first record, and with a record more than the limit for their length. */
static void limits(void) {
    static const uint8_t zeros[LORGWIN_REWRITTEN_BYTES + LORGWIN_SCRIPT_RECORD_BYTES] = {0};
    static const file constant = WHOLE(one), guideline = WHOLE(guideline_bytes);
    file zero = {zeros, LORGWIN_SCRIPT_MAX_BYTES};
    prepare();
    expect("check", "the longest script", check(zero, guideline), verdict(LORGWIN_SCRIPT_RECORD, 0));
    zero.len += LORGWIN_SCRIPT_RECORD_BYTES;
    expect("check", "a script too long", check(zero, guideline), verdict(LORGWIN_SCRIPT_LENGTH, 0));
    zero.len = LORGWIN_GUIDELINE_MAX_BYTES;
    expect("check", "the longest guideline", check(constant, zero), verdict(LORGWIN_GUIDELINE_RECORD, 0));
    zero.len += LORGWIN_GUIDELINE_RECORD_BYTES;
    expect("check", "a guideline too long", check(constant, zero), verdict(LORGWIN_GUIDELINE_LENGTH, 0));
    zero.len = LORGWIN_REWRITTEN_BYTES;
    expect("run_rewritten", "the longest script", run_rewritten(zero, guideline, 0), verdict(LORGWIN_SCRIPT_RECORD, 0));
    zero.len += LORGWIN_SCRIPT_RECORD_BYTES;
    expect("run_rewritten", "a script too long", run_rewritten(zero, guideline, 0), verdict(LORGWIN_SCRIPT_LENGTH, 0));

    same("limits", "a script", "bytes", LORGWIN_SCRIPT_MAX_BYTES, LORGWIN_SCRIPT_RECORD_BYTES * LORGWIN_SCRIPT_MAX_RECORDS);
    same("limits", "a guideline", "bytes", LORGWIN_GUIDELINE_MAX_BYTES, LORGWIN_GUIDELINE_RECORD_BYTES * LORGWIN_GUIDELINE_MAX_RECORDS);
    same("limits", "a rewritten script", "bytes", LORGWIN_REWRITTEN_BYTES, LORGWIN_SCRIPT_RECORD_BYTES * LORGWIN_REWRITTEN_MAX_RECORDS);
    same("limits", "lorgwin_memory", "bytes", sizeof(lorgwin_memory), 100480);

    same("limits", "an entry", "bytes", LORGWIN_ENTRY_BYTES, sizeof second_call);
    same("limits", "an entry", "time", second_call[LORGWIN_ENTRY_TIME], 2);
    same("limits", "an entry", "function", second_call[LORGWIN_ENTRY_FUNCTION], 1);
    same("limits", "an entry", "view kind", second_call[LORGWIN_ENTRY_VIEW_KIND], 3);
    same("limits", "an entry", "view number", second_call[LORGWIN_ENTRY_VIEW_NUMBER], 7);
}

/* ---- the calls over lorgwin_memory: before a call the fields get what the buffers hold, and after it the buffers what the fields hold */

static lorgwin_memory memory;

static void to_field(int buffer, uint8_t *field, size_t len) { memcpy(field, lent[buffer], len); }

static void from_field(int buffer, uint8_t *field, size_t len) { memcpy(lent[buffer], field, len); }

static void fields(void (*move)(int buffer, uint8_t *field, size_t len)) {
    move(OUT, memory.rewritten, sizeof memory.rewritten);
    move(EXPRESSION, memory.expression, sizeof memory.expression);
    move(SCRATCH, memory.scratch, sizeof memory.scratch);
    move(HISTORY, memory.history, sizeof memory.history);
    move(LOG, memory.log, sizeof memory.log);
    move(TABLE, memory.table, sizeof memory.table);
}

static void prepare_memory(void) {
    prepare();
    fields(to_field);
}

static void expect_memory(const char *call, const char *vector, answer found, answer right) {
    fields(from_field);
    expect(call, vector, found, right);
}

static answer memory_rewrite(file script, file guideline) {
    return of_rewriting(lorgwin_memory_rewrite(&memory, script.bytes, script.len, guideline.bytes, guideline.len));
}

static answer memory_run_plain(file script, uint32_t budget) {
    return of_plain_run(lorgwin_memory_run_plain(&memory, script.bytes, script.len, budget));
}

static answer memory_run_rewritten(uint32_t count, file guideline, uint32_t budget) {
    return of_rewritten_run(lorgwin_memory_run_rewritten(&memory, count, guideline.bytes, guideline.len, budget));
}

static answer memory_rehearse(file script, file guideline, uint32_t budget) {
    return of_rewritten_run(lorgwin_memory_rehearse(&memory, script.bytes, script.len, guideline.bytes, guideline.len, budget));
}

/* A show with its guideline, or with a null pointer for an empty one. The rewritten run is that of the script just written. */
static void accepted_memory(const show *s, file guideline) {
    prepare_memory();
    leave(OUT, s->left[OUT], s->left[OUT].len);
    expect_memory("memory_rewrite", s->name, memory_rewrite(s->script, guideline), rewriting_answer(s));
    leave_run(s);
    expect_memory("memory_run_rewritten", s->name, memory_run_rewritten(records(s->left[OUT]), guideline, s->budget), run_answer(s));
    prepare_memory();
    leave(EXPRESSION, s->left[EXPRESSION], sizes[EXPRESSION]);
    leave(SCRATCH, s->left[SCRATCH], sizes[SCRATCH]);
    expect_memory("memory_run_plain", s->name, memory_run_plain(s->script, s->budget), plain_answer(s));
    prepare_memory();
    leave(OUT, s->left[OUT], s->left[OUT].len);
    leave_run(s);
    expect_memory("memory_rehearse", s->name, memory_rehearse(s->script, guideline, s->budget), run_answer(s));
}

/* By the calls that are given the faulty file, and by the rewritten run of a script that is in order. */
static void refused_memory(const char *vector, uint32_t number, uint32_t place, file script, file guideline) {
    static const file in_order = WHOLE(script_bytes);
    const answer right = verdict(number, place);
    prepare_memory();
    expect_memory("memory_rewrite", vector, memory_rewrite(script, guideline), right);
    expect_memory("memory_rehearse", vector, memory_rehearse(script, guideline, 1000), right);
    if (number <= LORGWIN_SCRIPT_COMMAND) {
        expect_memory("memory_run_plain", vector, memory_run_plain(script, 1000), right);
    } else {
        memcpy(memory.rewritten, in_order.bytes, in_order.len);
        leave(OUT, in_order, in_order.len);
        expect_memory("memory_run_rewritten", vector, memory_run_rewritten(records(in_order), guideline, 1000), right);
    }
}

static void refused_memory_caller(const show *s) {
    const answer budget = verdict(LORGWIN_BUDGET, 0), length = verdict(LORGWIN_SCRIPT_LENGTH, 0);
    const uint32_t above = LORGWIN_MAX_BUDGET + 1, most = LORGWIN_REWRITTEN_MAX_RECORDS;
    prepare_memory();
    expect_memory("memory_run_plain", "a budget too large", memory_run_plain(s->script, above), budget);
    expect_memory("memory_run_rewritten", "a budget too large", memory_run_rewritten(1, s->guideline, above), budget);
    expect_memory("memory_rehearse", "a budget too large", memory_rehearse(s->script, s->guideline, above), budget);
    expect_memory("memory_run_rewritten", "no records", memory_run_rewritten(0, s->guideline, 1000), length);
    expect_memory("memory_run_rewritten", "a record too many", memory_run_rewritten(most + 1, s->guideline, 1000), length);
    expect_memory("memory_run_rewritten", "records past all", memory_run_rewritten(UINT32_MAX, s->guideline, 1000), length);
    memset(memory.rewritten, 0, sizeof memory.rewritten);
    memset(wanted[OUT], 0, sizeof memory.rewritten);
    expect_memory("memory_run_rewritten", "the most records", memory_run_rewritten(most, s->guideline, 1000), verdict(LORGWIN_SCRIPT_RECORD, 0));
}

static void memories(void) {
    static const file null = {NULL, 0}, unread_script = {NULL, sizeof script_bytes}, unread_guideline = {NULL, sizeof guideline_bytes};
    for (size_t i = 0; i < COUNT(shows); i++) {
        accepted_memory(&shows[i], shows[i].guideline);
        if (shows[i].guideline.len == 0) accepted_memory(&shows[i], null);
    }
    for (size_t i = 0; i < COUNT(refusals); i++) {
        const refusal *r = &refusals[i];
        refused_memory(lorgwin_number_words(r->number), r->number, r->place, r->script, r->guideline);
    }
    refused_memory_caller(&shows[0]);
    refused_memory("a null script", LORGWIN_SCRIPT_LENGTH, 0, null, shows[0].guideline);
    refused_memory("an unread script", LORGWIN_SCRIPT_LENGTH, 0, unread_script, shows[0].guideline);
    refused_memory("an unread guideline", LORGWIN_GUIDELINE_LENGTH, 0, shows[0].script, unread_guideline);
}

/* ---- words */

#define NUMBER(name) {name, #name}
static const struct {
    uint32_t number;
    const char *name;
} numbers[] = {
    NUMBER(LORGWIN_ACCEPTED),           NUMBER(LORGWIN_SCRIPT_LENGTH),    NUMBER(LORGWIN_SCRIPT_RECORD),      NUMBER(LORGWIN_SCRIPT_ORDER),
    NUMBER(LORGWIN_SCRIPT_DEFINITION),  NUMBER(LORGWIN_SCRIPT_VARIABLE),  NUMBER(LORGWIN_SCRIPT_FUNCTION),    NUMBER(LORGWIN_SCRIPT_COMMAND),
    NUMBER(LORGWIN_GUIDELINE_LENGTH),   NUMBER(LORGWIN_GUIDELINE_RECORD), NUMBER(LORGWIN_GUIDELINE_ORDER),    NUMBER(LORGWIN_GUIDELINE_VARIABLE),
    NUMBER(LORGWIN_GUIDELINE_COUNT),    NUMBER(LORGWIN_GUIDELINE_INDEX),  NUMBER(LORGWIN_GUIDELINE_FUNCTION), NUMBER(LORGWIN_OUTPUT_SHORT),
    NUMBER(LORGWIN_BUDGET),             NUMBER(LORGWIN_BUFFER_SHORT),
};

static void print_words(void) {
    for (size_t i = 0; i < COUNT(numbers); i++) {
        printf("| %lu | `%s` | %s |\n", (unsigned long)numbers[i].number, numbers[i].name, lorgwin_number_words(numbers[i].number));
    }
}

/* Each number and outcome has words of its own, and no other has any. */
static void words(void) {
    static const char *const outcomes[] = {"value", "stuck", "spent", "large", "full"};
    const char *unknown = lorgwin_number_words(UINT32_MAX);
    size_t known = 0;
    for (uint32_t number = 0; number < 100; number++) known += strcmp(lorgwin_number_words(number), unknown) != 0;
    same("words", "all numbers", "the count of those with words", known, COUNT(numbers));
    for (size_t i = 0; i < COUNT(numbers); i++) {
        const char *found = lorgwin_number_words(numbers[i].number);
        same("words", numbers[i].name, "unknown", strcmp(found, unknown) == 0, 0);
        for (size_t j = 0; j < i; j++) same("words", numbers[i].name, found, strcmp(found, lorgwin_number_words(numbers[j].number)) == 0, 0);
    }
    for (uint32_t i = 0; i < COUNT(outcomes); i++) same("words", outcomes[i], "another", strcmp(lorgwin_outcome_words(i), outcomes[i]) != 0, 0);
    same("words", "an outcome that is none", "another", strcmp(lorgwin_outcome_words(COUNT(outcomes)), "unknown outcome") != 0, 0);
}

int main(int argc, char **argv) {
    if (argc == 2 && strcmp(argv[1], "words") == 0) {
        print_words();
        return 0;
    }
    build();
    for (size_t i = 0; i < COUNT(shows); i++) accepted(&shows[i]);
    terms();
    for (size_t i = 0; i < COUNT(refusals); i++) refused(&refusals[i]);
    refused_caller(&shows[0]);
    limits();
    memories();
    words();
    printf("include/lorgwin.h: %lu comparisons, %lu failed\n", comparisons, failures);
    return failures != 0;
}
