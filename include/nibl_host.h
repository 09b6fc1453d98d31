/*
 * What every host of the controller writes, written once: what is lent in one struct, stop numbers in words, a fresh page,
 * table and record, the table of a page, records that are equal, a record as bytes to be stored, and a call that is made
 * again when INPUT asks. It is for C11 and C++17 beside nibl.h, takes nothing from the heap, and keeps nothing.
 *
 * None of this is proved: it is tested, on targets of 64 and of 32 bits. What it hands to a call is held to the rules by
 * the call itself, whatever it is.
 */
#ifndef NIBL_HOST_H
#define NIBL_HOST_H

#include <stdbool.h>
#include <string.h>

#include "nibl.h"

#ifdef __cplusplus
#define NIBL_HOST_AS(type, value) static_cast<type>(value)
#else
#define NIBL_HOST_AS(type, value) ((type)(value))
#endif

/* All that a call is lent. A length is 0 where nothing is lent; a table is lent where the pointer is not null. */
typedef struct {
    nibl_record *record;
    uint8_t *page;
    nibl_size page_len;
    uint8_t *memory;
    nibl_size memory_len;
    const uint8_t *input;
    nibl_size input_len;
    uint8_t *output;
    nibl_size output_len;
    uint16_t *table;
    nibl_size table_len;
} nibl_lent;

/* A call of the library: they have one signature. */
typedef void nibl_entry(nibl_record *record, uint8_t *page, nibl_size page_len, uint8_t *memory, nibl_size memory_len,
                        const uint8_t *input, nibl_size input_len, uint8_t *output, nibl_size output_len,
                        const nibl_call *call, nibl_answer *answer, uint16_t *table, nibl_size table_len);

/* Makes a call. Of its numbers `tabled` is not looked at: what is lent says it. */
static inline nibl_answer nibl_host_make(nibl_entry *entry, const nibl_lent *lent, nibl_call call) {
    nibl_answer answer;
    call.tabled = lent->table ? 1 : 0;
    entry(lent->record, lent->page, lent->page_len, lent->memory, lent->memory_len, lent->input, lent->input_len,
          lent->output, lent->output_len, &call, &answer, lent->table, lent->table_len);
    return answer;
}

static inline nibl_answer nibl_host_take_line(const nibl_lent *lent, nibl_call call) {
    return nibl_host_make(nibl_take_line, lent, call);
}

static inline nibl_answer nibl_host_continue_run(const nibl_lent *lent, nibl_call call) {
    return nibl_host_make(nibl_continue_run, lent, call);
}

/* Saves the rule set to the output from a position on; the answer's outpos is the form's end. */
static inline nibl_answer nibl_host_save(const nibl_lent *lent, nibl_size outpos) {
    nibl_call call;
    memset(&call, 0, sizeof call);
    call.outpos = outpos;
    return nibl_host_make(nibl_save, lent, call);
}

/* Loads a saved form, whole; what is lent as input is not looked at, and stays lent. */
static inline nibl_answer nibl_host_load(const nibl_lent *lent, const uint8_t *form, nibl_size form_len) {
    nibl_lent with = *lent;
    nibl_call call;
    memset(&call, 0, sizeof call);
    with.input = form;
    with.input_len = form_len;
    return nibl_host_make(nibl_load, &with, call);
}

/* The numbers of a call at these positions with this budget; the sense byte is 0. */
static inline nibl_call nibl_host_call(nibl_size inpos, nibl_size outpos, nibl_size budget) {
    nibl_call call;
    memset(&call, 0, sizeof call);
    call.inpos = inpos;
    call.outpos = outpos;
    call.budget = budget;
    return call;
}

/* Every stop: its number, what it means, and what the call did or did not. */
#define NIBL_HOST_STOPS(STOP)                                                                                          \
    STOP(NIBL_DONE, "done", "all that was asked was done")                                                             \
    STOP(NIBL_OUT_OF_RANGE, "length, position or budget out of range", "nothing was changed")                          \
    STOP(NIBL_PAGE_FULL, "no room on the page", "the page is as it was")                                               \
    STOP(NIBL_NOT_IMMEDIATE, "only in a line with a number", "nothing was run")                                        \
    STOP(NIBL_NO_READING, "over-long or no reading", "nothing was stored")                                             \
    STOP(NIBL_BAD_REPLY, "over-long or wrong reply", "it was taken, nothing given")                                    \
    STOP(NIBL_NO_CR, "no whole line left in the input", "no byte was taken")                                           \
    STOP(NIBL_NO_SUCH_LINE, "no such line", "no jump was made")                                                        \
    STOP(NIBL_NO_GOSUB, "RETURN with no GOSUB open", "the statement changed nothing")                                  \
    STOP(NIBL_TOO_DEEP, "too many GOSUBs, DOs or FORs open", "the open ones stay open")                                \
    STOP(NIBL_NO_FOR, "NEXT with no FOR open", "the statement changed nothing")                                        \
    STOP(NIBL_OTHER_VARIABLE, "NEXT with another variable than its FOR", "the FOR stays open")                         \
    STOP(NIBL_DIVISION_BY_ZERO, "division or MOD by 0", "the rest was not done")                                       \
    STOP(NIBL_PAUSED, "paused", "the run can be continued")                                                            \
    STOP(NIBL_NO_DO, "UNTIL with no DO open", "the statement changed nothing")                                         \
    STOP(NIBL_NO_MEMORY, "no such address, or a string with no CR", "the rest was not done")                           \
    STOP(NIBL_OUTPUT_FULL, "the output is full", "what fitted whole was written")                                      \
    STOP(NIBL_BAD_PAGE, "the page is bad", "nothing was changed")                                                      \
    STOP(NIBL_BAD_RECORD, "the record does not fit the page", "nothing was changed")                                   \
    STOP(NIBL_END, "END", "nothing was run after it")                                                                  \
    STOP(NIBL_OTHER_FORM, "no saved form, or one of another number", "nothing was changed")                            \
    STOP(NIBL_BAD_FORM, "a damaged form: counts, lines or length", "nothing was changed")                              \
    STOP(NIBL_OTHER_MEMORY, "the form's memory has another length", "nothing was changed")                             \
    STOP(NIBL_BAD_TABLE, "the table does not describe the page", "nothing was changed")

/* What a stop means. */
static inline const char *nibl_host_stop_words(uint8_t stop) {
#define NIBL_HOST_WORDS(number, words, effect)                                                                         \
    case number:                                                                                                       \
        return words;
    switch (stop) {
        NIBL_HOST_STOPS(NIBL_HOST_WORDS)
        default: return "no stop number";
    }
#undef NIBL_HOST_WORDS
}

/* What the call did, or did not. */
static inline const char *nibl_host_stop_effect(uint8_t stop) {
#define NIBL_HOST_EFFECT(number, words, effect)                                                                        \
    case number:                                                                                                       \
        return effect;
    switch (stop) {
        NIBL_HOST_STOPS(NIBL_HOST_EFFECT)
        default: return "no call answers with it";
    }
#undef NIBL_HOST_EFFECT
}

/* A page with no program: the end mark, and zeros. One shorter than NIBL_PAGE_LEAST has no room for the mark, and calls
 * refuse it. */
static inline void nibl_host_empty_page(uint8_t *page, nibl_size page_len) {
    for (nibl_size at = 0; at < page_len; at++)
        page[at] = at < NIBL_PAGE_LEAST ? NIBL_END_MARK : 0;
}

/* The record of a new session. */
static inline nibl_record nibl_host_fresh_record(void) {
    nibl_record record;
    memset(&record, 0, sizeof record);
    return record;
}

static inline nibl_size nibl_host_lesser(nibl_size a, nibl_size b) {
    return a < b ? a : b;
}

/* How many bytes the record of a line has that begins here, or 0 where none does. */
static inline nibl_size nibl_host_line_at(const uint8_t *page, nibl_size page_len, nibl_size at) {
    const nibl_size shortest = 4; /* the line number, the length byte and the CR */
    if (page_len - at < shortest || (page[at] == NIBL_END_MARK && page[at + 1] == NIBL_END_MARK))
        return 0;
    return page[at + 2] >= shortest && page[at + 2] <= page_len - at ? page[at + 2] : 0;
}

/*
 * Makes the table of a page as it is, for one that was restored or changed by the host: the number of its lines, and where
 * each one's record begins. Any bytes may be walked: the walk ends where no record stands, and where pages end. The table
 * has room for NIBL_TABLE_LEAST numbers.
 */
static inline void nibl_host_make_table(uint16_t *table, const uint8_t *page, nibl_size page_len) {
    const nibl_size end = nibl_host_lesser(page_len, NIBL_PAGE_MOST);
    uint16_t count = 0;
    nibl_size size;
    for (nibl_size at = 0; (size = nibl_host_line_at(page, end, at)) > 0; at += size)
        table[++count] = NIBL_HOST_AS(uint16_t, at);
    table[0] = count;
}

static inline bool nibl_host_equal_places(const nibl_places *a, const nibl_places *b) {
    bool equal = a->depth == b->depth;
    for (nibl_size at = 0; at < nibl_host_lesser(a->depth, NIBL_GOSUBS); at++)
        equal = equal && a->places[at] == b->places[at];
    return equal;
}

static inline bool nibl_host_equal_fors(const nibl_fors *a, const nibl_fors *b) {
    bool equal = a->depth == b->depth;
    for (nibl_size at = 0; at < nibl_host_lesser(a->depth, NIBL_FORS); at++) {
        const nibl_for *one = &a->entries[at], *other = &b->entries[at];
        equal = equal && one->var == other->var && one->limit == other->limit && one->step == other->step &&
                one->place == other->place;
    }
    return equal;
}

/* Do two records say the same? What stands in a stack past its depth (all slots count where a depth is too large), and between the fields, does not count: no call looks
 * at it. */
static inline bool nibl_host_equal_records(const nibl_record *a, const nibl_record *b) {
    bool equal = a->flags == b->flags && a->paused == b->paused;
    for (int at = 0; at < NIBL_VARIABLES; at++)
        equal = equal && a->vars[at] == b->vars[at];
    return equal && nibl_host_equal_places(&a->gosubs, &b->gosubs) && nibl_host_equal_places(&a->dos, &b->dos) &&
           nibl_host_equal_fors(&a->fors, &b->fors);
}

/*
 * A record as bytes, the same on every target, stacks and pause with it: the form's number, the variables, the flags, the
 * GOSUBs, the DOs, the FORs, and the pause. A stack is its depth and all its slots, zeros where none is in use; numbers of
 * two bytes have the high one first. So two records are equal where their bytes are. A record that is laid out otherwise
 * has another form, with another number.
 */
enum {
    NIBL_RECORD_FORM = 1,
    NIBL_RECORD_BYTES = 1 + 2 * NIBL_VARIABLES + 1 + (1 + 2 * NIBL_GOSUBS) + (1 + 2 * NIBL_DOS) + (1 + 7 * NIBL_FORS) + 2
};

static inline uint8_t *nibl_host_put_2(uint8_t *bytes, unsigned number) {
    bytes[0] = NIBL_HOST_AS(uint8_t, number >> 8 & 255);
    bytes[1] = NIBL_HOST_AS(uint8_t, number & 255);
    return bytes + 2;
}

static inline const uint8_t *nibl_host_get_2(uint16_t *number, const uint8_t *bytes) {
    *number = NIBL_HOST_AS(uint16_t, bytes[0] << 8 | bytes[1]);
    return bytes + 2;
}

static inline uint8_t *nibl_host_put_places(uint8_t *bytes, const nibl_places *stack) {
    *bytes++ = NIBL_HOST_AS(uint8_t, stack->depth);
    for (nibl_size at = 0; at < NIBL_GOSUBS; at++)
        bytes = nibl_host_put_2(bytes, at < stack->depth ? stack->places[at] : 0);
    return bytes;
}

static inline const uint8_t *nibl_host_get_places(nibl_places *stack, const uint8_t *bytes) {
    stack->depth = *bytes++;
    for (nibl_size at = 0; at < NIBL_GOSUBS; at++)
        bytes = nibl_host_get_2(&stack->places[at], bytes);
    return bytes;
}

static inline uint8_t *nibl_host_put_fors(uint8_t *bytes, const nibl_fors *stack) {
    *bytes++ = NIBL_HOST_AS(uint8_t, stack->depth);
    for (nibl_size at = 0; at < NIBL_FORS; at++) {
        const bool open = at < stack->depth;
        *bytes++ = open ? stack->entries[at].var : 0;
        bytes = nibl_host_put_2(bytes, open ? stack->entries[at].limit : 0);
        bytes = nibl_host_put_2(bytes, open ? stack->entries[at].step : 0);
        bytes = nibl_host_put_2(bytes, open ? stack->entries[at].place : 0);
    }
    return bytes;
}

static inline const uint8_t *nibl_host_get_fors(nibl_fors *stack, const uint8_t *bytes) {
    stack->depth = *bytes++;
    for (nibl_size at = 0; at < NIBL_FORS; at++) {
        stack->entries[at].var = *bytes++;
        bytes = nibl_host_get_2(&stack->entries[at].limit, bytes);
        bytes = nibl_host_get_2(&stack->entries[at].step, bytes);
        bytes = nibl_host_get_2(&stack->entries[at].place, bytes);
    }
    return bytes;
}

/* No stack of the record is deeper than it can be: so it is after every call, but for a record that was lent so, and was
 * refused. */
static inline bool nibl_host_is_storable(const nibl_record *record) {
    return record->gosubs.depth <= NIBL_GOSUBS && record->dos.depth <= NIBL_DOS && record->fors.depth <= NIBL_FORS;
}

/* Writes a record as bytes, NIBL_RECORD_BYTES of them. False where it cannot be stored, and nothing is written then. */
static inline bool nibl_host_store_record(uint8_t *bytes, const nibl_record *record) {
    if (!nibl_host_is_storable(record))
        return false;
    *bytes++ = NIBL_RECORD_FORM;
    for (int at = 0; at < NIBL_VARIABLES; at++)
        bytes = nibl_host_put_2(bytes, record->vars[at]);
    *bytes++ = record->flags;
    bytes = nibl_host_put_places(bytes, &record->gosubs);
    bytes = nibl_host_put_places(bytes, &record->dos);
    bytes = nibl_host_put_fors(bytes, &record->fors);
    nibl_host_put_2(bytes, record->paused);
    return true;
}

/* Reads a record from bytes. False where they have another length or another form's number, or a stack is too deep, and the
 * record stays as it was. Whether it fits a page, the next call says. */
static inline bool nibl_host_restore_record(nibl_record *record, const uint8_t *bytes, nibl_size length) {
    nibl_record read = nibl_host_fresh_record();
    if (length != NIBL_RECORD_BYTES || *bytes++ != NIBL_RECORD_FORM)
        return false;
    for (int at = 0; at < NIBL_VARIABLES; at++)
        bytes = nibl_host_get_2(&read.vars[at], bytes);
    read.flags = *bytes++;
    bytes = nibl_host_get_places(&read.gosubs, bytes);
    bytes = nibl_host_get_places(&read.dos, bytes);
    bytes = nibl_host_get_fors(&read.fors, bytes);
    nibl_host_get_2(&read.paused, bytes);
    if (!nibl_host_is_storable(&read))
        return false;
    *record = read;
    return true;
}

/*
 * INPUT asks, and the reply is not there yet: the call answers NIBL_NO_CR with the line of the INPUT, and the run is over.
 * A host that can wait for the reply makes the same call again, from what stood before it, with the reply behind what it
 * had lent. Copies of the record and the memory are enough: a run changes neither page nor table, and what it wrote comes
 * out the same, so that answer.outpos of the first time is where the new output begins.
 *
 *     nibl_host_keep(&kept, &lent);
 *     answer = nibl_host_take_line(&lent, call);
 *     while (nibl_host_asks(&answer) && reply_came(&lent)) { // which made lent.input_len larger
 *         nibl_host_put_back(&kept, &lent);
 *         answer = nibl_host_take_line(&lent, call);
 *     }
 */
typedef struct {
    nibl_record record;
    uint8_t *memory; /* the host's, with room for what it lends as the memory */
} nibl_kept;

/* Before the call. */
static inline void nibl_host_keep(nibl_kept *kept, const nibl_lent *lent) {
    kept->record = *lent->record;
    if (lent->memory_len > 0)
        memcpy(kept->memory, lent->memory, NIBL_HOST_AS(size_t, lent->memory_len));
}

/* After it: is it that an INPUT found no reply? A typed line that is not whole yet is NIBL_NO_CR too, with no line. */
static inline bool nibl_host_asks(const nibl_answer *answer) {
    return answer->stop == NIBL_NO_CR && answer->line != NIBL_NO_LINE;
}

/* Before it is made again. */
static inline void nibl_host_put_back(const nibl_kept *kept, const nibl_lent *lent) {
    *lent->record = kept->record;
    if (lent->memory_len > 0)
        memcpy(lent->memory, kept->memory, NIBL_HOST_AS(size_t, lent->memory_len));
}

#endif
