/*
 * Tries all of nibl_host.h, on the linked library. It is C and C++ at once. What it prints, the stops in words and a stored
 * record, is the same on every target, and the same in Rust (embed/tests/host.rs); where something does not hold it says
 * so and ends with 1.
 */
#include <stdio.h>
#include <stdlib.h>

#include "nibl_host.h"

enum { MEMORY = 64, INPUT = 256, OUTPUT = 256 };

static uint8_t page[NIBL_PAGE_MOST], memory[MEMORY], input[INPUT], output[OUTPUT];
static uint16_t table[NIBL_TABLE_LEAST];
static nibl_record record;
static nibl_lent lent;

static void holds(bool what, const char *said, int line) {
    if (!what) {
        printf("line %d: does not hold: %s\n", line, said);
        exit(1);
    }
}
#define HOLDS(what) holds(what, #what, __LINE__)

/* Bytes more in the input. */
static void give(const char *text) {
    const size_t size = strlen(text);
    HOLDS(lent.input_len + size <= sizeof input);
    memcpy(input + lent.input_len, text, size);
    lent.input_len += size;
}

/* A controller with nothing in it, all of it lent. */
static void start(void) {
    memset(&lent, 0, sizeof lent);
    nibl_host_empty_page(page, sizeof page);
    nibl_host_make_table(table, page, sizeof page);
    memset(memory, 0, sizeof memory);
    record = nibl_host_fresh_record();
    lent.record = &record;
    lent.page = page;
    lent.page_len = sizeof page;
    lent.memory = memory;
    lent.memory_len = sizeof memory;
    lent.input = input;
    lent.output = output;
    lent.output_len = sizeof output;
    lent.table = table;
    lent.table_len = NIBL_TABLE_LEAST;
}

static nibl_answer typed(const char *text, nibl_size budget) {
    lent.input_len = 0;
    give(text);
    return nibl_host_take_line(&lent, nibl_host_call(0, 0, budget));
}

/* A call at the positions that it is given. */
static void positions(void) {
    start();
    give("A=1\rPRINT 42;\r");
    const nibl_answer answer = nibl_host_take_line(&lent, nibl_host_call(4, 3, 0));
    HOLDS(answer.stop == NIBL_DONE && answer.inpos == lent.input_len && answer.outpos == 3 + 4);
    HOLDS(record.vars[0] == 0 && memcmp(output + 3, " 42 ", 4) == 0);
}

static void stops(void) {
    for (int stop = 0; stop < 256; stop++) {
        const char *words = nibl_host_stop_words(NIBL_HOST_AS(uint8_t, stop));
        const char *effect = nibl_host_stop_effect(NIBL_HOST_AS(uint8_t, stop));
        const bool none = strcmp(words, "no stop number") == 0;
        HOLDS(none == (strcmp(effect, "no call answers with it") == 0));
        if (!none)
            printf("%d: %s; %s\n", stop, words, effect);
    }
}

/* A record with all that it can hold: open GOSUBs, DOs and FORs, a pause, flags and variables of either sign. */
static void open_all(void) {
    start();
    HOLDS(typed("10 FOR Z=1 TO 5 STEP 2:FOR B=9 TO -300 STEP -7:DO:GOSUB 30\r", 0).stop == NIBL_DONE);
    HOLDS(typed("30 DO:A=1-2:GOTO 30\r", 0).stop == NIBL_DONE);
    HOLDS(typed("STAT=5\r", 0).stop == NIBL_DONE);
    HOLDS(typed("RUN\r", 9).stop == NIBL_PAUSED);
    HOLDS(record.gosubs.depth == 1 && record.dos.depth == 3 && record.fors.depth == 2 && record.paused > NIBL_START);
}

/* What is not in use in the record's stacks, otherwise than it was. */
static void litter(void) {
    for (nibl_size at = record.gosubs.depth; at < NIBL_GOSUBS; at++)
        record.gosubs.places[at] ^= 77;
    for (nibl_size at = record.dos.depth; at < NIBL_DOS; at++)
        record.dos.places[at] ^= 88;
    for (nibl_size at = record.fors.depth; at < NIBL_FORS; at++)
        record.fors.entries[at].place ^= 99;
}

/* Each field once, so that it differs. */
static void differs_in(nibl_record *other, int field) {
    switch (field) {
        case 0: other->vars[25] ^= 256; break;
        case 1: other->flags ^= 1; break;
        case 2: other->gosubs.depth--; break;
        case 3: other->gosubs.places[0] ^= 1; break;
        case 4: other->dos.depth++; break;
        case 5: other->dos.places[2] ^= 1; break;
        case 6: other->fors.depth--; break;
        case 7: other->fors.entries[1].var ^= 1; break;
        case 8: other->fors.entries[1].limit ^= 1; break;
        case 9: other->fors.entries[1].step ^= 1; break;
        case 10: other->fors.entries[1].place ^= 1; break;
        default: other->paused ^= 1; break;
    }
}

static void equal(void) {
    open_all();
    const nibl_record before = record;
    HOLDS(nibl_host_equal_records(&before, &record));
    litter();
    HOLDS(nibl_host_equal_records(&before, &record) && nibl_host_equal_records(&record, &before));
    for (int field = 0; field < 12; field++) {
        nibl_record other = before;
        differs_in(&other, field);
        HOLDS(!nibl_host_equal_records(&before, &other) && !nibl_host_equal_records(&other, &before));
    }
}

static void stored(void) {
    uint8_t bytes[NIBL_RECORD_BYTES], again[NIBL_RECORD_BYTES];
    nibl_record back = nibl_host_fresh_record();
    open_all();
    HOLDS(nibl_host_store_record(bytes, &record));
    litter();
    HOLDS(nibl_host_store_record(again, &record) && memcmp(bytes, again, sizeof bytes) == 0);
    HOLDS(nibl_host_restore_record(&back, bytes, sizeof bytes) && nibl_host_equal_records(&back, &record));
    for (size_t at = 0; at < sizeof bytes; at++)
        printf("%02x%s", bytes[at], at + 1 < sizeof bytes ? "" : "\n");

    /* The restored one goes on as the other. */
    lent.input_len = 0;
    const nibl_answer answer = nibl_host_continue_run(&lent, nibl_host_call(0, 0, 5));
    lent.record = &back;
    const nibl_answer same = nibl_host_continue_run(&lent, nibl_host_call(0, 0, 5));
    HOLDS(answer.stop == same.stop && answer.steps == same.steps && nibl_host_equal_records(&back, &record));
}

static void not_stored(void) {
    uint8_t bytes[NIBL_RECORD_BYTES + 1] = {0};
    nibl_record back;
    open_all();
    back = record;
    HOLDS(nibl_host_store_record(bytes, &record));
    HOLDS(!nibl_host_restore_record(&back, bytes, 0));
    HOLDS(!nibl_host_restore_record(&back, bytes, NIBL_RECORD_BYTES - 1));
    HOLDS(!nibl_host_restore_record(&back, bytes, NIBL_RECORD_BYTES + 1));
    const size_t wrong[] = {0, 54, 54 + 17, 54 + 34}; /* the form's number, and the depths */
    for (size_t at = 0; at < sizeof wrong / sizeof *wrong; at++) {
        const uint8_t was = bytes[wrong[at]];
        bytes[wrong[at]] = 9;
        HOLDS(!nibl_host_restore_record(&back, bytes, NIBL_RECORD_BYTES));
        bytes[wrong[at]] = was;
    }
    HOLDS(nibl_host_equal_records(&back, &record));
    bytes[0] = 77;
    record.dos.depth = UINT64_C(1) << 32;
    HOLDS(!nibl_host_store_record(bytes, &record) && bytes[0] == 77);
    record.dos.depth = NIBL_DOS + 1;
    HOLDS(!nibl_host_store_record(bytes, &record) && bytes[0] == 77);
}

static void tables(void) {
    static uint16_t made[NIBL_TABLE_LEAST];
    start();
    typed("20 END\r", 0);
    typed("10 A=1\r", 0);
    typed("30 DO\r", 0);
    nibl_host_make_table(made, page, sizeof page);
    HOLDS(made[0] == 3 && memcmp(made, table, 4 * sizeof *made) == 0);
    lent.table = made;
    HOLDS(typed("GOTO 20\r", 9).stop == NIBL_END);
    made[1]++;
    HOLDS(typed("GOTO 20\r", 9).stop == NIBL_BAD_TABLE);
    lent.table_len = 0;
    HOLDS(typed("GOTO 20\r", 9).stop == NIBL_OUT_OF_RANGE);
    memset(&lent.table, 0, sizeof lent.table); /* a null pointer, in C and in C++: no table is lent */
    HOLDS(typed("GOTO 20\r", 9).stop == NIBL_END);
    /* Any bytes: records of so many bytes to the page's end, and none of less than four. */
    for (int byte = 0; byte < 256; byte++) {
        memset(page, byte, sizeof page);
        nibl_host_make_table(made, page, sizeof page);
        HOLDS(made[0] == (byte < 4 || byte == 255 ? 0 : NIBL_PAGE_MOST / byte));
    }
    for (nibl_size length = 0; length < 9; length++) {
        memset(page, 4, sizeof page);
        nibl_host_make_table(made, page, length);
        HOLDS(made[0] == length / 4);
    }
    memset(page, 4, sizeof page);
    nibl_host_make_table(made, page, UINT64_MAX); /* no page is longer than NIBL_PAGE_MOST */
    HOLDS(made[0] == NIBL_TABLE_LEAST - 1);
}

static void pages(void) {
    static const uint8_t mark[] = {255, 255, 0, 7};
    for (nibl_size length = 0; length < 4; length++) {
        memset(page, 7, sizeof page);
        nibl_host_empty_page(page, length);
        HOLDS(length == 0 || memcmp(page, mark, NIBL_HOST_AS(size_t, length)) == 0);
        HOLDS(page[length] == 7);
    }
}

/* A run that asks twice, with a variable, the memory and the output changed before, and the replies one at a time. */
static void asks(void) {
    static uint8_t copy[MEMORY];
    nibl_kept kept;
    int asked = 0;
    nibl_size shown = 0;
    kept.memory = copy;
    start();
    typed("10 N=N+1:@3=@3+1:PRINT \"HOW MANY\";:INPUT A\r", 0);
    typed("20 N=N+1:@4=@3:INPUT B:PRINT A+B;:END\r", 0);
    memory[3] = 40;
    lent.input_len = 0;
    give("RUN\r");
    nibl_host_keep(&kept, &lent);
    nibl_answer answer = nibl_host_take_line(&lent, nibl_host_call(0, 0, 100));
    while (nibl_host_asks(&answer)) {
        HOLDS(answer.line == (asked == 0 ? 10 : 20) && answer.outpos >= shown);
        shown = answer.outpos;
        give(asked++ == 0 ? "20\r" : "22\r");
        nibl_host_put_back(&kept, &lent);
        answer = nibl_host_take_line(&lent, nibl_host_call(0, 0, 100));
    }
    HOLDS(asked == 2 && answer.stop == NIBL_END && record.vars['N' - 'A'] == 2 && memory[3] == 41 && memory[4] == 41);
    HOLDS(answer.outpos - shown == 4 && memcmp(output + shown, " 42 ", 4) == 0);
    /* A typed line that is not whole yet is no question. */
    answer = typed("RUN", 100);
    HOLDS(answer.stop == NIBL_NO_CR && !nibl_host_asks(&answer));
    /* With no memory there is none to copy. */
    memset(&lent.memory, 0, sizeof lent.memory);
    lent.memory_len = 0;
    memset(&kept.memory, 0, sizeof kept.memory);
    record.vars[0] = 7;
    nibl_host_keep(&kept, &lent);
    record.vars[0] = 8;
    nibl_host_put_back(&kept, &lent);
    HOLDS(record.vars[0] == 7);
}

/* A rule set carried, out of the midst of a run: what is open is not in it, and a damaged form changes nothing. */
static void carries(void) {
    static uint8_t form[NIBL_SAVED_MOST];
    open_all();
    memory[MEMORY - 1] = 7;
    const nibl_record before = record;
    nibl_lent saving = lent;
    saving.output = form;
    saving.output_len = sizeof form;
    const nibl_answer saved = nibl_host_save(&saving, 3);
    HOLDS(saved.stop == NIBL_DONE && nibl_host_equal_records(&before, &record));
    start();
    record.flags = 2;
    HOLDS(nibl_host_load(&lent, form + 3, saved.outpos - 4).stop == NIBL_BAD_FORM && table[0] == 0);
    HOLDS(nibl_host_load(&lent, form + 2, saved.outpos - 2).stop == NIBL_OTHER_FORM && memory[MEMORY - 1] == 0);
    HOLDS(nibl_host_load(&lent, form + 3, saved.outpos - 3).stop == NIBL_DONE);
    HOLDS(memcmp(record.vars, before.vars, sizeof record.vars) == 0 && memory[MEMORY - 1] == 7 && table[0] == 2);
    HOLDS(record.flags == 2 && record.paused == NIBL_NOWHERE && record.dos.depth == 0);
    lent.memory_len--;
    HOLDS(nibl_host_load(&lent, form + 3, saved.outpos - 3).stop == NIBL_OTHER_MEMORY);
}

int main(void) {
    stops();
    positions();
    equal();
    stored();
    not_stored();
    tables();
    pages();
    asks();
    carries();
    return 0;
}
