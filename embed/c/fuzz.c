/*
 * Random calls on the linked library, as a host could make them: chains of typed lines, continued runs, replies, edits,
 * damaged pages, records and tables, and numbers past every limit. All that is lent stands against a page of memory that
 * faults when it is touched, in front or behind, what is only read is lent where it cannot be written, and a call has
 * exactly NIBL_STACK bytes of stack above such a page. Each call is made twice, on copies that lie elsewhere: with a table
 * of line places and with none. Both must leave the same, refused calls must leave all as it was, and what is answered
 * must be within the limits.
 *
 *     fuzz SECONDS SEED            sessions of calls for so long, the first with this seed, the next with one more
 *     fuzz SECONDS SEED SESSIONS   so many sessions at most; the sum over what the calls left is then the same on every target
 */
#include <signal.h>
#include <stdio.h>
#include <stdlib.h>
#include <sys/mman.h>
#include <time.h>
#include <ucontext.h>
#include <unistd.h>

#include "nibl_host.h"

enum { LONGEST = 65536, LINES = 40, TEXT = 4 * NIBL_LINE_MOST, CALLS = 60 };

/* ---- chance */

static uint64_t chance;

static uint32_t any(void) {
    chance ^= chance >> 12;
    chance ^= chance << 25;
    chance ^= chance >> 27;
    return (uint32_t)(chance * UINT64_C(2685821657736338717) >> 32);
}

static uint32_t below(uint32_t limit) {
    return any() % limit;
}

static bool one_in(uint32_t many) {
    return below(many) == 0;
}

#define ONE_OF(list) ((list)[below(sizeof(list) / sizeof *(list))])

/* ---- what is lent, and what was */

/* The kinds of what is lent. */
enum { RECORD, PAGE, MEMORY, INPUT, OUTPUT, CALL, ANSWER, TABLE, KINDS };
static const char *const names[KINDS] = {"record", "page", "memory", "input", "output", "call", "answer", "table"};

/* Room for one of them between two locked pages of memory, seen twice: where it is filled, and where it is lent. */
typedef struct {
    uint8_t *fill, *lend;
    size_t room;
} block;

/* A place for all that one call is lent; and where in its block each stands, and how long it is. */
typedef struct {
    block blocks[KINDS];
    size_t at[KINDS], size[KINDS];
} side;

/* All that a host keeps between calls, and what the next call is given. */
typedef struct {
    nibl_record record;
    uint8_t page[NIBL_PAGE_MOST], memory[NIBL_MEMORY_MOST], input[LONGEST], output[LONGEST];
    uint16_t table[2 * NIBL_TABLE_LEAST];
    nibl_size page_len, memory_len, input_len, output_len, table_len;
    nibl_call call;
    bool continues;
} session;

static side with, without;
static session now;
static uint64_t seed, calls_made, sum = UINT64_C(14695981039346656037);
static uint64_t stops[256];
static int call_made; /* of the session */
static bool nulls;    /* is what is not there lent as null? */

static void fail(const char *what) {
    printf("seed %llu, call %d: %s\n", (unsigned long long)seed, call_made, what);
    printf("again by: tools/fuzz 60 %llu 1\n", (unsigned long long)seed);
    fflush(stdout);
    _exit(1);
}

static void *mapped(void *at, size_t size, int rights, int flags, int file) {
    void *map = mmap(at, size, rights, flags, file, 0);
    if (map == MAP_FAILED)
        fail("no memory");
    return map;
}

static void make_block(block *made, size_t room, bool writable) {
    const size_t unit = (size_t)sysconf(_SC_PAGESIZE);
    const int file = memfd_create("nibl", 0);
    made->room = (room + unit - 1) / unit * unit;
    if (file < 0 || ftruncate(file, (off_t)made->room) != 0)
        fail("no memory");
    made->fill = mapped(NULL, made->room, PROT_READ | PROT_WRITE, MAP_SHARED, file);
    uint8_t *const locked = mapped(NULL, made->room + 2 * unit, PROT_NONE, MAP_PRIVATE | MAP_ANONYMOUS, -1);
    made->lend = mapped(locked + unit, made->room, writable ? PROT_READ | PROT_WRITE : PROT_READ, MAP_SHARED | MAP_FIXED, file);
    close(file);
}

static void make_side(side *made) {
    static const size_t rooms[KINDS] = {sizeof(nibl_record), NIBL_PAGE_MOST, NIBL_MEMORY_MOST, LONGEST,
                                        LONGEST, sizeof(nibl_call), sizeof(nibl_answer), sizeof now.table};
    for (int kind = 0; kind < KINDS; kind++)
        make_block(&made->blocks[kind], rooms[kind], kind != INPUT && kind != CALL);
}

/* Stands it against the locked page in front or behind. */
static void stand(side *side, int kind, const void *from, size_t size) {
    block *const block = &side->blocks[kind];
    side->at[kind] = one_in(2) ? 0 : block->room - size;
    side->size[kind] = size;
    if (size > 0)
        memcpy(block->fill + side->at[kind], from, size);
}

static uint8_t *filled(const side *side, int kind) {
    return side->blocks[kind].fill + side->at[kind];
}

/* Where it is lent; at times as null, if there is nothing of it. */
static uint8_t *lent(const side *side, int kind) {
    return side->size[kind] == 0 && nulls ? NULL : side->blocks[kind].lend + side->at[kind];
}

/* What is there of a length that is lent: of one past the limit nothing, and the library must not look. */
static size_t there(nibl_size length, size_t most) {
    return length <= most ? (size_t)length : 0;
}

static void stand_all(side *side, bool tabled) {
    nibl_call call = now.call;
    call.tabled = tabled ? (uint8_t)(1 + below(255)) : 0;
    stand(side, RECORD, &now.record, sizeof now.record);
    stand(side, PAGE, now.page, there(now.page_len, NIBL_PAGE_MOST));
    stand(side, MEMORY, now.memory, there(now.memory_len, NIBL_MEMORY_MOST));
    stand(side, INPUT, now.input, there(now.input_len, NIBL_INPUT_MOST));
    stand(side, OUTPUT, now.output, there(now.output_len, NIBL_OUTPUT_MOST));
    stand(side, CALL, &call, sizeof call);
    stand(side, ANSWER, now.memory, sizeof(nibl_answer)); /* any bits */
    stand(side, TABLE, now.table, tabled ? 2 * there(now.table_len, 2 * NIBL_TABLE_LEAST) : 0);
}

/* ---- the call, on a stack of its own */

static uint8_t *stack;
static ucontext_t here, aside;
static const side *calling;

static void on_the_stack(void) {
    const side *const s = calling;
    (now.continues ? nibl_continue_run : nibl_take_line)(
        (nibl_record *)(void *)lent(s, RECORD), lent(s, PAGE), now.page_len, lent(s, MEMORY), now.memory_len, lent(s, INPUT),
        now.input_len, lent(s, OUTPUT), now.output_len, (const nibl_call *)(const void *)lent(s, CALL),
        (nibl_answer *)(void *)lent(s, ANSWER), (uint16_t *)(void *)lent(s, TABLE), s == &with ? now.table_len : 0);
}

static nibl_answer make(const side *side) {
    nibl_answer answer;
    calling = side;
    if (getcontext(&aside) != 0)
        fail("no context");
    aside.uc_stack.ss_sp = stack;
    aside.uc_stack.ss_size = NIBL_STACK;
    aside.uc_link = &here;
    makecontext(&aside, on_the_stack, 0);
    if (swapcontext(&here, &aside) != 0)
        fail("no context");
    memcpy(&answer, filled(side, ANSWER), sizeof answer);
    return answer;
}

static void make_stack(void) {
    const size_t unit = (size_t)sysconf(_SC_PAGESIZE);
    const size_t room = (NIBL_STACK + unit - 1) / unit * unit;
    uint8_t *const locked = mapped(NULL, room + unit, PROT_NONE, MAP_PRIVATE | MAP_ANONYMOUS, -1);
    stack = locked + unit;
    if (mprotect(stack, room, PROT_READ | PROT_WRITE) != 0)
        fail("no memory");
}

/* A fault: whose locked page, or whose bytes, were touched. */
static void touched(int number, siginfo_t *info, void *context) {
    const uint8_t *const hit = info->si_addr;
    static char what[100] = "touched: something else";
    (void)number, (void)context;
    for (int kind = 0; kind < KINDS; kind++)
        for (int which = 0; which < 2; which++) {
            const block *const block = &(which ? with : without).blocks[kind];
            if (hit + NIBL_PAGE_MOST >= block->lend && hit < block->lend + block->room + NIBL_PAGE_MOST)
                snprintf(what, sizeof what, "touched: the %s, %ld bytes from its start", names[kind],
                         (long)(hit - block->lend) - (long)(which ? with : without).at[kind]);
        }
    if (hit + NIBL_PAGE_MOST >= stack && hit < stack)
        snprintf(what, sizeof what, "touched: past the end of the stack");
    fail(what);
}

static void catch_faults(void) {
    static uint8_t handlers[1 << 16];
    const stack_t apart = {.ss_sp = handlers, .ss_size = sizeof handlers};
    struct sigaction action = {.sa_flags = SA_SIGINFO | SA_ONSTACK};
    action.sa_sigaction = touched;
    if (sigaltstack(&apart, NULL) != 0 || sigaction(SIGSEGV, &action, NULL) != 0 || sigaction(SIGBUS, &action, NULL) != 0)
        fail("faults cannot be caught");
}

/* ---- what must hold */

static bool same_places(const nibl_places *a, const nibl_places *b) {
    return a->depth == b->depth && memcmp(a->places, b->places, sizeof a->places) == 0;
}

/* Every field and every slot; the bytes between are not kept. */
static bool same_record(const nibl_record *a, const nibl_record *b) {
    bool same = memcmp(a->vars, b->vars, sizeof a->vars) == 0 && a->flags == b->flags && a->paused == b->paused &&
                same_places(&a->gosubs, &b->gosubs) && same_places(&a->dos, &b->dos) && a->fors.depth == b->fors.depth;
    for (int at = 0; at < NIBL_FORS; at++) {
        const nibl_for *one = &a->fors.entries[at], *other = &b->fors.entries[at];
        same = same && one->var == other->var && one->limit == other->limit && one->step == other->step && one->place == other->place;
    }
    return same;
}

static bool same_answer(const nibl_answer *a, const nibl_answer *b) {
    return a->stop == b->stop && a->line == b->line && a->steps == b->steps && a->inpos == b->inpos && a->outpos == b->outpos &&
           a->column == b->column;
}

static bool is_as(const side *side, int kind, const void *bytes) {
    return side->size[kind] == 0 || memcmp(filled(side, kind), bytes, side->size[kind]) == 0;
}

static nibl_record record_of(const side *side) {
    nibl_record record;
    memcpy(&record, filled(side, RECORD), sizeof record);
    return record;
}

static bool is_unchanged(const side *side) {
    const nibl_record record = record_of(side);
    return same_record(&record, &now.record) && is_as(side, PAGE, now.page) && is_as(side, MEMORY, now.memory) &&
           is_as(side, OUTPUT, now.output) && is_as(side, TABLE, now.table);
}

static bool is_refused(const nibl_answer *answer) {
    switch (answer->stop) {
        case NIBL_OUT_OF_RANGE:
        case NIBL_BAD_PAGE:
        case NIBL_BAD_TABLE:
        case NIBL_BAD_RECORD: return true;
        case NIBL_NO_CR: return answer->line == NIBL_NO_LINE;
        default: return false;
    }
}

/* The answer is within the limits, and no byte of the output outside of what was written is another one. */
static void hold_answer(const side *side, const nibl_answer *answer) {
    if (strcmp(nibl_host_stop_words(answer->stop), "no stop number") == 0)
        fail("no stop number");
    if (is_refused(answer)) {
        if (!is_unchanged(side) || answer->steps != 0 || answer->inpos != now.call.inpos || answer->outpos != now.call.outpos)
            fail("a refused call changed something");
        return;
    }
    if (answer->steps > now.call.budget || answer->inpos < now.call.inpos || answer->inpos > now.input_len ||
        answer->outpos < now.call.outpos || answer->outpos > now.output_len)
        fail("the answer is out of range");
    if (answer->line != NIBL_NO_LINE && answer->line > NIBL_LINE_NUMBER_MOST)
        fail("no line number");
    if (answer->stop == NIBL_NO_READING ? answer->column > NIBL_LINE_MOST : answer->column != 0)
        fail("no column");
    const uint8_t *const output = filled(side, OUTPUT);
    const size_t from = (size_t)now.call.outpos, to = (size_t)answer->outpos, end = side->size[OUTPUT];
    if (memcmp(output, now.output, from) != 0 || memcmp(output + to, now.output + to, end - to) != 0)
        fail("the output is changed outside of what was written");
}

/* Is the table the page's, as far as it is looked at? */
static bool describes(const uint16_t *table, const uint8_t *page, nibl_size page_len) {
    static uint16_t made[NIBL_TABLE_LEAST];
    nibl_host_make_table(made, page, page_len);
    return memcmp(made, table, 2 * (1 + (size_t)made[0])) == 0;
}

/* Both calls, and what the one must be by the other. */
static nibl_answer hold(void) {
    nulls = one_in(2);
    stand_all(&with, true);
    stand_all(&without, false);
    calls_made++;
    const nibl_answer tabled = make(&with), plain = make(&without);
    hold_answer(&with, &tabled);
    hold_answer(&without, &plain);
    const nibl_record one = record_of(&with), other = record_of(&without);
    if (plain.stop == NIBL_OUT_OF_RANGE || now.table_len < NIBL_TABLE_LEAST) {
        if (tabled.stop != NIBL_OUT_OF_RANGE)
            fail("a table that is too short, or what is out of range, is not refused");
    } else if (plain.stop != NIBL_BAD_PAGE && !describes(now.table, now.page, now.page_len)) {
        if (tabled.stop != NIBL_BAD_TABLE)
            fail("a false table is not refused");
    } else if (!same_answer(&tabled, &plain) || !same_record(&one, &other) ||
               !is_as(&with, PAGE, filled(&without, PAGE)) || !is_as(&with, MEMORY, filled(&without, MEMORY)) ||
               !is_as(&with, OUTPUT, filled(&without, OUTPUT))) {
        fail("with a table and with none it is not the same");
    } else if (plain.stop != NIBL_BAD_PAGE &&
               !describes((const uint16_t *)(const void *)filled(&with, TABLE), filled(&with, PAGE), with.size[PAGE])) {
        fail("the table is not kept true");
    }
    return tabled;
}

/* ---- what is typed */

static char text[TEXT];
static size_t text_len;

static void add(char byte) {
    if (text_len < sizeof text)
        text[text_len++] = byte;
}

static void add_number(uint32_t number) {
    char digits[12];
    const int size = snprintf(digits, sizeof digits, "%lu", (unsigned long)number);
    for (int at = 0; at < size; at++)
        add(digits[at]);
}

/* Forms of what is typed. A small letter stands for a part: t statement, e expression, f factor, c constant, v variable, s
 * string, i items of PRINT, n line number. Forms without an inner one come first. */
static const char *const statements[] = {"v=c", "v=v+c", "GOTO n", "GOSUB n", "RETURN", "DO", "NEXT v", "END", "REM c", "INPUT v", "INPUT v,v",
                                         "PR i", "PRINTi", "v=e", "LET v=e", "@f=e", "$f=s", "$f=$f", "INPUT $f", "STAT=f", "UNTIL e", "GO TOe",
                                         "GOSUB e", "FOR v=e TO e", "FOR v=c TO c STEP e", "IF e t", "IF e THEN t", "IFv>c GOTO n"};
static const char *const factors[] = {"v", "v", "c", "c", "STAT", "TOP", "#FF", "#8000", "(e)", "@f", "NOT f", "MOD(e,e)"};
static const char *const expressions[] = {"f", "f", "f", "-f", "f+f", "f-f", "f*f", "f/f", "f AND f", "f OR f", "f=f", "f<f", "f>f", "f<=f", "f>=f", "f<>f"};
static const char *const items[] = {"c", "s", "v,s;", "e", "$f", "e,i", "s,i", "$f,i"};
static const char *const lines[] = {"n t", "n t", "n t", "nt:t", "n t:t", "n t:t:t", "t", "t", "RUN", "RUN", "RUN", "LIST", "LIST n", "NEW", "CLEAR", "", "n", "c", "c,c", "e"};

/* Few line numbers, so that jumps find their lines. */
static void add_line_number(void) {
    static const uint32_t some[] = {0, 5, 10, 10, 20, 20, 30, 40, 50, 60, 99, 100, 12345, 32767};
    add_number(one_in(40) ? below(40000) : ONE_OF(some));
}

static void add_constant(void) {
    static const uint32_t some[] = {0, 1, 2, 3, 4, 7, 10, 15, 16, 100, 255, 1023, 4095, 32767, 32768};
    add_number(one_in(9) ? below(40000) : ONE_OF(some));
}

static void add_form(const char *form, int depth);

#define ADD_ONE_OF(list, flat, depth) add_form((list)[below((depth) > 0 ? sizeof(list) / sizeof *(list) : (flat))], (depth)-1)

static void add_part(char part, int depth) {
    static const char *const strings[] = {"\"\"", "\"COW\"", "\"A\"", "\"40 MINUTES\"", "\"1234567890123456789012345\""};
    switch (part) {
        case 't': ADD_ONE_OF(statements, 11, depth); break;
        case 'e': ADD_ONE_OF(expressions, 4, depth); break;
        case 'f': ADD_ONE_OF(factors, 8, depth); break;
        case 'i': ADD_ONE_OF(items, 3, depth); break;
        case 's': add_form(ONE_OF(strings), 0); break;
        case 'c': add_constant(); break;
        case 'n': add_line_number(); break;
        case 'v': add((char)('A' + (one_in(4) ? below(26) : below(4)))); break;
        default: add(part); break;
    }
}

static void add_form(const char *form, int depth) {
    for (; *form != 0; form++)
        if (*form != ' ' || !one_in(6))
            add_part(*form, depth);
}

/* Brackets as deep as a line holds them, closed or not. */
static void add_brackets(void) {
    const uint32_t deep = 30 + below(44);
    add_form(one_in(2) ? "A=" : "", 0);
    for (uint32_t at = 0; at < deep; at++)
        add('(');
    add('1');
    for (uint32_t at = 0; one_in(2) && at < deep; at++)
        add(')');
}

static void damage(char *bytes, size_t size) {
    if (size > 0)
        bytes[below((uint32_t)size)] = (char)any();
}

/* A line or a reply, now and then with a byte that is another one, and its CR, now and then without. */
static void type(void) {
    text_len = 0;
    if (one_in(60))
        add_brackets();
    else
        add_form(ONE_OF(lines), 4);
    if (one_in(20))
        damage(text, text_len);
    if (!one_in(60))
        add(NIBL_CR);
    const size_t room = NIBL_INPUT_MOST - (size_t)now.input_len;
    const size_t size = text_len < room ? text_len : room;
    memcpy(now.input + now.input_len, text, size);
    now.input_len += size;
}

/* ---- sessions */

static nibl_size length(nibl_size most) {
    static const nibl_size some[] = {0, 1, 2, 3, 8, 40, 300};
    switch (below(4)) {
        case 0: return most;
        case 1: return below((uint32_t)most + 1);
        default: return ONE_OF(some);
    }
}

static void start(void) {
    memset(&now, 0, sizeof now);
    now.page_len = one_in(2) ? NIBL_PAGE_MOST : 2 + length(NIBL_PAGE_MOST - 2);
    now.memory_len = length(NIBL_MEMORY_MOST);
    now.table_len = NIBL_TABLE_LEAST + below(3);
    nibl_host_empty_page(now.page, now.page_len);
    for (size_t at = 0; at < now.memory_len; at++)
        now.memory[at] = one_in(4) ? NIBL_CR : (uint8_t)any();
}

/* Lengths and numbers of the next call, most of them good. */
static void plan(void) {
    static const nibl_size wide[] = {65536, 65537, UINT64_C(1) << 32, UINT64_C(1) << 63, UINT64_MAX};
    nibl_size *const numbers[] = {&now.call.inpos, &now.call.outpos, &now.call.budget, &now.page_len, &now.memory_len, &now.input_len, &now.output_len};
    now.output_len = one_in(3) ? length(NIBL_OUTPUT_MOST) : 300;
    now.call.outpos = one_in(2) ? 0 : below((uint32_t)now.output_len + 1);
    now.call.budget = one_in(9) ? length(NIBL_BUDGET_MOST) : below(200);
    now.call.sense = (uint8_t)any();
    now.continues = now.record.paused != NIBL_NOWHERE ? !one_in(4) : one_in(20);
    memset(now.output, (int)below(256), (size_t)now.output_len);
    if (one_in(50))
        *ONE_OF(numbers) = ONE_OF(wide) - below(2);
    if (one_in(200))
        now.table_len = below(NIBL_TABLE_LEAST);
}

/* What a host does between calls that it must not, or may. */
static void meddle(void) {
    nibl_size count = now.table[0];
    switch (below(8)) {
        case 0: now.record.vars[below(NIBL_VARIABLES)] = (uint16_t)any(); break;
        case 1: damage((char *)now.page, (size_t)now.page_len); break;
        case 2: damage((char *)&now.record, sizeof now.record); break;
        case 3: now.table[below((uint32_t)(count + 2))] ^= (uint16_t)(1 + below(5)); break;
        case 4: now.record.paused = (uint16_t)below(60); break;
        case 5: now.record.fors.depth = below(7), now.record.dos.depth = below(11); break;
        case 6: damage((char *)now.memory, (size_t)now.memory_len); break;
        default: nibl_host_make_table(now.table, now.page, now.page_len); break;
    }
}

/* What the call left is what the next one is lent. */
static void keep(const nibl_answer *answer) {
    now.record = record_of(&with);
    memcpy(now.page, filled(&with, PAGE), with.size[PAGE]);
    memcpy(now.memory, filled(&with, MEMORY), with.size[MEMORY]);
    memcpy(now.table, filled(&with, TABLE), with.size[TABLE]);
    now.call.inpos = answer->inpos;
    stops[answer->stop]++;
}

static void add_to_sum(const void *bytes, size_t size) {
    for (size_t at = 0; at < size; at++)
        sum = (sum ^ ((const uint8_t *)bytes)[at]) * UINT64_C(1099511628211);
}

static void sum_up(const nibl_answer *answer) {
    const uint64_t numbers[] = {answer->stop, answer->line, answer->steps, answer->inpos, answer->outpos, answer->column, now.record.paused};
    add_to_sum(numbers, sizeof numbers);
    add_to_sum(now.record.vars, sizeof now.record.vars);
}

/* A call that was out of range, or that a false table or record kept from running, is given good numbers again. */
static void mend(const session *good, const nibl_answer *answer) {
    now.page_len = good->page_len;
    now.memory_len = good->memory_len;
    now.table_len = good->table_len;
    now.input_len = good->input_len;
    if (answer->stop == NIBL_OUT_OF_RANGE)
        now.call.inpos = good->call.inpos;
    if (answer->stop == NIBL_BAD_TABLE && one_in(2))
        nibl_host_make_table(now.table, now.page, now.page_len);
    if (answer->stop == NIBL_BAD_RECORD && one_in(2))
        now.record = nibl_host_fresh_record();
    if (answer->stop == NIBL_BAD_PAGE && one_in(2))
        nibl_host_empty_page(now.page, now.page_len), nibl_host_make_table(now.table, now.page, now.page_len);
}

static void run_session(void) {
    static session good;
    chance = seed * UINT64_C(0x9e3779b97f4a7c15) | 1;
    start();
    for (call_made = 1; call_made <= CALLS; call_made++) {
        if (now.call.inpos >= now.input_len || one_in(9)) {
            now.input_len = now.call.inpos = 0;
            for (uint32_t lines = 1 + below(LINES); lines > 0; lines--)
                type();
        }
        if (one_in(12))
            meddle();
        good = now;
        plan();
        const nibl_answer answer = hold();
        keep(&answer);
        mend(&good, &answer);
        sum_up(&answer);
    }
    add_to_sum(now.page, (size_t)now.page_len);
    add_to_sum(now.memory, (size_t)now.memory_len);
}

static void report(uint64_t sessions) {
    int kinds = 0;
    for (int stop = 0; stop < 256; stop++)
        if (stops[stop] > 0) {
            printf("stop %d: %llu\n", stop, (unsigned long long)stops[stop]);
            kinds++;
        }
    printf("sum %016llx\n", (unsigned long long)sum);
    printf("%llu sessions, %llu calls, each with a table and with none, %d stop numbers: nothing was found\n", (unsigned long long)sessions,
           (unsigned long long)calls_made, kinds);
}

int main(int count, char **words) {
    if (count < 3) {
        fputs("usage: fuzz SECONDS SEED [SESSIONS]\n", stderr);
        return 2;
    }
    const time_t end = time(NULL) + atoi(words[1]);
    const uint64_t first = strtoull(words[2], NULL, 10), most = count > 3 ? strtoull(words[3], NULL, 10) : UINT64_MAX;
    make_side(&with);
    make_side(&without);
    make_stack();
    catch_faults();
    for (seed = first; seed - first < most && time(NULL) < end; seed++)
        run_session();
    report(seed - first);
    return 0;
}
