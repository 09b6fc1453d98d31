/*
 * What a call takes, as a host plans with it: before its first step, by the page that it checks, and for its longest steps.
 * The program is for this machine, where bench/calls times it and counts instructions by valgrind, and for a bare Cortex-M4
 * (bench/bare.c), which counts its own and the stack.
 */
#include "calls.h"

static uint8_t page[NIBL_PAGE_MOST], memory[NIBL_MEMORY_MOST], input[NIBL_INPUT_MOST], output[NIBL_OUTPUT_MOST];
static uint16_t table[NIBL_TABLE_LEAST];
static nibl_record record;
static nibl_lent lent;

/* The one call that is looked at: callgrind collects from here to the return. */
__attribute__((noinline)) nibl_answer measured(nibl_entry *entry, const nibl_lent *what, nibl_call call) {
    return nibl_host_make(entry, what, call);
}

static void give(const char *text) {
    lent.input_len = strlen(text);
    memcpy(input, text, lent.input_len);
}

static void start(void) {
    const nibl_lent all = {&record, page, sizeof page, memory, sizeof memory, input, 0, output, sizeof output, table, NIBL_TABLE_LEAST};
    lent = all;
    record = nibl_host_fresh_record();
    nibl_host_empty_page(page, sizeof page);
    memset(memory, 0, sizeof memory);
    table[0] = 0;
}

/* Digits of a number, and then a text: a line that is typed. */
static void number(char *line, unsigned value, const char *text) {
    char digits[6];
    unsigned at = 5;
    digits[at] = 0;
    do {
        digits[--at] = (char)('0' + value % 10);
        value /= 10;
    } while (value > 0);
    strcpy(line, digits + at);
    strcat(line, text);
    strcat(line, "\r");
}

static uint8_t store(unsigned value, const char *text) {
    char line[2 * NIBL_LINE_MOST];
    number(line, value, text);
    give(line);
    return nibl_host_take_line(&lent, nibl_host_call(0, 0, 0)).stop;
}

/* Lines with these texts in turn, at most so many, while there is room. */
static unsigned fill(unsigned first, unsigned most, const char *const *texts, unsigned count) {
    unsigned lines = 0;
    while (lines < most && store(first + lines, texts[lines % count]) == NIBL_DONE)
        lines++;
    return lines;
}

/* As rule books have them. */
static const char *const rules[] = {" IF L<H-5 GOTO 900", " LET T=T+1:IF T>9 T=0", " PRINT \"COW\",C,T", " GOSUB 800:IF A=0 END",
                                    " A=@(100+C):B=A*60/4"};
/* The slowest to be read that was found, of all kinds of statements as often as they fit. */
static const char *const slowest[] = {"PR1,1,1,1,1,1,1,1,1,1,1,1,1,1,1,1,1,1,1,1,1,1,1,1,1,1,1,1,1,1,1,1,1,1"};

/* The shortest text of all. */
static const char *const shortest[] = {"DO"};

/* All stacks full, of the page's last place, and paused there. */
static void open_all(void) {
    uint16_t last = (uint16_t)(table[table[0]] + page[table[table[0]] + 2] - 1);
    record.gosubs.depth = NIBL_GOSUBS;
    record.dos.depth = NIBL_DOS;
    record.fors.depth = NIBL_FORS;
    for (int at = 0; at < NIBL_GOSUBS; at++)
        record.gosubs.places[at] = record.dos.places[at] = last;
    for (int at = 0; at < NIBL_FORS; at++)
        record.fors.entries[at].place = last;
}

static void checks(const char *what) {
    show(what, nibl_continue_run, &lent, nibl_host_call(0, 0, 0));
}

static void before_the_first_step(void) {
    start();
    checks("an empty page");
    fill(100, 60, rules, 5);
    checks("60 lines of a rule book");
    fill(160, 999, rules, 5);
    checks("a full page of a rule book");
    lent.table = NULL;
    lent.table_len = 0;
    checks("the same, no table lent");
    start();
    fill(100, 999, rules, 5);
    open_all();
    checks("a full page, all stacks full");
    start();
    fill(0, 999, slowest, 1);
    checks("the slowest page found");
    open_all();
    checks("the slowest page found, all stacks full");
}

/* Eight steps of a statement, each with a GOTO back to it, of a run that is typed, and the same with no step: the script
 * takes the one from the other. */
static void steps_of(const char *what, const char *text, const char *reply) {
    char typed[800] = "GOTO 1\r";
    store(1, text);
    store(2, "GOTO 1");
    for (int times = 0; times < 8; times++)
        strcat(typed, reply);
    give(typed);
    show("0:", nibl_take_line, &lent, nibl_host_call(0, 0, 0));
    show(what, nibl_take_line, &lent, nibl_host_call(0, 0, 16));
}

/* A string of all the memory, a CR at its end. */
static void long_string(void) {
    memset(memory, 'A', sizeof memory);
    memory[sizeof memory - 1] = NIBL_CR;
}

static void steps(void) {
    start();
    steps_of("8: A=1", "A=1", "");
    steps_of("8: 33 brackets", "A=(((((((((((((((((((((((((((((((((1)))))))))))))))))))))))))))))))))", "");
    long_string();
    steps_of("8: PRINT of 4,095 bytes", "PRINT $0", "");
    long_string();
    steps_of("8: a string of 4,094 bytes moved by one", "$0=$1", "");
    memset(memory, 'A', sizeof memory);
    steps_of("8: INPUT of 30 numbers", "INPUT A,B,C,D,E,F,G,H,I,J,K,L,M,N,O,P,Q,R,S,T,U,V,W,X,Y,Z,A,B,C,D",
             "1,2,3,4,5,6,7,8,9,0,1,2,3,4,5,6,7,8,9,0,1,2,3,4,5,6,7,8,9,0\r");
    steps_of("8: INPUT of a number in 35 brackets", "INPUT A",
             "(((((((((((((((((((((((((((((((((((1)))))))))))))))))))))))))))))))))))\r");
    long_string();
    give("PRINT $0,$0,$0,$0,$0,$0,$0,$0,$0,$0,$0,$0,$0,$0,$0\r");
    show("a step, typed: PRINT of 15 strings, 61,427 bytes in all", nibl_take_line, &lent, nibl_host_call(0, 0, 0));
    start();
    fill(3, 650, shortest, 1);
    lent.table = NULL;
    lent.table_len = 0;
    store(9999, "GOTO 1");
    steps_of("8: GOTO past 650 lines, no table lent", "GOTO 9999", "");
}

static void no_steps(void) {
    start();
    store(1, "INPUT A");
    give("RUN\r((((((((((((((((((((((((((((((((((((((((((((((((((((((((((((((((((((((((\r");
    show("a reply of 72 open brackets, refused", nibl_take_line, &lent, nibl_host_call(0, 0, 9));
    start();
    give("A=1\r");
    show("a line on an empty page: A=1", nibl_take_line, &lent, nibl_host_call(0, 0, 0));
    give("PRIMT 1\r");
    show("a refused line: PRIMT 1", nibl_take_line, &lent, nibl_host_call(0, 0, 0));
    give("A=((((((((((((((((((((((((((((((((((((((((((((((((((((((((((((((((((((((\r");
    show("a line of 70 open brackets, refused", nibl_take_line, &lent, nibl_host_call(0, 0, 0));
    give("PRA,\"AAAAAAAAAAAAAAAAAAAAAAAAAAAAAAAAAAAAAAAAAAAAAAAAAAAAAAAAAAAAAAAAAA\r");
    show("a line of 71 bytes with an open string, refused", nibl_take_line, &lent, nibl_host_call(0, 0, 0));
    memset(input, 0, sizeof input);
    input[sizeof input - 1] = NIBL_CR;
    lent.input_len = sizeof input;
    show("65,534 bytes that are dropped, and a CR", nibl_take_line, &lent, nibl_host_call(0, 0, 0));
    fill(10000, 999, shortest, 1);
    store(10681, "DO  ");
    give("LIST\r");
    show("the longest LIST", nibl_take_line, &lent, nibl_host_call(0, 0, 0));
}

void all_rows(void) {
    before_the_first_step();
    steps();
    no_steps();
}
