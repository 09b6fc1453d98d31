/*
 * How much stack a call takes, on the compiled library, without a table of line places and with one: each call runs on a
 * stack of its own that was painted, and the deepest byte that changed is looked for. And how much is in use where a call
 * writes: the output is locked, so that the first byte written stops the call there. Bytes are counted from the caller's
 * frame on. It ends with 1 if a call takes more than the header says.
 */
#include <signal.h>
#include <stdio.h>
#include <stdlib.h>
#include <string.h>
#include <sys/mman.h>
#include <ucontext.h>

#include "nibl.h"

enum { PAINT = 0xA5, STACK = 1 << 18, OUTPUT = 1 << 16 };

static uint8_t page[NIBL_PAGE_MOST], memory[NIBL_MEMORY_MOST], *output;
static uint16_t table[NIBL_TABLE_LEAST];
static nibl_record record;
static nibl_answer answer;

static _Alignas(64) uint8_t stack[STACK];
static ucontext_t here, there;
static const uint8_t *frame;
static size_t most; /* that any call took */
static int over;    /* whether what goes deeper took more than it may */

/* Bytes of stack that an open bracket may take, and an "@" or a NOT. */
enum { BRACKET_MOST = 320, PREFIX_MOST = 160 };

/* What the next call is lent: makecontext hands no pointers over. */
static const char *input;
static size_t budget, length;
static uint8_t tabled;

/* The call that is made: all have one signature. */
typedef void entry(nibl_record *, uint8_t *, nibl_size, uint8_t *, nibl_size, const uint8_t *, nibl_size, uint8_t *,
                   nibl_size, const nibl_call *, nibl_answer *, uint16_t *, nibl_size);
static entry *made;

static void call(void) {
    nibl_call numbers = {.inpos = 0, .outpos = 0, .sense = 0, .budget = budget, .tabled = tabled};
    frame = __builtin_frame_address(0);
    made(&record, page, sizeof page, memory, sizeof memory, (const uint8_t *)input, length, output, NIBL_OUTPUT_MOST,
         &numbers, &answer, table, NIBL_TABLE_LEAST);
}

static size_t depth(void) {
    size_t at = 0;
    memset(stack, PAINT, sizeof stack);
    getcontext(&there);
    there.uc_stack.ss_sp = stack;
    there.uc_stack.ss_size = sizeof stack;
    there.uc_link = &here;
    makecontext(&there, call, 0);
    swapcontext(&here, &there);
    while (stack[at] == PAINT)
        at++;
    const size_t took = (size_t)(frame - (stack + at));
    most = took > most ? took : most;
    return took;
}

static size_t typed(const char *text, size_t steps) {
    input = text;
    length = strlen(text);
    budget = steps;
    made = nibl_take_line;
    return depth();
}

/* How deep the stack was where the output was written first. */
static size_t touched;

/* A fault anywhere else is left to end the program: with no handler it comes again. */
static void unlock(int number, siginfo_t *info, void *context) {
    const ucontext_t *at = context;
    const uint8_t *hit = info->si_addr;
#if defined __x86_64__
    const uint8_t *top = (const uint8_t *)at->uc_mcontext.gregs[REG_RSP];
#elif defined __arm__
    const uint8_t *top = (const uint8_t *)at->uc_mcontext.arm_sp;
#else
    const uint8_t *top = (const uint8_t *)at->uc_mcontext.sp;
#endif
    if (hit < output || output + OUTPUT <= hit) {
        signal(number, SIG_DFL);
        return;
    }
    touched = (size_t)(frame - top);
    mprotect(output, OUTPUT, PROT_READ | PROT_WRITE);
}

static size_t written(const char *text) {
    touched = 0;
    mprotect(output, OUTPUT, PROT_READ);
    typed(text, NIBL_BUDGET_MOST);
    if (touched == 0) {
        fprintf(stderr, "stack: nothing was written: %s\n", text);
        exit(1);
    }
    return touched;
}

/* The handler has a stack of its own: nothing of it is to show on the painted one. */
static void lend_output(void) {
    static uint8_t handlers[1 << 16];
    const stack_t apart = {.ss_sp = handlers, .ss_size = sizeof handlers};
    const struct sigaction action = {.sa_sigaction = unlock, .sa_flags = SA_SIGINFO | SA_ONSTACK};
    output = mmap(NULL, OUTPUT, PROT_READ | PROT_WRITE, MAP_PRIVATE | MAP_ANONYMOUS, -1, 0);
    if (output == MAP_FAILED || sigaltstack(&apart, NULL) != 0 || sigaction(SIGSEGV, &action, NULL) != 0) {
        perror("stack");
        exit(1);
    }
}

static size_t continued(const char *replies) {
    input = replies;
    length = strlen(replies);
    budget = NIBL_BUDGET_MOST;
    made = nibl_continue_run;
    return depth();
}

static size_t saved(void) {
    length = 0;
    made = nibl_save;
    return depth();
}

/* Of what was saved last. */
static size_t loaded(void) {
    static uint8_t form[NIBL_SAVED_MOST];
    length = (size_t)answer.outpos;
    memcpy(form, output, length);
    input = (const char *)form;
    made = nibl_load;
    return depth();
}

static void start(void) {
    memset(&record, 0, sizeof record);
    memset(page, 0, sizeof page);
    page[0] = page[1] = NIBL_END_MARK;
    table[0] = 0;
}

static void store(const char *line) {
    typed(line, 0);
}

/* Lines from 1000 on, until no more fit. */
static void fill(void) {
    char line[NIBL_LINE_MOST + 2];
    int number = 1000;
    do {
        snprintf(line, sizeof line, "%d A=A+1:PRINT A,B,\"X\",C\r", number++);
        store(line);
    } while (answer.stop == NIBL_DONE);
}

static void show(const char *what, size_t bytes) {
    printf("%7zu  %s (stop %d)\n", bytes, what, answer.stop);
}

/* A line that says one thing so many times over: its first part, what is repeated, and its last parts, which are
 * written once, or as often again for what closes it. */
static size_t repeated(const char *first, const char *again, const char *middle, const char *close, int times) {
    char line[200] = "";
    strcat(line, first);
    for (int n = 0; n < times; n++)
        strcat(line, again);
    strcat(line, middle);
    for (int n = 0; n < times; n++)
        strcat(line, close);
    strcat(line, "\r");
    return typed(line, NIBL_BUDGET_MOST);
}

/* What one more of them takes: between so many and as many as a line holds, so that they are what goes deepest. */
static size_t each(const char *what, const char *first, const char *again, const char *middle, const char *close, int few, int many) {
    size_t bytes = (repeated(first, again, middle, close, many) - repeated(first, again, middle, close, few)) / (size_t)(many - few);
    printf("%7zu  %s\n", bytes, what);
    return bytes;
}

/* The same of what goes deeper with each: more than this many bytes fail. */
static void nested(const char *what, const char *first, const char *again, const char *middle, const char *close, int few, int many, size_t bar) {
    if (each(what, first, again, middle, close, few, many) > bar) {
        printf("         that is more than %zu\n", bar);
        over = 1;
    }
}

static void measure(void) {
    start();
    show("a line stored on an empty page", typed("10 A=1\r", 0));
    fill();
    show("a line stored on a full page", typed("1000 A=A+2:PRINT A,B,\"X\",C\r", 0));
    show("LIST of a full page", typed("LIST\r", 0));
    show("a full page saved", saved());
    show("a full page loaded", loaded());
    show("a refused line, its spot found", typed("PRINT A,B,\"X\",C;D\r", 0));
    start();
    store("10 FOR I=1 TO 3:GOSUB 100:NEXT I:INPUT A,B:PRINT A,B,\"X\",C:END\r");
    store("100 DO:A=A+1:UNTIL A>3:RETURN\r");
    show("a run with FOR, GOSUB, DO, INPUT and a PRINT of four items", typed("RUN\r1,2\r", NIBL_BUDGET_MOST));
    typed("RUN\r", 4);
    show("the same, paused and continued", continued("1,2\r"));
    start();
    store("10 FOR I=1 TO 9:FOR J=1 TO 9:FOR K=1 TO 9:FOR L=1 TO 9\r");
    store("20 DO:DO:DO:DO:DO:DO:DO:DO\r");
    store("30 GOSUB 30\r");
    fill();
    typed("RUN\r", NIBL_BUDGET_MOST);
    show("a line typed on a full page, all stacks full", typed("A=1\r", NIBL_BUDGET_MOST));
    puts("lines as long as they can be, without a bracket, an \"@\" or a NOT:");
    start();
    show("PRINT of 34 variables", repeated("PR A", ",A", "", "", 33));
    show("PRINT of 23 empty strings", repeated("PR \"\"", ",\"\"", "", "", 22));
    show("17 IFs", repeated("", "IF1 ", "A=1", "", 17));
    store("10 INPUT A,B,C,D,E,F,G,H,I,J,K,L,M,N,O,P,Q,R,S,T,U,V,W,X,Y,Z,A,B,C,D\r");
    show("INPUT of 30 variables",
         typed("RUN\r1,2,3,4,5,6,7,8,9,0,1,2,3,4,5,6,7,8,9,0,1,2,3,4,5,6,7,8,9,0\r", NIBL_BUDGET_MOST));
    puts("in use where a call writes:");
    start();
    show("PRINT of a number", written("PR 12345\r"));
    show("PRINT of a string", written("PR \"12345\"\r"));
    store("12345 DO\r");
    show("LIST of a line", written("LIST\r"));
    puts("each more of these in a line:");
    start();
    each("item of PRINT", "PR A", ",A", "", "", 20, 30);
    each("+", "A=A", "+A", "", "", 20, 30);
    each("*", "A=A", "*A", "", "", 20, 30);
    each("variable of INPUT", "INPUT A", ",A", "", "", 20, 30);
    each("IF behind an IF", "", "IF A ", "A=1", "", 8, 12);
    nested("open bracket", "A=", "(", "1", ")", 26, 34, BRACKET_MOST);
    nested("open bracket of MOD, behind 20", "A=((((((((((((((((((((", "MOD(", "1", "", 0, 6, BRACKET_MOST);
    nested("@", "A=", "@", "1", "", 54, 68, PREFIX_MOST);
    nested("NOT, behind 40 of @", "A=@@@@@@@@@@@@@@@@@@@@@@@@@@@@@@@@@@@@@@@@", "NOT", "1", "", 2, 9, PREFIX_MOST);
    puts("the worst lines:");
    show("34 brackets", repeated("A=", "(", "1", ")", 34));
    store("10 INPUT A\r");
    show("a reply of 35 brackets",
         typed("RUN\r(((((((((((((((((((((((((((((((((((1)))))))))))))))))))))))))))))))))))\r", NIBL_BUDGET_MOST));
    show("a reply of 72 open brackets",
         typed("RUN\r((((((((((((((((((((((((((((((((((((((((((((((((((((((((((((((((((((((((\r", NIBL_BUDGET_MOST));
}

int main(void) {
    lend_output();
    for (tabled = 0; tabled < 2; tabled++) {
        puts(tabled ? "with a table of line places:" : "without a table of line places:");
        measure();
    }
    printf("the most: %zu of %d\n", most, NIBL_STACK);
    return most > NIBL_STACK || over;
}
