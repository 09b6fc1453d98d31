/*
 * The milking gate's controller: a proved NIBL interpreter, for C. Link the archive that tools/library prints.
 *
 * Everything is lent by the host and everything is kept by the host: the library has no state of its own, takes nothing
 * from the heap, and needs no other function than C's memcpy and memset. Only numbers, pointers and lengths cross. Any
 * bits may be lent: what is out of range, a bad page, a table of another page and a record that does not fit are refused
 * by a stop number, and change nothing. This header wants C11 or C++11. docs/EMBEDDING.md says more.
 */
#ifndef NIBL_H
#define NIBL_H

#include <stddef.h>
#include <stdint.h>

#ifdef __cplusplus
extern "C" {
#endif

/*
 * The interface's number: another one for each change of a type, of a signature or of what a field means, and for each call
 * that is added. In the archive the calls' names end with it, so that a host that was compiled with the header of another
 * interface does not link, where it would have lent what the calls read otherwise. A host writes the names without it. This
 * line is the one place where it stands; tools/library and the Rust crate read it here, and docs/EMBEDDING.md tells of each.
 */
#define NIBL_VERSION 5
#define NIBL_NUMBERED_AS(name, number) name##_##number
#define NIBL_NUMBERED(name, number) NIBL_NUMBERED_AS(name, number)
#define nibl_take_line NIBL_NUMBERED(nibl_take_line, NIBL_VERSION)
#define nibl_continue_run NIBL_NUMBERED(nibl_continue_run, NIBL_VERSION)
#define nibl_save NIBL_NUMBERED(nibl_save, NIBL_VERSION)
#define nibl_load NIBL_NUMBERED(nibl_load, NIBL_VERSION)

/* The archive's own number, under a name that every archive has: for a host that looks the calls up when it runs. */
extern const uint32_t nibl_version;

/* A length, a position, a depth or a budget: 64 bits on every target, as the module was proved for. */
typedef uint64_t nibl_size;

/* Lengths of what is lent, and other limits. */
enum {
    NIBL_PAGE_LEAST = 2,       /* bytes of a page: at least its end mark */
    NIBL_PAGE_MOST = 4096,     /* and at most so many */
    NIBL_MEMORY_MOST = 4096,   /* bytes of the memory, which may be empty */
    NIBL_INPUT_MOST = 65535,   /* bytes of the input, which may be empty */
    NIBL_OUTPUT_MOST = 65535,  /* bytes of the output, which may be empty */
    NIBL_TABLE_LEAST = 1025,   /* numbers of a table, where one is lent: at least so many, and any more */
    NIBL_BUDGET_MOST = 65535,  /* steps of one call; 0 is a budget too */
    NIBL_SAVED_MOST = 8248,    /* bytes of the longest saved form: of a full page and the longest memory */
    NIBL_LINE_MOST = 72,       /* bytes of a typed line, or of a reply, that are kept */
    NIBL_LINE_NUMBER_MOST = 32767, /* the highest line number */
    NIBL_VARIABLES = 26,       /* A to Z */
    NIBL_GOSUBS = 8,           /* GOSUBs that are open at once */
    NIBL_DOS = 8,              /* DOs that are open at once */
    NIBL_FORS = 4,             /* FORs that are open at once */
    NIBL_LIST_MOST = 6140,     /* bytes that LIST writes of the longest page, at most */
    NIBL_STACK = 86016         /* bytes of stack that are enough for a call, as tools/library compiles it: 84 KiB */
};

/* Numbers with a meaning. */
enum {
    NIBL_CR = 13,        /* ends a typed line, a reply, a record's text and a string in memory */
    NIBL_END_MARK = 255, /* two of these end the program: an empty page begins with them */
    NIBL_MARK = 65535,   /* the immediate mark: what a GOSUB that was typed saves for a place */
    NIBL_NOWHERE = 0,    /* the pause of a record that has none */
    NIBL_START = 1,      /* a pause at the program's start; one after the place p is p + 2 */
    NIBL_NO_LINE = 65535 /* the line of an answer whose stop no program statement gave */
};

/* Stop numbers: why a call came back. */
enum {
    NIBL_DONE = 0,              /* done; past the last line; RETURN to the immediate mark */
    NIBL_OUT_OF_RANGE = 1,      /* a length, position or budget outside the limits: nothing is changed */
    NIBL_PAGE_FULL = 2,         /* the edited program would not fit the page: the line is taken. Load: nothing is changed */
    NIBL_NOT_IMMEDIATE = 3,     /* DO, UNTIL, FOR, NEXT or INPUT in an immediate line: the line is taken */
    NIBL_NO_READING = 5,        /* over-long typed line, or no reading: the line is taken */
    NIBL_BAD_REPLY = 6,         /* reply over-long or not in its form: the reply is taken */
    NIBL_NO_CR = 7,             /* no CR left in the input: no byte is taken; at the typed line nothing is changed */
    NIBL_NO_SUCH_LINE = 8,      /* GOTO or GOSUB to a line not there */
    NIBL_NO_GOSUB = 9,          /* RETURN with its stack empty */
    NIBL_TOO_DEEP = 10,         /* past 8 GOSUBs, 8 DOs or 4 FORs */
    NIBL_NO_FOR = 11,           /* NEXT with no FOR */
    NIBL_OTHER_VARIABLE = 12,   /* NEXT with another variable than the last FOR */
    NIBL_DIVISION_BY_ZERO = 13, /* division or MOD by 0 */
    NIBL_PAUSED = 14,           /* budget spent and a statement still to run: paused, nibl_continue_run goes on */
    NIBL_NO_DO = 15,            /* UNTIL with its stack empty */
    NIBL_NO_MEMORY = 16,        /* a memory byte needed is not there, or no CR found */
    NIBL_OUTPUT_FULL = 17,      /* an output item does not fit whole: those before it stay. Save: nothing is changed */
    NIBL_BAD_PAGE = 18,         /* bad page: nothing is changed */
    NIBL_BAD_RECORD = 19,       /* session record does not fit the page: nothing is changed */
    NIBL_END = 20,              /* END */
    NIBL_OTHER_FORM = 22,       /* load: another form number, or none: nothing is changed */
    NIBL_BAD_FORM = 23,         /* load: counts, records or length wrong: nothing is changed */
    NIBL_OTHER_MEMORY = 24,     /* load: the form's memory has another length: nothing is changed */
    NIBL_BAD_TABLE = 26         /* the table does not describe the page: nothing is changed */
};

/* The stack of GOSUB, and that of DO. A place is the position in the page of the ":" or the CR that ends a statement. */
typedef struct {
    nibl_size depth;              /* so many slots are in use, the oldest first */
    uint16_t places[NIBL_GOSUBS]; /* where to go on after; on the GOSUB stack also NIBL_MARK */
} nibl_places;

/* A FOR that is open. */
typedef struct {
    uint8_t var;    /* its variable: 0 is A, 25 is Z */
    uint16_t limit; /* its limit and step: 16 bits, read as signed */
    uint16_t step;
    uint16_t place; /* the place that ends the FOR statement */
} nibl_for;

/* The stack of FOR. */
typedef struct {
    nibl_size depth;             /* so many slots are in use, the oldest first */
    nibl_for entries[NIBL_FORS]; /* the open FORs */
} nibl_fors;

/*
 * The session record: what the controller keeps between calls. A fresh one is all zeros. Every bit pattern is a record;
 * one that does not fit the page is refused with NIBL_BAD_RECORD. Two are to be compared by nibl_host_equal_records of
 * nibl_host.h: the bytes between the fields are not kept, and what stands in a stack past its depth says nothing.
 */
typedef struct {
    uint16_t vars[NIBL_VARIABLES]; /* A to Z: 16 bits, read as signed */
    uint8_t flags;                 /* bits 0 to 2: what STAT was given */
    nibl_places gosubs;            /* open GOSUBs */
    nibl_places dos;               /* open DOs */
    nibl_fors fors;                /* open FORs */
    uint16_t paused;               /* NIBL_NOWHERE, NIBL_START, or 2 more than the place after which the run goes on */
} nibl_record;

/* The numbers that a call is given. */
typedef struct {
    nibl_size inpos;  /* where to read in the input: 0 to its length */
    nibl_size outpos; /* where to write in the output: 0 to its length */
    uint8_t sense;    /* the sense byte, of which STAT reads bits 4 and 5 */
    nibl_size budget; /* the steps that may run: 0 to NIBL_BUDGET_MOST */
    uint8_t tabled;   /* is a table lent? 0: none is; any other number: one is */
} nibl_call;

/* What a call answers. */
typedef struct {
    uint8_t stop;     /* the stop number */
    uint16_t line;    /* the line of the program statement that gave the stop, or NIBL_NO_LINE */
    uint16_t steps;   /* the steps that ran, the one that stopped included */
    nibl_size inpos;  /* where to read next */
    nibl_size outpos; /* the end of what was written */
    /* Of a typed line that was refused with NIBL_NO_READING: so many bytes of it, as it was kept, could still be the front
     * of a line with a reading; NIBL_LINE_MOST if it was over-long. 0 for every other stop. */
    uint16_t column;
} nibl_answer;

/*
 * A table of line places may be lent beside the page, so that GOTO and GOSUB need not look for their line record by
 * record. It is the number of lines, and then each line's position in the page, in order: where its record begins. What
 * stands past the last line is free: it is not looked at, and never written. So the table of an empty page is one that
 * begins with 0.
 *
 * Calls keep it true: when a line is stored or deleted, and by NEW, they write the count, and the positions from that line
 * on. A host that changes the page itself, or restores one, makes the table anew: nibl_host_make_table of nibl_host.h
 * does. A table that does not describe the page is refused with NIBL_BAD_TABLE, one that is too short with
 * NIBL_OUT_OF_RANGE. A call answers the same with a true table and with none. To lend none: NULL, 0, and 0 for tabled.
 */

/* Give any call NIBL_STACK bytes of stack: it takes less than 9 KiB, and up to 1 KiB for each open bracket, "@" or NOT.
 * docs/EMBEDDING.md has the targets one by one. An archive that was compiled with other words than tools/library's own may
 * take more. */

/*
 * Takes one typed line from the input, from call->inpos up to its CR, and does what it says: stores or deletes a program
 * line, obeys a command, or runs a statement and the program from where that leads. It ends any pause.
 *
 * The record, the page, the memory, the output and the table are changed where they stand; *answer is written. What is
 * lent must not overlap; a pointer may be null where its length is 0.
 */
void nibl_take_line(nibl_record *record, uint8_t *page, nibl_size page_len, uint8_t *memory, nibl_size memory_len,
                    const uint8_t *input, nibl_size input_len, uint8_t *output, nibl_size output_len,
                    const nibl_call *call, nibl_answer *answer, uint16_t *table, nibl_size table_len);

/*
 * Goes on with a run that was paused (NIBL_PAUSED), with a new budget. The input is read by INPUT alone. With nothing
 * paused it answers NIBL_DONE with 0 steps.
 */
void nibl_continue_run(nibl_record *record, uint8_t *page, nibl_size page_len, uint8_t *memory, nibl_size memory_len,
                       const uint8_t *input, nibl_size input_len, uint8_t *output, nibl_size output_len,
                       const nibl_call *call, nibl_answer *answer, uint16_t *table, nibl_size table_len);

/*
 * Saves the box's rule set, its program, variables and memory, in a form that another box loads: the bytes go to the output
 * from call->outpos on, whole or not at all (NIBL_OUTPUT_FULL), at most NIBL_SAVED_MOST. Nothing else is changed, the pause
 * neither. The input, the table, the sense byte and the budget are not looked at: NULL, 0 will do.
 */
void nibl_save(nibl_record *record, uint8_t *page, nibl_size page_len, uint8_t *memory, nibl_size memory_len,
               const uint8_t *input, nibl_size input_len, uint8_t *output, nibl_size output_len, const nibl_call *call,
               nibl_answer *answer, uint16_t *table, nibl_size table_len);

/*
 * Loads a saved form, which is the input, whole. Whatever page and record it is loaded over, the page then has the form's
 * program, and what stood behind that stays; the memory, of the same length, and the variables are the form's; the stacks
 * are empty and nothing is paused; of the flags bits 0 to 2 are kept; a table that is lent is made true. Refused, it changes
 * nothing. The output, both positions, the sense byte and the budget are not looked at.
 */
void nibl_load(nibl_record *record, uint8_t *page, nibl_size page_len, uint8_t *memory, nibl_size memory_len,
               const uint8_t *input, nibl_size input_len, uint8_t *output, nibl_size output_len, const nibl_call *call,
               nibl_answer *answer, uint16_t *table, nibl_size table_len);

/* The layout that the library was compiled for, type by type and field by field. */
#ifdef __cplusplus
#define NIBL_HOLDS(what) static_assert(what, "the library was compiled for another layout of " #what)
#define NIBL_TYPE(type, size, align) NIBL_HOLDS(sizeof(type) == size && alignof(type) == align);
#define NIBL_FIELD(type, field, offset, size) NIBL_HOLDS(offsetof(type, field) == offset && sizeof(type::field) == size);
#else
#define NIBL_HOLDS(what) _Static_assert(what, "the library was compiled for another layout of " #what)
#define NIBL_TYPE(type, size, align) NIBL_HOLDS(sizeof(type) == size && _Alignof(type) == align);
#define NIBL_FIELD(type, field, offset, size)                                                                          \
    NIBL_HOLDS(offsetof(type, field) == offset && sizeof(((type *)0)->field) == size);
#endif
#include "nibl.layout"
#undef NIBL_FIELD
#undef NIBL_TYPE
#undef NIBL_HOLDS

#ifdef __cplusplus
}
#endif
#endif
