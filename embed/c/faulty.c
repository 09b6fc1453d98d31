/*
 * The library with a fault, for embed/c/fuzz.c to find: the calls of the archive, whose names tools/hosts has changed, and
 * one wrong thing more, by the number FAULT.
 */
#include "nibl_host.h"

extern nibl_entry nibl_right_take_line, nibl_right_continue_run;

static volatile uint8_t sink;

/* Every page of memory of a stack larger than the one that is promised. */
static void take_stack(void) {
    volatile uint8_t room[NIBL_STACK];
    for (nibl_size at = sizeof room; at > 0; at -= 512)
        room[at - 1] = 1;
    sink = room[0];
}

static void wrong(nibl_entry *entry, const nibl_lent *lent, const nibl_call *call, nibl_answer *answer) {
    entry(lent->record, lent->page, lent->page_len, lent->memory, lent->memory_len, lent->input, lent->input_len, lent->output,
          lent->output_len, call, answer, lent->table, lent->table_len);
    const bool refused = answer->stop == NIBL_OUT_OF_RANGE, ran = answer->steps > 0;
    switch (FAULT) {
        case 1: if (!refused && lent->input_len > 0) sink = lent->input[lent->input_len]; break;
        case 2: if (!refused) lent->page[-1] = 0; break;
        case 3: if (!refused && lent->output_len > 0) lent->output[lent->output_len] = 0; break;
        case 4: if (!refused && lent->input_len > 0) *(uint8_t *)(uintptr_t)lent->input = 'A'; break;
        case 5: if (ran) take_stack(); break;
        case 6: if (ran && answer->outpos < lent->output_len) lent->output[answer->outpos] ^= 1; break;
        case 7: if (answer->stop == NIBL_BAD_RECORD) lent->record->vars[3]++; break;
        case 8: if (!refused && call->tabled && lent->table[0] == 3) lent->table[2]++; break;
        case 9: if (ran && call->tabled) lent->record->flags ^= 1; break;
        case 10: if (ran) memset(lent->record + 1, 0, 1); break;
        case 11: if (ran) answer->inpos = lent->input_len + 1; break;
        case 12: if (answer->stop == NIBL_BAD_TABLE) answer->stop = NIBL_DONE; break;
        case 13: if (refused && lent->memory_len > NIBL_MEMORY_MOST) sink = lent->memory[0]; break;
        case 14: if (answer->stop == NIBL_PAUSED) answer->stop = 21; break;
        default: break;
    }
}

#define CALL(name, right)                                                                                                          \
    void name(nibl_record *record, uint8_t *page, nibl_size page_len, uint8_t *memory, nibl_size memory_len, const uint8_t *input, \
              nibl_size input_len, uint8_t *output, nibl_size output_len, const nibl_call *call, nibl_answer *answer,              \
              uint16_t *table, nibl_size table_len) {                                                                              \
        const nibl_lent lent = {record, page, page_len, memory, memory_len, input, input_len, output, output_len, table, table_len}; \
        wrong(right, &lent, call, answer);                                                                                         \
    }
CALL(nibl_take_line, nibl_right_take_line)
CALL(nibl_continue_run, nibl_right_continue_run)
