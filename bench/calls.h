/* What bench/calls.c asks of the machine that it runs on. */
#include <stddef.h>

#include "nibl_host.h"

/* Makes the call by `measured`, and writes a row: what it took, what it answered, and what it is. */
void show(const char *what, nibl_entry *entry, const nibl_lent *lent, nibl_call call);

/* Of bench/calls.c: makes the call; and all rows in order. */
nibl_answer measured(nibl_entry *entry, const nibl_lent *lent, nibl_call call);
void all_rows(void);
