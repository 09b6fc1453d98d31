/*
 * bench/calls.c on this machine: each row is timed, the least of many; with a word on the command line each call is made
 * once, for valgrind to count.
 */
#include <stdio.h>
#include <time.h>

#include "calls.h"

static int times = 300;
static nibl_kept kept;
static uint8_t memory[NIBL_MEMORY_MOST];

static double nanoseconds(void) {
    struct timespec now;
    clock_gettime(CLOCK_MONOTONIC, &now);
    return (double)now.tv_sec * 1e9 + (double)now.tv_nsec;
}

void show(const char *what, nibl_entry *entry, const nibl_lent *lent, nibl_call call) {
    double least = 1e12;
    nibl_answer answer = {0};
    nibl_host_keep(&kept, lent);
    for (int time = 0; time < times; time++) {
        nibl_host_put_back(&kept, lent);
        double took = nanoseconds();
        answer = measured(entry, lent, call);
        took = nanoseconds() - took;
        if (took < least)
            least = took;
    }
    printf("%.0f %d %s\n", least, answer.stop, what);
}

int main(int count, char **words) {
    (void)words;
    if (count > 1)
        times = 1;
    kept.memory = memory;
    all_rows();
    return 0;
}
