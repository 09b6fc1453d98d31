/* A host as it was written for the header beside it, interface 3: calls without a number in their names. It compiles with
 * that header, and must not link with an archive of today. */
#include "nibl.h"

int main(void) {
    static uint8_t page[NIBL_PAGE_MOST] = {NIBL_END_MARK, NIBL_END_MARK};
    static const uint8_t input[] = "NEW\r";
    static nibl_record record;
    const nibl_call call = {0};
    nibl_answer answer;
    nibl_take_line(&record, page, sizeof page, NULL, 0, input, sizeof input - 1, NULL, 0, &call, &answer, NULL, 0);
    nibl_continue_run(&record, page, sizeof page, NULL, 0, NULL, 0, NULL, 0, &call, &answer, NULL, 0);
    return answer.stop;
}
