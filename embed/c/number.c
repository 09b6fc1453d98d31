/* Every call of the header, by its plain name, and the archive's number, which is to be the header's. */
#include "nibl.h"

int main(void) {
    static uint8_t page[NIBL_PAGE_MOST] = {NIBL_END_MARK, NIBL_END_MARK};
    static const uint8_t input[] = "NEW\r";
    static nibl_record record;
    const nibl_call call = {0};
    nibl_answer answer;
    nibl_take_line(&record, page, sizeof page, NULL, 0, input, sizeof input - 1, NULL, 0, &call, &answer, NULL, 0);
    if (answer.stop != NIBL_DONE || answer.inpos != sizeof input - 1)
        return 1;
    nibl_continue_run(&record, page, sizeof page, NULL, 0, NULL, 0, NULL, 0, &call, &answer, NULL, 0);
    return answer.stop != NIBL_DONE || nibl_version != NIBL_VERSION;
}
