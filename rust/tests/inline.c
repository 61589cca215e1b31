/* Prints what two functions of the header give: the sentence of each number up to 99 and of the largest, and the bank of each two swaps. */
#include <inttypes.h>
#include <stdio.h>

#include "yohrundel.h"

int main(void)
{
    const uint32_t swaps[] = {0, YOHRUNDEL_BFSWAP, YOHRUNDEL_PFSWAP, YOHRUNDEL_BFSWAP | YOHRUNDEL_PFSWAP};
    yohrundel_device d = {0};
    for (uint32_t number = 0; number < 100; number++)
        puts(yohrundel_decline_text(number));
    puts(yohrundel_decline_text(UINT32_MAX));
    for (int i = 0; i < 4; i++) {
        d.nvmcon = swaps[i];
        printf("%" PRIu32 "\n", yohrundel_running_bank(d));
    }
    return 0;
}
