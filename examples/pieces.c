/* Lists the tokens of a source in pieces, with room for four at a time: kind, start and end of each, and where each piece ends.
 * SPDX-License-Identifier: BSD-3-Clause */
#include "warpthistle.h"
#include <stdio.h>

int main(void) {
    static const uint8_t src[] = "rule till { condition: true }";
    uint32_t piece[4 * WARPTHISTLE_TOKEN_NUMBERS], place = 0, mode = WARPTHISTLE_MODE_NORMAL, count;
    if (warpthistle_version() / 1000 != WARPTHISTLE_VERSION / 1000) {
        fprintf(stderr, "the library's version, %u, is not the header's\n", warpthistle_version());
        return 1;
    }
    while (warpthistle_some_tokens(src, sizeof src - 1, &place, &mode, piece, sizeof piece / sizeof *piece, &count) ==
               WARPTHISTLE_STATUS_DONE &&
           count > 0) {
        for (uint32_t i = 0; i < count; i++) {
            printf("%u %u %u\n", piece[3 * i], piece[3 * i + 1], piece[3 * i + 2]);
        }
        printf("up to %u, in mode %u\n", place, mode);
    }
    return 0;
}
