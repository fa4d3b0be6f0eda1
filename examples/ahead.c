/* Walks the tokens of a source call by call: each as it comes, then back to the first without losing one, and a look ahead.
 * SPDX-License-Identifier: BSD-3-Clause */
#include "warpthistle.h"
#include <stdio.h>

static const uint8_t src[] = "rule till { condition: true }";
#define LEN (sizeof src - 1)
#define ROOM (WARPTHISTLE_TOKEN_NUMBERS * LEN) /* as many slots as bytes: no call is refused for want of room */
#define WINDOW &window, src, LEN, room, ROOM   /* what each call is lent */

int main(void) {
    static uint32_t room[ROOM];
    warpthistle_window window;
    warpthistle_token token;
    uint32_t start;
    if (warpthistle_window_open(WINDOW) != WARPTHISTLE_STATUS_DONE ||
        warpthistle_window_bookmark(WINDOW, &start) != WARPTHISTLE_STATUS_DONE) {
        return 1;
    }
    while (warpthistle_window_next_token(WINDOW, &token) == WARPTHISTLE_STATUS_FOUND) {
        printf("%u %u..%u\n", token.kind, token.start, token.end);
    }
    warpthistle_window_restore_bookmark(WINDOW, start); /* back to the first token */
    warpthistle_window_remove_bookmark(WINDOW, start);
    if (warpthistle_window_peek_token(WINDOW, 2, &token) == WARPTHISTLE_STATUS_FOUND && token.kind == WARPTHISTLE_KIND_IDENT) {
        printf("the rule is %.*s\n", (int)(token.end - token.start), (const char *)src + token.start);
    }
    return 0;
}
