/* Lists the tokens of a source through the static library: kind, start and end of each. */
#include "rattle.h"
#include <stdio.h>

int main(void) {
    static uint32_t out[3 * 65535]; /* no source has more tokens than bytes */
    static const uint8_t src[] = "x=1KB\n";
    uint32_t count;
    uint32_t refusal = rattle_tokens(src, sizeof src - 1, 0, RATTLE_NORMAL, out, sizeof out / sizeof *out, &count);
    if (refusal != 0) {
        printf("refused %u\n", refusal);
        return 1;
    }
    for (uint32_t i = 0; i < count; i++) {
        printf("%u %u %u\n", out[3 * i], out[3 * i + 1], out[3 * i + 2]);
    }
    return 0;
}
