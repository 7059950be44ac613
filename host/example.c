#include <stdio.h>
#include "wrackpulley.h"
int main(void) { /* a gateway without devices: blocks of bytes in, replies out */
    static uint8_t block[THA_BLOCK], replies[THA_BLOCK];
    tha_blocked r = {.gateway = tha_fresh(116, 1)};
    for (size_t n; (n = fread(block, 1, sizeof block, stdin)) > 0;) {
        for (size_t at = 0; at < n; at += r.used) { /* once more where the area was full */
            r = tha_block(r.gateway, THA_CONTROLLER, block + at, n - at, replies, sizeof replies);
            fwrite(replies, 1, r.written, stdout);
        }
    }
}
