/* The library for C, as scripts/build-library makes it in out/library. */

#include "peer.h"

#include <hollywhist.h>

static void start(void) {}

static long show(uint16_t type, const uint8_t *data, size_t len, char *text) {
    size_t count = 0;
    return rr_text(type, data, len, 0, len, (uint8_t *)text, ROOM, &count) == HW_OK ? (long)count : -1;
}

static long scan(uint16_t type, const char *kind, const char *line, uint8_t *data) {
    (void)kind;
    size_t count = 0;
    return rr_scan(type, (const uint8_t *)line, strlen(line), data, ROOM, &count) == HW_OK ? (long)count : -1;
}
