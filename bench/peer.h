/* The frame of a peer: `PEER show TYPE` and `PEER scan TYPE` with the input and output of svcbedit, over one library.
   An empty input has it begin the library and end. */

#include <stdint.h>
#include <stdio.h>
#include <stdlib.h>
#include <string.h>

enum { ROOM = 1 << 20 };

/* What a peer defines. `show` and `scan` give the length of what they write, or -1. */
static void start(void);
static long show(uint16_t type, const uint8_t *data, size_t len, char *text);
static long scan(uint16_t type, const char *kind, const char *text, uint8_t *data);

static char input[ROOM];
static char text[2 * ROOM];
static uint8_t octets[ROOM];

static uint16_t type_of(const char *kind) {
    static const struct { const char *name; uint16_t number; } types[] = {
        {"a", 1}, {"ipseckey", 45}, {"tlsa", 52}, {"openpgpkey", 61}, {"zonemd", 63}, {"svcb", 64}, {"https", 65},
    };
    for (size_t i = 0; i < sizeof types / sizeof *types; i++)
        if (strcmp(kind, types[i].name) == 0) return types[i].number;
    exit(1);
}

static int digit(char c) {
    if (c >= '0' && c <= '9') return c - '0';
    if (c >= 'a' && c <= 'f') return c - 'a' + 10;
    return c >= 'A' && c <= 'F' ? c - 'A' + 10 : -1;
}

static int run_show(const char *kind) {
    size_t n = 0;
    for (const char *c = input; digit(c[0]) >= 0 && digit(c[1]) >= 0; c += 2)
        octets[n++] = digit(c[0]) << 4 | digit(c[1]);
    long len = show(type_of(kind), octets, n, text);
    if (len < 0) return 3;
    text[len] = '\n';
    return fwrite(text, 1, len + 1, stdout) == (size_t)len + 1 ? 0 : 5;
}

static int run_scan(const char *kind) {
    long len = scan(type_of(kind), kind, input, octets);
    if (len < 0) return 3;
    for (long i = 0; i < len; i++) {
        text[2 * i] = "0123456789abcdef"[octets[i] >> 4];
        text[2 * i + 1] = "0123456789abcdef"[octets[i] & 15];
    }
    text[2 * len] = '\n';
    return fwrite(text, 1, 2 * len + 1, stdout) == 2 * (size_t)len + 1 ? 0 : 5;
}

int main(int argc, char **argv) {
    start();
    if (argc < 3) return 1;
    if (fread(input, 1, ROOM - 1, stdin) == 0) return 3;
    return strcmp(argv[1], "show") == 0 ? run_show(argv[2]) : run_scan(argv[2]);
}
