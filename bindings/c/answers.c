/* Answers lines `show TYPE OCTETS` and `scan TYPE OCTETS` from standard input, type numbers in decimal and octets in
   hexadecimal: with the text, or with the octets in hexadecimal, or with `error: ` and the fault. */

#include <hollywhist.h>
#include <stdio.h>
#include <stdlib.h>
#include <string.h>

static char line[600000];
static uint8_t given[300000], target[400000];

static int digit(char c) {
    return c <= '9' ? c - '0' : c - 'a' + 10;
}

int main(void) {
    while (fgets(line, sizeof line, stdin) != NULL) {
        char *end;
        uint16_t rtype = (uint16_t)strtoul(line + 5, &end, 10);
        const char *digits = *end == ' ' ? end + 1 : end;
        size_t len = 0, written = 0;
        for (; digits[2 * len] > ' '; len++)
            given[len] = (uint8_t)(16 * digit(digits[2 * len]) + digit(digits[2 * len + 1]));

        int is_show = line[1] == 'h';
        uint32_t status = is_show ? hw_rr_text(rtype, given, len, 0, len, target, sizeof target, &written)
                                  : hw_rr_scan(rtype, given, len, target, sizeof target, &written);
        if (status != HW_OK) {
            hw_status_text(status, target, sizeof target, &written);
            printf("error: %.*s\n", (int)written, (const char *)target);
        } else if (is_show) {
            printf("%.*s\n", (int)written, (const char *)target);
        } else {
            for (size_t i = 0; i < written; i++)
                printf("%02x", target[i]);
            printf("\n");
        }
    }
    return 0;
}
