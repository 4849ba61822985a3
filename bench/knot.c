/* libknot's printer, and the reader of its libzscanner. */

#include "peer.h"

#include <libknot/libknot.h>
#include <libzscanner/scanner.h>

static zs_scanner_t scanner;

static void start(void) {
    if (zs_init(&scanner, ".", 1, 3600) != 0) exit(6);
}

static long show(uint16_t type, const uint8_t *data, size_t len, char *text) {
    knot_rrset_t set;
    knot_rrset_init(&set, (knot_dname_t *)"", type, 1, 3600);
    if (knot_rrset_add_rdata(&set, data, len, NULL) != 0) return -1;
    return knot_rrset_txt_dump_data(&set, 0, text, ROOM, &KNOT_DUMP_STYLE_DEFAULT);
}

static long scan(uint16_t type, const char *kind, const char *line, uint8_t *data) {
    static char record[ROOM + 64];
    (void)type;
    int len = snprintf(record, sizeof record, ". 3600 IN %s %s\n", kind, line);
    if (zs_set_input_string(&scanner, record, len) != 0 || zs_parse_record(&scanner) != 0) return -1;
    if (scanner.state != ZS_STATE_DATA) return -1;
    memcpy(data, scanner.r_data, scanner.r_data_length);
    return scanner.r_data_length;
}
