/* ldns's reader and printer. */

#include "peer.h"

#include <ldns/ldns.h>

static void start(void) {}

static long show(uint16_t type, const uint8_t *data, size_t len, char *text) {
    static uint8_t wire[ROOM + 11];
    const uint8_t head[11] = {0, type >> 8, type, 0, 1, 0, 0, 14, 16, len >> 8, len};
    memcpy(wire, head, sizeof head);
    memcpy(wire + sizeof head, data, len);
    ldns_rr *record;
    size_t at = 0;
    if (ldns_wire2rr(&record, wire, sizeof head + len, &at, LDNS_SECTION_ANSWER) != LDNS_STATUS_OK) return -1;
    ldns_buffer *buffer = ldns_buffer_new(ROOM);
    for (size_t i = 0; i < ldns_rr_rd_count(record); i++) {
        if (i > 0) ldns_buffer_write_u8(buffer, ' ');
        if (ldns_rdf2buffer_str(buffer, ldns_rr_rdf(record, i)) != LDNS_STATUS_OK) return -1;
    }
    memcpy(text, ldns_buffer_begin(buffer), ldns_buffer_position(buffer));
    return ldns_buffer_position(buffer);
}

static long scan(uint16_t type, const char *kind, const char *line, uint8_t *data) {
    static char entry[ROOM + 64];
    (void)type;
    snprintf(entry, sizeof entry, ". 3600 IN %s %s", kind, line);
    ldns_rr *record;
    if (ldns_rr_new_frm_str(&record, entry, 3600, NULL, NULL) != LDNS_STATUS_OK) return -1;
    size_t len = 0;
    for (size_t i = 0; i < ldns_rr_rd_count(record); i++) {
        ldns_rdf *field = ldns_rr_rdf(record, i);
        memcpy(data + len, ldns_rdf_data(field), ldns_rdf_size(field));
        len += ldns_rdf_size(field);
    }
    return len;
}
