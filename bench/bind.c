/* BIND's reader and printer. */

#include "peer.h"

#include <dns/callbacks.h>
#include <dns/fixedname.h>
#include <dns/name.h>
#include <dns/rdata.h>
#include <isc/buffer.h>
#include <isc/lex.h>
#include <isc/mem.h>

static isc_mem_t *memory;

static void start(void) {
    isc_mem_create(&memory);
}

static long show(uint16_t type, const uint8_t *data, size_t len, char *text) {
    dns_rdata_t record = DNS_RDATA_INIT;
    isc_region_t region = {.base = (unsigned char *)data, .length = len};
    dns_rdata_fromregion(&record, dns_rdataclass_in, type, &region);
    isc_buffer_t target;
    isc_buffer_init(&target, text, ROOM);
    if (dns_rdata_totext(&record, NULL, &target) != ISC_R_SUCCESS) return -1;
    return isc_buffer_usedlength(&target);
}

static long scan(uint16_t type, const char *kind, const char *line, uint8_t *data) {
    (void)kind;
    isc_buffer_t source, target;
    isc_buffer_constinit(&source, line, strlen(line));
    isc_buffer_add(&source, strlen(line));
    isc_lex_t *lexer = NULL;
    isc_lexspecials_t specials = {['('] = 1, [')'] = 1, ['"'] = 1};
    isc_lex_create(memory, ROOM, &lexer);
    isc_lex_setspecials(lexer, specials);
    isc_lex_setcomments(lexer, ISC_LEXCOMMENT_DNSMASTERFILE);
    if (isc_lex_openbuffer(lexer, &source) != ISC_R_SUCCESS) return -1;
    isc_buffer_init(&target, data, ROOM);
    dns_rdatacallbacks_t callbacks;
    dns_rdatacallbacks_init(&callbacks);
    dns_rdata_t record = DNS_RDATA_INIT;
    isc_result_t result = dns_rdata_fromtext(
        &record, dns_rdataclass_in, type, lexer, dns_rootname, 0, memory, &target, &callbacks);
    return result == ISC_R_SUCCESS ? (long)record.length : -1;
}
