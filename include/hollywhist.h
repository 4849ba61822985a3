/* Hollywhist: the data of SVCB, HTTPS and other DNS records as octets and as text.

   Each call answers a status, HW_OK where it did what it says. Each tests the numbers that it is given: whatever they
   are, the answer is defined. Its contract is proved up to the exported symbol; this header is plain code.

   What is asked of the caller, and tested by nothing:

   - A pointer is aligned, and good for as many items as the count behind it says. It may be NULL where that count is 0.
   - What a call writes (target, replies, written, record, param, port, number, item, order, owner, outcome) overlaps
     nothing else that the call is given, and holds something: zero it, or have written it before.
   - No other thread writes what a call reads, or touches what it writes, while the call runs.
   - malloc, realloc and free are one allocator. hw_rr_text, hw_rr_scan, hw_rr_canonical_cmp, hw_svcb_rebuild,
     hw_name_text, hw_name_scan, hw_svcb_choose, hw_cds_check and hw_zonemd_check call them: not from a signal handler,
     nor in the forked child of a process with threads. The other calls take no memory.

   The library has no state, keeps no pointer, hands out none, and starts nothing: any number of threads may call it at
   once. There is nothing to free.

   A call that writes octets or a text into `target` writes no NUL, writes the count into *written, and leaves what
   stands behind it. Where the room is too short it answers HW_E_ROOM and writes the count that is needed into *written:
   call again with that much. After any other answer than HW_OK the buffers are as they were; *written is to be read at
   HW_OK and HW_E_ROOM alone. */
#ifndef HOLLYWHIST_H
#define HOLLYWHIST_H

#include <stddef.h>
#include <stdint.h>

#ifdef __cplusplus
extern "C" {
#endif

/* ---- statuses: none is ever given another meaning, and new ones come behind */

enum {
    /* Done. */
    HW_OK = 0,
    /* The place is not within the message. */
    HW_E_PLACE = 1,
    /* Octets are missing. */
    HW_E_SHORT = 2,
    /* An octet, a length, a pointer or two keys are not allowed, or octets are left behind the data. */
    HW_E_FORM = 3,
    /* The caller's buffer is too short. */
    HW_E_ROOM = 4,
    /* The parameters that were read exceed the limit. */
    HW_E_LIMIT = 5,
    /* The result would exceed 65,535 octets. */
    HW_E_TOO_LONG = 6,
    /* An argument is out of its bounds. */
    HW_E_ARGUMENT = 7,
    /* Memory is wanting. */
    HW_E_MEMORY = 8,
    /* There is no further parameter, and no further item of a value. */
    HW_END = 9,
    /* The type's data has names, which this library doesn't read yet. */
    HW_E_TYPE = 10,

    /* the first fault of a text */

    /* A token was asked for, and none was left. */
    HW_S_END_OF_ENTRY = 64,
    /* An octet that no text may have at its place. */
    HW_S_BAD_SYMBOL = 65,
    /* A backslash with no escape behind it. */
    HW_S_BAD_ESCAPE = 66,
    /* The text ends within quotes. */
    HW_S_OPEN_QUOTE = 67,
    /* A closing bracket with no opening one, or the text ends within brackets. */
    HW_S_BAD_BRACKET = 68,
    /* The token is no number text in range, or a count isn't that of the octets behind it. */
    HW_S_BAD_NUMBER = 69,
    /* The token is no name text. */
    HW_S_BAD_NAME = 70,
    /* The token is no address text. */
    HW_S_BAD_ADDRESS = 71,
    /* The tokens joined are no base64 text. */
    HW_S_BAD_BASE64 = 72,
    /* The tokens joined are no base16 text. */
    HW_S_BAD_BASE16 = 73,
    /* A parameter's token has no octets. */
    HW_S_EMPTY_PARAM = 74,
    /* An octet that no key of a parameter may have. */
    HW_S_BAD_KEY_CHAR = 75,
    /* A text that names no key. */
    HW_S_UNKNOWN_KEY = 76,
    /* A parameter without the value that its key asks for. */
    HW_S_MISSING_VALUE = 77,
    /* A parameter with a value that its key doesn't take. */
    HW_S_UNEXPECTED_VALUE = 78,
    /* A backslash in a list where it may not stand. */
    HW_S_BAD_LIST_ESCAPE = 79,
    /* An item of a list without octets. */
    HW_S_EMPTY_ITEM = 80,
    /* An item of a list with more octets than it may have. */
    HW_S_LONG_ITEM = 81,
    /* A value that is no port. */
    HW_S_BAD_PORT = 82,
    /* The key `mandatory` in its own list. */
    HW_S_KEY_ZERO_IN_MANDATORY = 83,
    /* An item that stands twice in a list. */
    HW_S_DUPLICATE_ITEM = 84,
    /* A key that two parameters have. */
    HW_S_DUPLICATE_KEY = 85,
    /* A key that is mandatory and that no parameter has. */
    HW_S_MANDATORY_MISSING = 86,
    /* A value that is no UTF-8. */
    HW_S_BAD_UTF8 = 87,
    /* A value of more than 65,535 octets. */
    HW_S_LONG_VALUE = 88,
    /* Record data of more than 65,535 octets. */
    HW_S_LONG_RECORD = 89,
    /* A gateway that isn't of the type that was given. */
    HW_S_WRONG_GATEWAY = 90,
    /* A type of gateways that is not known. */
    HW_S_UNKNOWN_GATEWAY = 91,
    /* A key that must be there is missing. */
    HW_S_MISSING_KEY = 92,
    /* A record type whose data has no text of its own. */
    HW_S_UNKNOWN_TYPE = 93,
    /* Something is left behind the entry, or a token behind the data. */
    HW_S_TRAILING_TOKENS = 94,
};

/* The version of the library: 10,000 times its first number, 100 times the second, and the third. */
uint32_t hw_version(void);

/* A status in a few words of ASCII. HW_E_ARGUMENT: no call answers this status. */
uint32_t hw_status_text(uint32_t status, uint8_t *target, size_t target_room, size_t *written);

/* ---- messages */

/* The header of a message, and where its records begin. */
typedef struct {
    uint16_t id;
    uint16_t flags; /* the 16 bits behind the id, from qr to rcode */
    uint16_t qdcount;
    uint16_t ancount;
    uint16_t nscount;
    uint16_t arcount;
    size_t records_start; /* the place behind the questions */
} hw_message;

/* A record in a message. */
typedef struct {
    uint16_t rtype;
    uint16_t rclass;
    uint32_t ttl;
    size_t owner_len; /* the octets of the owner, uncompressed */
    size_t data_start; /* the place of the data */
    size_t data_len;
    size_t next; /* the place behind the record */
} hw_record;

/* The header of a message, and the place behind its questions. HW_E_SHORT: there are fewer than 12 octets.
   HW_E_SHORT, HW_E_FORM: the first fault of a question. */
uint32_t hw_message_begin(const uint8_t *message, size_t message_len, hw_message *begun);

/* The record at a place in a message, and its owner uncompressed in the buffer `owner`, where 255 octets are always
   enough. The first record stands at records_start, each other at `next` of the one before it; there are ancount +
   nscount + arcount of them. HW_E_PLACE: the place is outside the message. HW_E_SHORT, HW_E_FORM: the record's first
   fault. HW_E_ROOM: the owner is longer than its buffer. */
uint32_t hw_message_next(const uint8_t *message, size_t message_len, size_t pos,
                         uint8_t *owner, size_t owner_room, hw_record *record);

/* ---- records of any type */

/* The text of the record data in the `len` octets from `start` on in a message, under the number of a type. Names in it
   are followed through the whole message, and stand in the text uncompressed. HW_E_PLACE: the data isn't within the
   message. HW_E_TYPE: the type's data has names, which aren't read yet: NS, MD, MF, CNAME, SOA, MB, MG, MR, PTR, MINFO,
   MX, RP, AFSDB, RT, SIG, PX, NXT, SRV, NAPTR, KX, A6, DNAME and RRSIG. HW_E_SHORT, HW_E_FORM: its first fault. */
uint32_t hw_rr_text(uint16_t rtype, const uint8_t *message, size_t message_len, size_t start, size_t len,
                    uint8_t *target, size_t target_room, size_t *written);

/* The octets of the record data that the text of one entry of a zone file spells, behind the type: at most 65,535. The
   first fault of the text has a status from HW_S_END_OF_ENTRY on. */
uint32_t hw_rr_scan(uint16_t rtype, const uint8_t *text, size_t text_len,
                    uint8_t *target, size_t target_room, size_t *written);

/* The canonical order (RFC 4034, section 6.3) of the data of two records of one type: *order is 0 where the first
   stands before the second, 1 where they are the same, 2 where it stands behind. HW_E_TYPE: as in
   hw_rr_text. HW_E_SHORT, HW_E_FORM: the first fault of the first data, or else of the second. */
uint32_t hw_rr_canonical_cmp(uint16_t rtype, const uint8_t *first, size_t first_len,
                             const uint8_t *second, size_t second_len, uint32_t *order);

/* ---- SVCB and HTTPS */

/* What was read of the data of an SVCB or HTTPS record. */
typedef struct {
    uint16_t priority;
    uint16_t target_len; /* the octets of the target, uncompressed */
    uint32_t params_count;
    size_t params_start; /* the place of the first parameter in the message */
} svcb_record;

/* A parameter: its value stands in the `len` octets from `start` on. */
typedef struct {
    uint16_t key;
    uint16_t len;
    size_t start;
} svcb_param;

/* A parameter that is to be added; `start` counts in the octets of all values. */
typedef svcb_param svcb_push;

/* Reads the data of an SVCB or HTTPS record in the `len` octets from `start` on in a message, and writes its target
   uncompressed into the buffer, where 255 octets are always enough. HW_E_PLACE, HW_E_SHORT, HW_E_FORM as in hw_rr_text;
   HW_E_ROOM: the target is longer than its buffer. */
uint32_t hw_svcb_read(const uint8_t *message, size_t message_len, size_t start, size_t len,
                      uint8_t *target, size_t target_room, svcb_record *record);

/* The parameter at a place, where the data ends at `end`, which is start + len of hw_svcb_read. The first one stands at
   params_start, each other at start + len of the one before it. HW_END: there is no further parameter. */
uint32_t hw_svcb_next(const uint8_t *message, size_t message_len, size_t end, size_t pos, svcb_param *param);

/* The data of an SVCB or HTTPS record with parameters added, its target uncompressed: the pushes are tried in order
   within a limit on the octets of all parameters in wire form, which is below 2^31. The replies have an octet for each
   push: 0 accepted, 1 its key is there already, 2 over the limit. HW_E_ARGUMENT: the limit is 2^31 or more, there are
   fewer replies than pushes, or the octets that a push names are not there. HW_E_LIMIT: the parameters that were read
   have more octets than the limit. HW_E_TOO_LONG: the result would have more than 65,535 octets. */
uint32_t hw_svcb_rebuild(const uint8_t *message, size_t message_len, size_t start, size_t len,
                         const svcb_push *pushes, size_t push_count, const uint8_t *octets, size_t octets_len,
                         size_t limit, uint8_t *target, size_t target_room,
                         uint8_t *replies, size_t replies_room, size_t *written);

/* ---- the value of a parameter

   Each call reads the octets of one value, which stand in the `len` octets from `start` on of its svcb_param. The calls
   on items have no state: the first item stands at 0, and each other behind the one before it. HW_END: there is no
   further item. HW_E_PLACE: the place is outside the value. */

/* An item in a value: its octets are the `len` octets from `start` on, and the next item stands at start + len. */
typedef struct {
    size_t start;
    size_t len;
} hw_item;

/* The port of a `port` parameter (RFC 9460, section 7.2). HW_E_SHORT, HW_E_FORM: there are fewer octets than two, or
   more. */
uint32_t hw_param_port(const uint8_t *value, size_t value_len, uint16_t *port);

/* The key of a `mandatory` parameter or the group of a `tls-supported-groups` parameter at a place. The next one stands
   at pos + 2. HW_E_FORM: only one octet is left. */
uint32_t hw_param_number_next(const uint8_t *value, size_t value_len, size_t pos, uint16_t *number);

/* The address of `len` octets at a place in the value of an `ipv4hint` (4) or `ipv6hint` (16) parameter. HW_E_FORM:
   fewer octets are left. HW_E_ARGUMENT: `len` is neither 4 nor 16. */
uint32_t hw_param_address_next(const uint8_t *value, size_t value_len, size_t len, size_t pos, hw_item *item);

/* The protocol at a place in the value of an `alpn` parameter, without the octet of its length. HW_E_SHORT: it is cut
   off. */
uint32_t hw_param_alpn_next(const uint8_t *value, size_t value_len, size_t pos, hw_item *item);

/* ---- names */

/* The text of the name that octets wholly are, uncompressed, with its final dot: at most 1,004 octets. HW_E_SHORT,
   HW_E_FORM: the first fault of the octets. */
uint32_t hw_name_text(const uint8_t *octets, size_t octets_len, uint8_t *target, size_t target_room, size_t *written);

/* The octets, uncompressed, of the name that a text spells: at most 255. It is absolute, with its final dot or without.
   HW_S_BAD_NAME: it is no name text, or not the only token. */
uint32_t hw_name_scan(const uint8_t *text, size_t text_len, uint8_t *target, size_t target_room, size_t *written);

/* ---- checks of records that lines spell

   Each answers with lines of text. *outcome is 0 where the check was made, and 2 where it was refused: a line has a
   fault of form, or the records are out of order; the text says which. Below, HEX is the data of a record in
   hexadecimal, its names uncompressed. */

/* The endpoints that a client chooses for an owner from its SVCB or HTTPS records (RFC 9460, sections 2.4 and 2.5).
   Line 1 is the owner, line 2 the keys that the client understands, with commas between them, or `-`, line 3 the
   protocols that the scheme has by itself, or `-`, and each other line the HEX of a record, by ascending priority. */
uint32_t hw_svcb_choose(const uint8_t *lines, size_t lines_len, uint8_t *target, size_t target_room, size_t *written,
                     uint32_t *outcome);

/* Whether the CDS and CDNSKEY records of an owner ask the parent zone for the same keys (RFC 7344, section 4). Line 1
   is the owner; each other line is `cds HEX` or `cdnskey HEX`. */
uint32_t hw_cds_check(const uint8_t *lines, size_t lines_len, uint8_t *target, size_t target_room, size_t *written,
                   uint32_t *outcome);

/* Whether a zone has the digest of its ZONEMD record (RFC 8976, section 4). Line 1 is the apex, line 2 the HEX of the
   ZONEMD record, and each other line a record of the zone in canonical order: owner, the numbers of type and class,
   TTL, and HEX. */
uint32_t hw_zonemd_check(const uint8_t *lines, size_t lines_len, uint8_t *target, size_t target_room, size_t *written,
                      uint32_t *outcome);

/* ---- NULL: the library is never given it. These put an address in its place, where the count behind it is 0. */

static inline const uint8_t *hw_input(const uint8_t *octets) {
    return octets != NULL ? octets : (const uint8_t *)"";
}

static inline uint8_t *hw_output(uint8_t *octets) {
    static uint8_t none;
    return octets != NULL ? octets : &none;
}

static inline const svcb_push *hw_pushes(const svcb_push *pushes) {
    static const svcb_push none = {0, 0, 0};
    return pushes != NULL ? pushes : &none;
}

#define hw_status_text(status, target, target_room, written) \
    hw_status_text((status), hw_output(target), (target_room), (written))
#define hw_message_begin(message, message_len, begun) hw_message_begin(hw_input(message), (message_len), (begun))
#define hw_message_next(message, message_len, pos, owner, owner_room, record) \
    hw_message_next(hw_input(message), (message_len), (pos), hw_output(owner), (owner_room), (record))
#define hw_rr_text(rtype, message, message_len, start, len, target, target_room, written) \
    hw_rr_text((rtype), hw_input(message), (message_len), (start), (len), hw_output(target), (target_room), (written))
#define hw_rr_scan(rtype, text, text_len, target, target_room, written) \
    hw_rr_scan((rtype), hw_input(text), (text_len), hw_output(target), (target_room), (written))
#define hw_rr_canonical_cmp(rtype, first, first_len, second, second_len, order) \
    hw_rr_canonical_cmp((rtype), hw_input(first), (first_len), hw_input(second), (second_len), (order))
#define hw_svcb_read(message, message_len, start, len, target, target_room, record) \
    hw_svcb_read(hw_input(message), (message_len), (start), (len), hw_output(target), (target_room), (record))
#define hw_svcb_next(message, message_len, end, pos, param) \
    hw_svcb_next(hw_input(message), (message_len), (end), (pos), (param))
#define hw_svcb_rebuild(message, message_len, start, len, pushes, push_count, octets, octets_len, limit, target, \
                     target_room, replies, replies_room, written) \
    hw_svcb_rebuild(hw_input(message), (message_len), (start), (len), hw_pushes(pushes), (push_count), \
                 hw_input(octets), (octets_len), (limit), hw_output(target), (target_room), \
                 hw_output(replies), (replies_room), (written))

#define hw_svcb_choose(lines, lines_len, target, target_room, written, outcome) \
    hw_svcb_choose(hw_input(lines), (lines_len), hw_output(target), (target_room), (written), (outcome))
#define hw_cds_check(lines, lines_len, target, target_room, written, outcome) \
    hw_cds_check(hw_input(lines), (lines_len), hw_output(target), (target_room), (written), (outcome))
#define hw_zonemd_check(lines, lines_len, target, target_room, written, outcome) \
    hw_zonemd_check(hw_input(lines), (lines_len), hw_output(target), (target_room), (written), (outcome))

#define hw_param_port(value, value_len, port) hw_param_port(hw_input(value), (value_len), (port))
#define hw_param_number_next(value, value_len, pos, number) \
    hw_param_number_next(hw_input(value), (value_len), (pos), (number))
#define hw_param_address_next(value, value_len, len, pos, item) \
    hw_param_address_next(hw_input(value), (value_len), (len), (pos), (item))
#define hw_param_alpn_next(value, value_len, pos, item) \
    hw_param_alpn_next(hw_input(value), (value_len), (pos), (item))
#define hw_name_text(octets, octets_len, target, target_room, written) \
    hw_name_text(hw_input(octets), (octets_len), hw_output(target), (target_room), (written))
#define hw_name_scan(text, text_len, target, target_room, written) \
    hw_name_scan(hw_input(text), (text_len), hw_output(target), (target_room), (written))

/* The names that the calls had in version 0.1. They go with version 0.3; define HW_NO_OLD_NAMES to be without them. */
#ifndef HW_NO_OLD_NAMES
#define rr_text hw_rr_text
#define rr_scan hw_rr_scan
#define rr_canonical_cmp hw_rr_canonical_cmp
#define svcb_read hw_svcb_read
#define svcb_next hw_svcb_next
#define svcb_rebuild hw_svcb_rebuild
#define svcb_choose hw_svcb_choose
#define cds_check hw_cds_check
#define zonemd_check hw_zonemd_check
#endif

/* How each structure lies in memory, as the library has it. */
#if defined(__cplusplus)
#define HW_LAYOUT(fact) static_assert(fact, "hollywhist.h")
#else
#define HW_LAYOUT(fact) _Static_assert(fact, "hollywhist.h")
#endif
#if !defined(__cplusplus) || __cplusplus >= 201103L
HW_LAYOUT(sizeof(size_t) == 8);
HW_LAYOUT(sizeof(hw_message) == 24 && offsetof(hw_message, records_start) == 16);
HW_LAYOUT(sizeof(hw_record) == 40 && offsetof(hw_record, owner_len) == 8 && offsetof(hw_record, next) == 32);
HW_LAYOUT(sizeof(svcb_record) == 16 && offsetof(svcb_record, params_start) == 8);
HW_LAYOUT(sizeof(svcb_param) == 16 && offsetof(svcb_param, start) == 8);
HW_LAYOUT(sizeof(hw_item) == 16 && offsetof(hw_item, len) == 8);
#endif

#ifdef __cplusplus
}
#endif
#endif
