/* Calls at their edges: NULL, counts of 0, places and lengths up to 2^64, room one short, octets behind what is due,
   and eight threads at once. What is expected was worked by hand from RFC 9460, RFC 1035 and the header. */

#include <hollywhist.h>
#include <pthread.h>
#include <stdio.h>
#include <stdlib.h>
#include <string.h>

static int failures;

#define EXPECT(fact)                                          \
    do {                                                      \
        if (!(fact)) {                                        \
            printf("line %d: expected %s\n", __LINE__, #fact); \
            failures++;                                       \
        }                                                     \
    } while (0)

enum { A = 1, OPENPGPKEY = 61, SVCB = 64, HTTPS = 65, UNASSIGNED = 999 };

/* Priority 1, the root as target, port 53. */
static const uint8_t DATA[] = {0, 1, 0, 0, 3, 0, 2, 0, 53};
static const char TEXT[] = "1 . port=53";

static const uint8_t *octets(const char *text) {
    return (const uint8_t *)text;
}

/* Whether all octets of a buffer are the same as one. */
static int all_are(const uint8_t *buffer, size_t len, uint8_t octet) {
    for (size_t i = 0; i < len; i++)
        if (buffer[i] != octet)
            return 0;
    return 1;
}

static void texts(void) {
    uint8_t shown[64];
    size_t len = 77;

    memset(shown, 0x5a, sizeof shown);
    EXPECT(hw_rr_text(HTTPS, DATA, sizeof DATA, 0, sizeof DATA, shown, sizeof shown, &len) == HW_OK);
    EXPECT(len == strlen(TEXT) && memcmp(shown, TEXT, len) == 0);
    EXPECT(all_are(shown + len, sizeof shown - len, 0x5a));

    /* exactly enough room, and one octet less */
    memset(shown, 0x5a, sizeof shown);
    EXPECT(hw_rr_text(HTTPS, DATA, sizeof DATA, 0, sizeof DATA, shown, strlen(TEXT), &len) == HW_OK);
    EXPECT(all_are(shown + strlen(TEXT), sizeof shown - strlen(TEXT), 0x5a));
    memset(shown, 0x5a, sizeof shown);
    len = 0;
    EXPECT(hw_rr_text(HTTPS, DATA, sizeof DATA, 0, sizeof DATA, shown, strlen(TEXT) - 1, &len) == HW_E_ROOM);
    EXPECT(len == strlen(TEXT) && all_are(shown, sizeof shown, 0x5a));
    len = 0;
    EXPECT(hw_rr_text(HTTPS, DATA, sizeof DATA, 0, sizeof DATA, NULL, 0, &len) == HW_E_ROOM && len == strlen(TEXT));

    /* no octets: some types have data of no octets, and others don't */
    EXPECT(hw_rr_text(HTTPS, NULL, 0, 0, 0, shown, sizeof shown, &len) == HW_E_SHORT);
    EXPECT(hw_rr_text(A, NULL, 0, 0, 0, shown, sizeof shown, &len) == HW_E_SHORT);
    EXPECT(hw_rr_text(UNASSIGNED, NULL, 0, 0, 0, shown, sizeof shown, &len) == HW_OK);
    EXPECT(len == 4 && memcmp(shown, "\\# 0", 4) == 0);

    /* places outside the message, and sums past 2^64 */
    memset(shown, 0x5a, sizeof shown);
    EXPECT(hw_rr_text(HTTPS, DATA, sizeof DATA, 0, sizeof DATA + 1, shown, sizeof shown, &len) == HW_E_PLACE);
    EXPECT(hw_rr_text(HTTPS, DATA, sizeof DATA, sizeof DATA + 1, 0, shown, sizeof shown, &len) == HW_E_PLACE);
    EXPECT(hw_rr_text(HTTPS, DATA, sizeof DATA, SIZE_MAX, 2, shown, sizeof shown, &len) == HW_E_PLACE);
    EXPECT(hw_rr_text(HTTPS, DATA, sizeof DATA, 2, SIZE_MAX, shown, sizeof shown, &len) == HW_E_PLACE);
    EXPECT(hw_rr_text(HTTPS, DATA, sizeof DATA, SIZE_MAX, SIZE_MAX, shown, sizeof shown, &len) == HW_E_PLACE);

    /* octets are left behind the data, or missing */
    EXPECT(hw_rr_text(A, octets("\1\2\3\4\5"), 5, 0, 5, shown, sizeof shown, &len) == HW_E_FORM);
    EXPECT(hw_rr_text(A, octets("\1\2\3\4\5"), 5, 0, 3, shown, sizeof shown, &len) == HW_E_SHORT);
    EXPECT(all_are(shown, sizeof shown, 0x5a));

    /* a compressed target, behind a name of the message */
    static const uint8_t message[] = {3, 'w', 'w', 'w', 0, 0, 1, 0xc0, 0};
    EXPECT(hw_rr_text(SVCB, message, sizeof message, 5, 4, shown, sizeof shown, &len) == HW_OK);
    EXPECT(len == 7 && memcmp(shown, "1 www. ", 7) == 0);

    /* 65,535 octets, and one more */
    uint8_t *long_data = calloc(65536, 1), *long_shown = calloc(200000, 1);
    if (long_data == NULL || long_shown == NULL)
        abort();
    EXPECT(hw_rr_text(UNASSIGNED, long_data, 65535, 0, 65535, long_shown, 200000, &len) == HW_OK);
    EXPECT(len == strlen("\\# 65535 ") + 2 * 65535);
    EXPECT(hw_rr_text(UNASSIGNED, long_data, 65536, 0, 65536, long_shown, 200000, &len) == HW_E_FORM);
    free(long_data);
    free(long_shown);
}

static void scans(void) {
    uint8_t data[64];
    size_t len = 77;

    memset(data, 0x5a, sizeof data);
    EXPECT(hw_rr_scan(HTTPS, octets(TEXT), strlen(TEXT), data, sizeof data, &len) == HW_OK);
    EXPECT(len == sizeof DATA && memcmp(data, DATA, len) == 0);
    EXPECT(all_are(data + len, sizeof data - len, 0x5a));

    memset(data, 0x5a, sizeof data);
    EXPECT(hw_rr_scan(HTTPS, octets(TEXT), strlen(TEXT), data, sizeof DATA - 1, &len) == HW_E_ROOM);
    EXPECT(len == sizeof DATA && all_are(data, sizeof data, 0x5a));

    /* faults of a text, each with its status */
    EXPECT(hw_rr_scan(HTTPS, NULL, 0, data, sizeof data, &len) == HW_S_END_OF_ENTRY);
    EXPECT(hw_rr_scan(HTTPS, octets("1 ."), 1, data, sizeof data, &len) == HW_S_END_OF_ENTRY);
    EXPECT(hw_rr_scan(HTTPS, octets("1 . port=x"), 10, data, sizeof data, &len) == HW_S_BAD_PORT);
    EXPECT(hw_rr_scan(HTTPS, octets("1 . port=1 port=2"), 17, data, sizeof data, &len) == HW_S_DUPLICATE_KEY);
    EXPECT(hw_rr_scan(HTTPS, octets("1 . mandatory=port"), 18, data, sizeof data, &len) == HW_S_MANDATORY_MISSING);
    EXPECT(hw_rr_scan(HTTPS, octets("65536 ."), 7, data, sizeof data, &len) == HW_S_BAD_NUMBER);
    EXPECT(hw_rr_scan(HTTPS, octets("1 . (port=1"), 11, data, sizeof data, &len) == HW_S_BAD_BRACKET);
    EXPECT(hw_rr_scan(HTTPS, octets("1 . \"port=1"), 11, data, sizeof data, &len) == HW_S_OPEN_QUOTE);
    EXPECT(hw_rr_scan(A, octets("192.0.2.1 x"), 11, data, sizeof data, &len) == HW_S_TRAILING_TOKENS);
    EXPECT(hw_rr_scan(A, octets("192.0.2"), 7, data, sizeof data, &len) == HW_S_BAD_ADDRESS);
    EXPECT(hw_rr_scan(UNASSIGNED, octets("x"), 1, data, sizeof data, &len) == HW_S_UNKNOWN_TYPE);
    EXPECT(all_are(data, sizeof data, 0x5a));
}

static void orders(void) {
    static const uint8_t low[] = {192, 0, 2, 1}, high[] = {192, 0, 2, 200};
    uint32_t order = 7;

    EXPECT(hw_rr_canonical_cmp(A, low, 4, high, 4, &order) == HW_OK && order == 0);
    EXPECT(hw_rr_canonical_cmp(A, low, 4, low, 4, &order) == HW_OK && order == 1);
    EXPECT(hw_rr_canonical_cmp(A, high, 4, low, 4, &order) == HW_OK && order == 2);
    order = 7;
    EXPECT(hw_rr_canonical_cmp(A, low, 4, high, 3, &order) == HW_E_SHORT && order == 7);
    EXPECT(hw_rr_canonical_cmp(HTTPS, NULL, 0, low, 4, &order) == HW_E_SHORT && order == 7);
    EXPECT(hw_rr_canonical_cmp(UNASSIGNED, NULL, 0, NULL, 0, &order) == HW_OK && order == 1);
}

static void readings(void) {
    svcb_record record = {0}, before = {7, 7, 7, 7};
    svcb_param param = {0};
    uint8_t target[8];

    memset(target, 0x5a, sizeof target);
    EXPECT(hw_svcb_read(DATA, sizeof DATA, 0, sizeof DATA, target, sizeof target, &record) == HW_OK);
    EXPECT(record.priority == 1 && record.target_len == 1 && record.params_count == 1 && record.params_start == 3);
    EXPECT(target[0] == 0 && all_are(target + 1, sizeof target - 1, 0x5a));
    EXPECT(hw_svcb_next(DATA, sizeof DATA, sizeof DATA, 3, &param) == HW_OK);
    EXPECT(param.key == 3 && param.len == 2 && param.start == 7);
    EXPECT(hw_svcb_next(DATA, sizeof DATA, sizeof DATA, 9, &param) == HW_END);
    EXPECT(hw_svcb_next(DATA, sizeof DATA, sizeof DATA, 10, &param) == HW_E_PLACE);
    EXPECT(hw_svcb_next(DATA, sizeof DATA, sizeof DATA + 1, 3, &param) == HW_E_PLACE);
    EXPECT(hw_svcb_next(DATA, sizeof DATA, SIZE_MAX, SIZE_MAX - 1, &param) == HW_E_PLACE);
    EXPECT(hw_svcb_next(DATA, sizeof DATA, 8, 3, &param) == HW_E_SHORT);
    EXPECT(hw_svcb_next(NULL, 0, 0, 0, &param) == HW_END);

    record = before;
    EXPECT(hw_svcb_read(DATA, sizeof DATA, 0, sizeof DATA, NULL, 0, &record) == HW_E_ROOM);
    EXPECT(hw_svcb_read(DATA, sizeof DATA, 0, 8, target, sizeof target, &record) == HW_E_SHORT);
    EXPECT(hw_svcb_read(DATA, sizeof DATA, 1, SIZE_MAX, target, sizeof target, &record) == HW_E_PLACE);
    EXPECT(record.priority == 7 && record.target_len == 7 && record.params_count == 7 && record.params_start == 7);
}

static void rebuildings(void) {
    /* alpn "h2", and the key port again */
    static const uint8_t values[] = {2, 'h', '2', 0, 54};
    static const svcb_push pushes[] = {{1, 3, 0}, {3, 2, 3}};
    static const uint8_t due[] = {0, 1, 0, 0, 1, 0, 3, 2, 'h', '2', 0, 3, 0, 2, 0, 53};
    uint8_t rebuilt[32], replies[2];
    size_t len = 77;

#define REBUILD(count, octets, limit, room, replies_room) \
    hw_svcb_rebuild(DATA, sizeof DATA, 0, sizeof DATA, pushes, count, values, octets, limit, rebuilt, room, replies, \
                 replies_room, &len)
    memset(rebuilt, 0x5a, sizeof rebuilt);
    memset(replies, 0x5a, sizeof replies);
    EXPECT(REBUILD(2, sizeof values, 100, sizeof rebuilt, 2) == HW_OK);
    EXPECT(len == sizeof due && memcmp(rebuilt, due, len) == 0);
    EXPECT(all_are(rebuilt + len, sizeof rebuilt - len, 0x5a));
    EXPECT(replies[0] == 0 && replies[1] == 1);

    memset(rebuilt, 0x5a, sizeof rebuilt);
    memset(replies, 0x5a, sizeof replies);
    EXPECT(REBUILD(2, sizeof values, 100, sizeof due - 1, 2) == HW_E_ROOM && len == sizeof due);
    EXPECT(REBUILD(2, sizeof values, 5, sizeof rebuilt, 2) == HW_E_LIMIT);
    EXPECT(REBUILD(2, sizeof values, (size_t)1 << 31, sizeof rebuilt, 2) == HW_E_ARGUMENT);
    EXPECT(REBUILD(2, sizeof values - 1, 100, sizeof rebuilt, 2) == HW_E_ARGUMENT);
    EXPECT(REBUILD(2, sizeof values, 100, sizeof rebuilt, 1) == HW_E_ARGUMENT);
    EXPECT(all_are(rebuilt, sizeof rebuilt, 0x5a) && all_are(replies, sizeof replies, 0x5a));

    EXPECT(REBUILD(2, sizeof values, 6, sizeof rebuilt, 2) == HW_OK && replies[0] == 2 && replies[1] == 1);
    EXPECT(len == sizeof DATA && memcmp(rebuilt, DATA, len) == 0);

    /* a push whose place and length pass 2^64, and no push at all */
    const svcb_push far = {1, 2, SIZE_MAX};
    EXPECT(hw_svcb_rebuild(DATA, sizeof DATA, 0, sizeof DATA, &far, 1, values, sizeof values, 100, rebuilt,
                           sizeof rebuilt, replies, 2, &len) == HW_E_ARGUMENT);
    EXPECT(hw_svcb_rebuild(DATA, sizeof DATA, 0, sizeof DATA, NULL, 0, NULL, 0, 100, rebuilt, sizeof rebuilt, NULL, 0,
                        &len) == HW_OK);
    EXPECT(len == sizeof DATA && memcmp(rebuilt, DATA, len) == 0);

    /* 65,532 octets of value make 65,539 with the others */
    uint8_t *long_value = calloc(65532, 1);
    if (long_value == NULL)
        abort();
    const svcb_push long_push = {9, 65532, 0};
    EXPECT(hw_svcb_rebuild(DATA, sizeof DATA, 0, sizeof DATA, &long_push, 1, long_value, 65532, 100000, rebuilt,
                        sizeof rebuilt, replies, 2, &len) == HW_E_TOO_LONG);
    free(long_value);
}

static void messages(void) {
    /* A response to "x. HTTPS" with one record: owner by a pointer to the question, TTL 60. */
    static const uint8_t message[] = {
        0x12, 0x34, 0x81, 0x80, 0, 1, 0, 1, 0, 0, 0, 0,  /* header */
        1, 'x', 0, 0, 65, 0, 1,                           /* question */
        0xc0, 12, 0, 65, 0, 1, 0, 0, 0, 60, 0, 9,         /* owner and fixed fields */
        0, 1, 0, 0, 3, 0, 2, 0, 53,                       /* data */
    };
    hw_message begun = {0};
    hw_record record = {0};
    uint8_t owner[8], shown[64];
    size_t len = 0;

    EXPECT(hw_message_begin(message, sizeof message, &begun) == HW_OK);
    EXPECT(begun.id == 0x1234 && begun.flags == 0x8180);
    EXPECT(begun.qdcount == 1 && begun.ancount == 1 && begun.nscount == 0 && begun.arcount == 0);
    EXPECT(begun.records_start == 19);
    memset(owner, 0x5a, sizeof owner);
    EXPECT(hw_message_next(message, sizeof message, begun.records_start, owner, sizeof owner, &record) == HW_OK);
    EXPECT(record.rtype == HTTPS && record.rclass == 1 && record.ttl == 60);
    EXPECT(record.owner_len == 3 && memcmp(owner, "\1x", 3) == 0 && all_are(owner + 3, sizeof owner - 3, 0x5a));
    EXPECT(record.data_start == 31 && record.data_len == 9 && record.next == sizeof message);
    EXPECT(hw_rr_text(HTTPS, message, sizeof message, record.data_start, record.data_len, shown, sizeof shown, &len) ==
           HW_OK);
    EXPECT(len == strlen(TEXT) && memcmp(shown, TEXT, len) == 0);

    memset(owner, 0x5a, sizeof owner);
    EXPECT(hw_message_next(message, sizeof message, 19, owner, 2, &record) == HW_E_ROOM);
    EXPECT(hw_message_next(message, sizeof message, sizeof message, owner, sizeof owner, &record) == HW_E_SHORT);
    EXPECT(hw_message_next(message, sizeof message, sizeof message + 1, owner, sizeof owner, &record) == HW_E_PLACE);
    EXPECT(hw_message_next(message, sizeof message, SIZE_MAX, owner, sizeof owner, &record) == HW_E_PLACE);
    EXPECT(hw_message_next(message, sizeof message - 1, 19, owner, sizeof owner, &record) == HW_E_SHORT);
    EXPECT(all_are(owner, sizeof owner, 0x5a));

    EXPECT(hw_message_begin(message, 11, &begun) == HW_E_SHORT);
    EXPECT(hw_message_begin(NULL, 0, &begun) == HW_E_SHORT);
    EXPECT(hw_message_begin(message, 14, &begun) == HW_E_SHORT);
    EXPECT(begun.records_start == 19);
}

/* Types whose data has names that aren't read: a name that is compressed has no text outside its message, and names are
   compared in lower case (RFC 3597, section 4; RFC 4034, section 6.2). NSEC is none of them (RFC 6840, section 5.1). */
static void types_with_names(void) {
    static const uint16_t types[] = {2, 3, 4, 5, 6, 7, 8, 9, 12, 14, 15, 17, 18, 21, 24, 26, 30, 33, 35, 36, 38, 39, 46};
    static const uint8_t upper[] = {1, 'X', 0}, lower[] = {1, 'x', 0};
    uint8_t shown[64];
    uint32_t order = 7;
    size_t len = 0;

    memset(shown, 0x5a, sizeof shown);
    for (size_t i = 0; i < sizeof types / sizeof *types; i++) {
        EXPECT(hw_rr_text(types[i], lower, 3, 0, 3, shown, sizeof shown, &len) == HW_E_TYPE);
        EXPECT(hw_rr_text(types[i], lower, 3, 0, 4, shown, sizeof shown, &len) == HW_E_PLACE);
        EXPECT(hw_rr_canonical_cmp(types[i], upper, 3, lower, 3, &order) == HW_E_TYPE && order == 7);
    }
    EXPECT(all_are(shown, sizeof shown, 0x5a));
    EXPECT(hw_rr_text(47, lower, 3, 0, 3, shown, sizeof shown, &len) == HW_OK);
    EXPECT(hw_rr_canonical_cmp(47, upper, 3, lower, 3, &order) == HW_OK && order == 0);
    EXPECT(hw_rr_text(13, lower, 3, 0, 3, shown, sizeof shown, &len) == HW_OK);
}

/* The values of RFC 9460, section 7, as its appendix D and its text have them. */
static void values(void) {
    static const uint8_t alpn[] = {2, 'h', '2', 5, 'h', '3', '-', '1', '9'};
    static const uint8_t hint[] = {192, 0, 2, 1, 192, 0, 2, 2, 9};
    static const uint8_t mandatory[] = {0, 1, 0, 4, 0};
    hw_item item = {7, 7};
    uint16_t number = 7;

    EXPECT(hw_param_port(octets("\0\x35"), 2, &number) == HW_OK && number == 53);
    EXPECT(hw_param_port(octets("\0\x35\0"), 3, &number) == HW_E_FORM && number == 53);
    EXPECT(hw_param_port(octets("\0"), 1, &number) == HW_E_SHORT && hw_param_port(NULL, 0, &number) == HW_E_SHORT);

    EXPECT(hw_param_alpn_next(alpn, 9, 0, &item) == HW_OK && item.start == 1 && item.len == 2);
    EXPECT(hw_param_alpn_next(alpn, 9, 3, &item) == HW_OK && item.start == 4 && item.len == 5);
    EXPECT(hw_param_alpn_next(alpn, 9, 9, &item) == HW_END && hw_param_alpn_next(NULL, 0, 0, &item) == HW_END);
    EXPECT(hw_param_alpn_next(alpn, 8, 3, &item) == HW_E_SHORT && item.start == 4);
    EXPECT(hw_param_alpn_next(alpn, 9, 10, &item) == HW_E_PLACE);
    EXPECT(hw_param_alpn_next(alpn, 9, SIZE_MAX, &item) == HW_E_PLACE);

    EXPECT(hw_param_address_next(hint, 9, 4, 4, &item) == HW_OK && item.start == 4 && item.len == 4);
    EXPECT(hw_param_address_next(hint, 9, 4, 8, &item) == HW_E_FORM);
    EXPECT(hw_param_address_next(hint, 8, 4, 8, &item) == HW_END);
    EXPECT(hw_param_address_next(hint, 9, 16, 0, &item) == HW_E_FORM);
    EXPECT(hw_param_address_next(hint, 9, 5, 0, &item) == HW_E_ARGUMENT);
    EXPECT(hw_param_address_next(hint, 9, SIZE_MAX, 0, &item) == HW_E_ARGUMENT);

    EXPECT(hw_param_number_next(mandatory, 5, 0, &number) == HW_OK && number == 1);
    EXPECT(hw_param_number_next(mandatory, 5, 2, &number) == HW_OK && number == 4);
    EXPECT(hw_param_number_next(mandatory, 5, 4, &number) == HW_E_FORM && number == 4);
    EXPECT(hw_param_number_next(mandatory, 4, 4, &number) == HW_END);
}

static void names(void) {
    static const uint8_t name[] = {3, 'a', '.', 'b', 1, 'c', 0};
    uint8_t shown[64];
    size_t len = 0;

    /* a dot within a label is escaped (RFC 1035, section 5.1) */
    EXPECT(hw_name_text(name, sizeof name, shown, sizeof shown, &len) == HW_OK);
    EXPECT(len == 7 && memcmp(shown, "a\\.b.c.", len) == 0);
    EXPECT(hw_name_text(octets("\0"), 1, shown, sizeof shown, &len) == HW_OK && len == 1 && shown[0] == '.');
    EXPECT(hw_name_text(name, sizeof name, shown, 6, &len) == HW_E_ROOM && len == 7);
    EXPECT(hw_name_text(name, sizeof name - 1, shown, sizeof shown, &len) == HW_E_SHORT);
    EXPECT(hw_name_text(octets("\0\0"), 2, shown, sizeof shown, &len) == HW_E_FORM);
    EXPECT(hw_name_text(octets("\xc0\0"), 2, shown, sizeof shown, &len) == HW_E_FORM);
    EXPECT(hw_name_text(NULL, 0, shown, sizeof shown, &len) == HW_E_SHORT);

    EXPECT(hw_name_scan(octets("a\\.b.c."), 7, shown, sizeof shown, &len) == HW_OK);
    EXPECT(len == sizeof name && memcmp(shown, name, len) == 0);
    EXPECT(hw_name_scan(octets("a..b"), 4, shown, sizeof shown, &len) == HW_S_BAD_NAME);
    EXPECT(hw_name_scan(octets("a b"), 3, shown, sizeof shown, &len) == HW_S_BAD_NAME);
    EXPECT(hw_name_scan(NULL, 0, shown, sizeof shown, &len) == HW_S_BAD_NAME);
}

/* Where each field stands, and how wide it is. */
#define FIELD(type, field, place, width)                                  \
    _Static_assert(offsetof(type, field) == (place) && sizeof(((type *)0)->field) == (width), #type "." #field)
FIELD(hw_message, id, 0, 2);
FIELD(hw_message, flags, 2, 2);
FIELD(hw_message, qdcount, 4, 2);
FIELD(hw_message, ancount, 6, 2);
FIELD(hw_message, nscount, 8, 2);
FIELD(hw_message, arcount, 10, 2);
FIELD(hw_message, records_start, 16, 8);
FIELD(hw_record, rtype, 0, 2);
FIELD(hw_record, rclass, 2, 2);
FIELD(hw_record, ttl, 4, 4);
FIELD(hw_record, owner_len, 8, 8);
FIELD(hw_record, data_start, 16, 8);
FIELD(hw_record, data_len, 24, 8);
FIELD(hw_record, next, 32, 8);
FIELD(svcb_record, priority, 0, 2);
FIELD(svcb_record, target_len, 2, 2);
FIELD(svcb_record, params_count, 4, 4);
FIELD(svcb_record, params_start, 8, 8);
FIELD(svcb_param, key, 0, 2);
FIELD(svcb_param, len, 2, 2);
FIELD(svcb_param, start, 8, 8);
FIELD(hw_item, start, 0, 8);
FIELD(hw_item, len, 8, 8);

/* The names of version 0.1 still call. */
static void old_names(void) {
    svcb_record record = {0};
    uint8_t target[8] = {0};
    uint32_t order = 7;

    EXPECT(svcb_read(DATA, sizeof DATA, 0, sizeof DATA, target, sizeof target, &record) == HW_OK);
    EXPECT(rr_canonical_cmp(HTTPS, DATA, sizeof DATA, DATA, sizeof DATA, &order) == HW_OK && order == 1);
}

static void statuses(void) {
    uint8_t text[64];
    size_t len = 0;

    EXPECT(hw_version() == 200);
    EXPECT(hw_status_text(HW_S_BAD_PORT, text, sizeof text, &len) == HW_OK);
    EXPECT(len == 8 && memcmp(text, "bad port", 8) == 0);
    EXPECT(hw_status_text(HW_S_BAD_PORT, NULL, 0, &len) == HW_E_ROOM && len == 8);
    EXPECT(hw_status_text(HW_E_TYPE, text, sizeof text, &len) == HW_OK && len > 0);
    EXPECT(hw_status_text(HW_E_TYPE + 1, text, sizeof text, &len) == HW_E_ARGUMENT);
    EXPECT(hw_status_text(63, text, sizeof text, &len) == HW_E_ARGUMENT);
    EXPECT(hw_status_text(95, text, sizeof text, &len) == HW_E_ARGUMENT);
    EXPECT(hw_status_text(UINT32_MAX, text, sizeof text, &len) == HW_E_ARGUMENT);
    for (uint32_t status = HW_S_END_OF_ENTRY; status <= HW_S_TRAILING_TOKENS; status++)
        EXPECT(hw_status_text(status, text, sizeof text, &len) == HW_OK && len > 0);
}

static void checks(void) {
    /* one record: priority 1, the root as target, port 53 */
    static const char choice[] = "x.\nport\n-\n000100000300020035\n", report[] = "endpoint 1 x. 53 -\n";
    static const char alone[] = "x.\n";
    uint8_t text[64];
    uint32_t outcome = 7;
    size_t len = 0;

    memset(text, 0x5a, sizeof text);
    EXPECT(hw_svcb_choose(octets(choice), strlen(choice), text, strlen(report) - 1, &len, &outcome) == HW_E_ROOM);
    EXPECT(len == strlen(report) && outcome == 7 && all_are(text, sizeof text, 0x5a));
    EXPECT(hw_svcb_choose(octets(choice), strlen(choice), text, sizeof text, &len, &outcome) == HW_OK && outcome == 0);
    EXPECT(len == strlen(report) && memcmp(text, report, len) == 0 && all_are(text + len, sizeof text - len, 0x5a));
    EXPECT(hw_cds_check(octets(alone), strlen(alone), text, sizeof text, &len, &outcome) == HW_OK && outcome == 0);
    EXPECT(len == 6 && memcmp(text, "agree\n", len) == 0);
    EXPECT(hw_svcb_choose(NULL, 0, text, sizeof text, &len, &outcome) == HW_OK && outcome == 2);
    EXPECT(hw_cds_check(NULL, 0, text, sizeof text, &len, &outcome) == HW_OK && outcome == 2);
    EXPECT(hw_zonemd_check(NULL, 0, text, sizeof text, &len, &outcome) == HW_OK && outcome == 2);
    EXPECT(hw_zonemd_check(NULL, 0, NULL, 0, &len, &outcome) == HW_E_ROOM && len > 0);
}

/* Scans and prints again, for one of eight threads. */
static void *again(void *argument) {
    for (int port = 1; port <= 5000; port++) {
        char text[32];
        uint8_t data[64] = {0}, shown[64] = {0};
        size_t len = 0, text_len = 0;
        int count = snprintf(text, sizeof text, "%d . port=%d", *(const int *)argument, port);
        if (hw_rr_scan(HTTPS, octets(text), (size_t)count, data, sizeof data, &len) != HW_OK ||
            hw_rr_text(HTTPS, data, len, 0, len, shown, sizeof shown, &text_len) != HW_OK ||
            text_len != (size_t)count || memcmp(text, shown, text_len) != 0)
            abort();
    }
    return NULL;
}

static void threads(void) {
    pthread_t all[8];
    int numbers[8];
    for (int i = 0; i < 8; i++) {
        numbers[i] = i;
        if (pthread_create(&all[i], NULL, again, &numbers[i]) != 0)
            abort();
    }
    for (int i = 0; i < 8; i++)
        pthread_join(all[i], NULL);
}

int main(void) {
    texts();
    scans();
    orders();
    readings();
    rebuildings();
    messages();
    checks();
    types_with_names();
    values();
    names();
    old_names();
    statuses();
    threads();
    return failures == 0 ? 0 : 1;
}
