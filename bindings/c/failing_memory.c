/* Each allocation of a call fails in turn: the answer is HW_E_MEMORY, the buffers are as they were, and nothing is
   lost. A call may also do with less memory, and answer as ever. Linked with
   -Wl,--wrap=malloc,--wrap=realloc,--wrap=free. */

#include <hollywhist.h>
#include <stdio.h>
#include <stdlib.h>
#include <string.h>

void *__real_malloc(size_t len);
void *__real_realloc(void *block, size_t len);
void __real_free(void *block);

/* How many allocations are let through, or -1 for all; how many there were; how many blocks are held. */
static long left = -1, made, held;

static int is_refused(void) {
    made++;
    return left >= 0 && left-- == 0;
}

void *__wrap_malloc(size_t len) {
    if (is_refused())
        return NULL;
    held++;
    return __real_malloc(len);
}

void *__wrap_realloc(void *block, size_t len) {
    if (is_refused())
        return NULL;
    held += block == NULL;
    return __real_realloc(block, len);
}

void __wrap_free(void *block) {
    held -= block != NULL;
    __real_free(block);
}

static const char TEXT[] =
    "1 a.b. mandatory=alpn alpn=h2,h3 port=8443 ipv4hint=192.0.2.1,192.0.2.2 ipv6hint=2001:db8::1 key667=hello";
static uint8_t data[512], target[1024], replies[1];
static size_t len, written;
static uint32_t order;

static uint32_t scan(void) {
    return hw_rr_scan(65, (const uint8_t *)TEXT, strlen(TEXT), target, sizeof target, &written);
}

static uint32_t text(void) {
    return hw_rr_text(65, data, len, 0, len, target, sizeof target, &written);
}

static uint32_t compare(void) {
    return hw_rr_canonical_cmp(65, data, len, data, len, &order);
}

static uint32_t rebuild(void) {
    static const svcb_push push = {1234, 2, 0};
    return hw_svcb_rebuild(data, len, 0, len, &push, 1, (const uint8_t *)"ab", 2, 1000, target, sizeof target,
                           replies, 1, &written);
}

static uint32_t choose(void) {
    static const char lines[] = "x.\nport\n-\n000100000300020035\n";
    return hw_svcb_choose((const uint8_t *)lines, strlen(lines), target, sizeof target, &written, &order);
}

static uint32_t name_text(void) {
    static const uint8_t name[] = {3, 'w', 'w', 'w', 7, 'e', 'x', 'a', 'm', 'p', 'l', 'e', 0};
    return hw_name_text(name, sizeof name, target, sizeof target, &written);
}

static uint32_t name_scan(void) {
    return hw_name_scan((const uint8_t *)"www.example.", 12, target, sizeof target, &written);
}

static void clear(void) {
    memset(target, 0x5a, sizeof target);
    memset(replies, 0x5a, sizeof replies);
    order = 7;
}

static int is_kept(void) {
    for (size_t i = 0; i < sizeof target; i++)
        if (target[i] != 0x5a)
            return 0;
    return replies[0] == 0x5a && order == 7;
}

int main(void) {
    const struct {
        const char *name;
        uint32_t (*call)(void);
    } calls[] = {{"hw_rr_scan", scan},           {"hw_rr_text", text},
                 {"hw_rr_canonical_cmp", compare}, {"hw_svcb_rebuild", rebuild},
                 {"hw_svcb_choose", choose},       {"hw_name_text", name_text},
                 {"hw_name_scan", name_scan}};
    static uint8_t due[sizeof target];
    int failures = 0;

    if (scan() != HW_OK)
        return 1;
    len = written;
    memcpy(data, target, len);
    for (size_t i = 0; i < sizeof calls / sizeof calls[0]; i++) {
        long before = held, count = 0, wanting = 0;
        clear();
        made = 0;
        failures += calls[i].call() != HW_OK;
        count = made;
        memcpy(due, target, sizeof due);
        for (long refused = 0; refused < count; refused++) {
            clear();
            left = refused;
            uint32_t status = calls[i].call();
            left = -1;
            wanting += status == HW_E_MEMORY;
            int is_right = status == HW_OK ? memcmp(target, due, sizeof due) == 0 : status == HW_E_MEMORY && is_kept();
            if (!is_right || held != before) {
                printf("%s, allocation %ld refused: status %u, %ld blocks lost\n", calls[i].name, refused,
                       (unsigned)status, held - before);
                failures++;
            }
        }
        failures += wanting == 0;
    }
    return failures == 0 ? 0 : 1;
}
