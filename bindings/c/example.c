/* Reads the text of an HTTPS record, goes over its parameters, adds one, and prints the text of the result. */

#include <hollywhist.h>
#include <inttypes.h>
#include <stdio.h>
#include <string.h>

/* Prints what a status means, and answers 1. */
static int refused(const char *call, uint32_t status) {
    uint8_t text[64] = {0};
    size_t len = 0;
    hw_status_text(status, text, sizeof text, &len);
    fprintf(stderr, "%s: %.*s\n", call, (int)len, (const char *)text);
    return 1;
}

int main(void) {
    const uint16_t https = 65;
    const char *text = "1 svc.example. alpn=h2,h3 port=8443";
    static uint8_t data[65535], rebuilt[65535], shown[262144];
    size_t len = 0, count = 0;

    uint32_t status = hw_rr_scan(https, (const uint8_t *)text, strlen(text), data, sizeof data, &len);
    if (status != HW_OK)
        return refused("hw_rr_scan", status);

    svcb_record record = {0, 0, 0, 0};
    uint8_t target[255] = {0};
    status = hw_svcb_read(data, len, 0, len, target, sizeof target, &record);
    if (status != HW_OK)
        return refused("hw_svcb_read", status);
    printf("priority %" PRIu16 ", %" PRIu32 " parameters\n", record.priority, record.params_count);

    svcb_param param = {0, 0, 0};
    size_t pos = record.params_start;
    while (hw_svcb_next(data, len, len, pos, &param) == HW_OK) {
        printf("key %" PRIu16 " has %" PRIu16 " octets\n", param.key, param.len);
        pos = param.start + param.len;
    }

    /* ipv4hint, key 4 */
    const uint8_t address[] = {192, 0, 2, 1};
    const svcb_push push = {4, sizeof address, 0};
    uint8_t reply = 0;
    status = hw_svcb_rebuild(data, len, 0, len, &push, 1, address, sizeof address, 65535, rebuilt, sizeof rebuilt,
                             &reply, 1, &count);
    if (status != HW_OK)
        return refused("hw_svcb_rebuild", status);

    size_t text_len = 0;
    status = hw_rr_text(https, rebuilt, count, 0, count, shown, sizeof shown, &text_len);
    if (status != HW_OK)
        return refused("hw_rr_text", status);
    printf("%.*s\n", (int)text_len, (const char *)shown);
    return 0;
}
