/* Link firmware in small: reads requests and writes status blocks through the C entry points,
 * and holds every byte of what they leave to what they should. */
#include "login_agent.h"

#include <stdio.h>
#include <stdlib.h>
#include <string.h>

static unsigned checks, faults;

static void check(bool holds, const char *what, size_t at)
{
    checks++;
    if (!holds) {
        faults++;
        printf("FAILED: %s (%zu)\n", what, at);
    }
}

/* A login of unit 1 from a worked example, with every field set to something of its own. */
static const uint8_t login[32] = {
    0x00, 0xA0, 0xDE, 0x01, 0x02, 0x03, 0x04, 0x0A, /* eui_64 */
    0xEE, 0xEE, 0xEE, 0xEE, 0xEE, 0xEE, 0xEE, 0xEE, /* not read */
    0x90, 0x20, 0x00, 0x01,                         /* notify, exclusive, reconnect 2, LOGIN, unit 1 */
    0xFF, 0xC1, 0x00, 0x10,                         /* node FFC1h, length 16 */
    0x00, 0x00, 0xFF, 0xFF, 0xF0, 0x02, 0x00, 0x08, /* status_FIFO */
};

static void reads_every_field(void)
{
    struct sbp_request q;
    memset(&q, 0xEE, sizeof q);
    check(sbp_read_request(login, sizeof login, &q) == SBP_OK, "32 bytes are read", 32);
    check(q.eui_64 == 0x00A0DE010203040A, "eui_64", 0);
    check(q.notify && q.exclusive_or_allocate && !q.aware && !q.update, "marks", 16);
    check(q.rq_fmt == 0 && q.reconnect == 2 && q.hold == 3, "format, reconnect, hold", 16);
    check(q.function == SBP_LOGIN && q.unit_or_login_id == 1, "function and unit", 16);
    check(q.node_or_handle == 0xFFC1 && q.response_length == 16, "node and length", 20);
    check(q.status_fifo == 0x0000FFFFF0020008, "status_FIFO", 24);
}

/* Each bit of the quadlet at 16 belongs to its own field, and bits 25 and 24 to none. */
static void reads_each_bit_alone(void)
{
    for (unsigned bit = 0; bit < 32; bit++) {
        uint8_t orb[32] = {0};
        struct sbp_request q;
        orb[16 + (31 - bit) / 8] = (uint8_t)(1u << bit % 8);
        check(sbp_read_request(orb, sizeof orb, &q) == SBP_OK, "one bit is read", bit);
        check(q.notify == (bit == 31), "notify", bit);
        check(q.rq_fmt == (bit == 30 ? 2 : bit == 29 ? 1 : 0), "rq_fmt", bit);
        check(q.exclusive_or_allocate == (bit == 28), "exclusive or allocate", bit);
        check(q.aware == (bit == 27), "aware", bit);
        check(q.update == (bit == 26), "update", bit);
        check(q.reconnect == (bit >= 20 && bit < 24 ? 1u << (bit - 20) : 0), "reconnect", bit);
        check(q.function == (bit >= 16 && bit < 20 ? 1u << (bit - 16) : 0), "function", bit);
        check(q.unit_or_login_id == (bit < 16 ? 1u << bit : 0), "unit or login ID", bit);
        check(q.eui_64 == 0 && q.status_fifo == 0 && q.node_or_handle == 0 && q.response_length == 0, "other fields", bit);
    }
}

/* 2^reconnect - 1, at most 255, and 0 where the length is below 16. */
static void holds_as_asked(void)
{
    for (unsigned reconnect = 0; reconnect < 16; reconnect++) {
        for (unsigned length = 0; length < 32; length++) {
            uint8_t orb[32] = {0};
            struct sbp_request q;
            unsigned hold = reconnect < 8 ? (1u << reconnect) - 1 : 255;
            orb[17] = (uint8_t)(reconnect << 4);
            orb[23] = (uint8_t)length;
            check(sbp_read_request(orb, sizeof orb, &q) == SBP_OK, "a hold is read", reconnect);
            check(q.hold == (length < 16 ? 0 : hold), "hold", reconnect * 100 + length);
        }
    }
}

static void refuses_other_lengths(void)
{
    for (size_t length = 0; length <= 80; length++) {
        uint8_t *bytes = malloc(length == 0 ? 1 : length); /* its own block, so that a read past it shows */
        struct sbp_request q, before;
        if (bytes == NULL)
            exit(2);
        memset(bytes, 0x55, length);
        memset(&q, 0xEE, sizeof q);
        memcpy(&before, &q, sizeof q);
        uint32_t number = sbp_read_request(bytes, length, &q);
        check(number == (length == 32 ? SBP_OK : SBP_REQUEST_LENGTH), "only 32 bytes are read", length);
        if (length != 32)
            check(memcmp(&q, &before, sizeof q) == 0, "a refusal leaves the fields", length);
        free(bytes);
    }
}

static void writes_blocks(void)
{
    static const uint8_t block[8] = {0x01, 0x04, 0x00, 0x00, 0x00, 0x01, 0x23, 0x40};
    static const uint8_t high[8] = {0x01, 0xFF, 0xFF, 0xFF, 0xFF, 0xFF, 0xFF, 0xFC};
    for (size_t length = 0; length <= 24; length++) {
        uint8_t *area = malloc(length == 0 ? 1 : length);
        if (area == NULL)
            exit(2);
        memset(area, 0xAA, length);
        uint32_t number = sbp_write_status(area, length, 4, 0x12340);
        check(number == (length < 8 ? SBP_STATUS_AREA : SBP_OK), "a block needs 8 bytes", length);
        for (size_t i = 0; i < length; i++)
            check(area[i] == (length < 8 || i >= 8 ? 0xAA : block[i]), "each byte of the area", length * 100 + i);
        free(area);
    }
    uint8_t area[8];
    check(sbp_write_status(area, sizeof area, 255, 0xFFFFFFFFFFFC) == SBP_OK, "the highest address", 8);
    check(memcmp(area, high, sizeof high) == 0, "all 48 bits are told", 8);
    check(sbp_write_status(area, sizeof area, 255, 0xABCDFFFFFFFFFFFC) == SBP_OK, "an address of 64 bits", 8);
    check(memcmp(area, high, sizeof high) == 0, "only 48 bits are told", 8);
}

int main(void)
{
    reads_every_field();
    reads_each_bit_alone();
    holds_as_asked();
    refuses_other_lengths();
    writes_blocks();
    printf("%u checks, %u faults\n", checks, faults);
    return faults == 0 ? 0 : 1;
}
