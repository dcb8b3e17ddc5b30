/* The request reader and the status writer of the login agent, for link firmware in C.
 *
 * Both work on byte areas that the caller owns, keep nothing, and allocate nothing.
 * Pointers must not be null, and an area must have the length that is passed with it.
 * Link with libreader.a.
 */
#ifndef LOGIN_AGENT_H
#define LOGIN_AGENT_H

#include <stdbool.h>
#include <stddef.h>
#include <stdint.h>

#ifdef __cplusplus
extern "C" {
#endif

/* What the two calls return: 0, or the number of a refusal. */
enum {
    SBP_OK = 0,
    SBP_REQUEST_LENGTH = 32,
    SBP_STATUS_AREA = 34
};

/* The functions of a request; every other number from 0 to 15 is unknown. */
enum {
    SBP_LOGIN = 0,
    SBP_QUERY_LOGINS = 1,
    SBP_RECONNECT = 3,
    SBP_NODE_HANDLE = 5,
    SBP_LOGOUT = 7
};

/* The fields of a request. A field with two names has the one or the other by the function. */
struct sbp_request {
    uint64_t eui_64;
    uint64_t status_fifo;
    uint16_t unit_or_login_id;
    uint16_t node_or_handle;
    uint16_t response_length;
    uint8_t rq_fmt;
    uint8_t reconnect;
    uint8_t function;
    uint8_t hold; /* what reconnect and response_length ask for, in ticks */
    bool notify;
    bool exclusive_or_allocate;
    bool aware;
    bool update;
};

/* Reads a request of 32 bytes into *out.
 * Any other length: SBP_REQUEST_LENGTH, and *out stays as it was. */
uint32_t sbp_read_request(const uint8_t *bytes, size_t length, struct sbp_request *out);

/* Writes a status block into the first 8 bytes of the area; the others stay as they were.
 * Of the ORB address the low 48 bits are told.
 * An area below 8 bytes: SBP_STATUS_AREA, and the area stays as it was. */
uint32_t sbp_write_status(uint8_t *area, size_t length, uint8_t status, uint64_t orb_address);

#ifdef __cplusplus
}
#endif

#endif
