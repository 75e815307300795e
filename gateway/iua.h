/*
 * iua.h: messages of IUA (RFC 4233), from octets and to them. There is no state here, no input and no output, so that any octets
 * may be handed over.
 *
 *     iua_message came;
 *     unsigned error = iua_read(&came, octets, length);      IUA_OK, or the code with which the message is answered
 *
 *     iua_octets out;
 *     iua_begin(&out, IUA_QPTM, IUA_DATA_INDICATION);
 *     iua_put_link(&out, identifier, sapi, tei);
 *     iua_put(&out, IUA_TAG_DATA, contents, length);
 *     ... out.octets, out.length ...
 */
#ifndef IUA_H
#define IUA_H

#include <stdbool.h>
#include <stddef.h>
#include <stdint.h>

enum {
    IUA_PORT = 9900,
    IUA_PAYLOAD = 1, /* the payload protocol of SCTP's DATA chunks */
    IUA_VERSION = 1,
    IUA_HEAD = 8,           /* octets of a message before its parameters */
    IUA_LONGEST = 4096,     /* octets of a message at most */
    IUA_MOST_RANGES = 1024, /* interface identifiers and ranges of them in a message */
    IUA_MOST_DIAGNOSTIC = 40
};

/* Classes, and the types of each. */
enum { IUA_MGMT = 0, IUA_ASPSM = 3, IUA_ASPTM = 4, IUA_QPTM = 5 };
enum { IUA_ERROR, IUA_NOTIFY, IUA_TEI_REQUEST, IUA_TEI_CONFIRM, IUA_TEI_INDICATION, IUA_TEI_QUERY };
enum { IUA_UP = 1, IUA_DOWN, IUA_BEAT, IUA_UP_ACK, IUA_DOWN_ACK, IUA_BEAT_ACK };
enum { IUA_ACTIVE = 1, IUA_INACTIVE, IUA_ACTIVE_ACK, IUA_INACTIVE_ACK };
enum {
    IUA_DATA_REQUEST = 1,
    IUA_DATA_INDICATION,
    IUA_UNIT_REQUEST,
    IUA_UNIT_INDICATION,
    IUA_ESTABLISH_REQUEST,
    IUA_ESTABLISH_CONFIRM,
    IUA_ESTABLISH_INDICATION,
    IUA_RELEASE_REQUEST,
    IUA_RELEASE_CONFIRM,
    IUA_RELEASE_INDICATION
};

/* Parameters. */
enum {
    IUA_TAG_IDENTIFIER = 1,
    IUA_TAG_TEXT = 3,
    IUA_TAG_INFORMATION = 4,
    IUA_TAG_DLCI = 5,
    IUA_TAG_DIAGNOSTIC = 7,
    IUA_TAG_RANGE = 8,
    IUA_TAG_HEARTBEAT = 9,
    IUA_TAG_MODE = 11,
    IUA_TAG_ERROR = 12,
    IUA_TAG_STATUS = 13,
    IUA_TAG_DATA = 14,
    IUA_TAG_REASON = 15,
    IUA_TAG_TEI_STATUS = 16,
    IUA_TAG_ASP = 17
};

/* Codes of errors. */
enum {
    IUA_OK = 0,
    IUA_BAD_VERSION,
    IUA_BAD_IDENTIFIER,
    IUA_BAD_CLASS,
    IUA_BAD_TYPE,
    IUA_BAD_MODE,
    IUA_UNEXPECTED,
    IUA_PROTOCOL_ERROR,
    IUA_BAD_IDENTIFIER_TYPE,
    IUA_BAD_STREAM,
    IUA_UNASSIGNED_TEI,
    IUA_BAD_SAPI,
    IUA_BAD_DLCI,
    IUA_BLOCKED,
    IUA_NO_ASP,
    IUA_BAD_ASP,
    IUA_ERRORS
};

enum { IUA_OVERRIDE = 1, IUA_LOADSHARE = 2 };                        /* modes */
enum { IUA_BY_MANAGEMENT = 0, IUA_BY_LAYER1 = 1, IUA_BY_OTHER = 3 }; /* reasons of a release */
enum { IUA_SERVER_DOWN = 1, IUA_SERVER_INACTIVE = 2, IUA_SERVER_ACTIVE = 3, IUA_SERVER_PENDING = 4 }; /* as Notify has them */
enum { IUA_STATE_CHANGED = 1, IUA_OTHER = 2, IUA_ALTERNATE_ACTIVE = 2 }; /* types of Notify, and one of the second */

/* What a message says. A parameter that is not there is 0, and those that are not known are passed over. */
typedef struct {
    uint8_t class, type;
    bool has_link, has_data, has_mode, has_asp, has_text;
    uint8_t sapi, tei; /* of its DLCI */
    uint32_t mode, asp, error;
    const uint8_t *data; /* contents, or the data of a heartbeat: in the octets that were read */
    size_t length;
    unsigned ranges; /* interface identifiers, each from a first one to a last */
    struct {
        uint32_t first, last;
    } range[IUA_MOST_RANGES];
} iua_message;

/* Reads a message. IUA_OK, or the code of what is wrong; class and type are those of the octets then, if there are so many. */
unsigned iua_read(iua_message *message, const uint8_t *octets, size_t length);

/* A message that is written. */
typedef struct {
    size_t length;
    uint8_t octets[IUA_LONGEST];
} iua_octets;

void iua_begin(iua_octets *out, uint8_t class, uint8_t type);

/* A parameter. What finds no room is cut off. */
void iua_put(iua_octets *out, uint32_t tag, const void *value, size_t length);
void iua_put_number(iua_octets *out, uint32_t tag, uint32_t value);
void iua_put_range(iua_octets *out, uint32_t first, uint32_t last);

/* An interface identifier, and the DLCI of a link. */
void iua_put_link(iua_octets *out, uint32_t identifier, uint8_t sapi, uint8_t tei);

/* The name of a message for a log, such as "data request". */
const char *iua_name(uint8_t class, uint8_t type);

/* The name of an error for a log. */
const char *iua_error_name(unsigned code);

#endif
