/* iua.c: messages of IUA, from octets and to them. See iua.h. */
#include "iua.h"

#include <string.h>

#include "octets.h"

/* ---- Read ----------------------------------------------------------------------------------------------------------- */

static bool is_class(uint8_t class) {
    return class == IUA_MGMT || class == IUA_ASPSM || class == IUA_ASPTM || class == IUA_QPTM;
}

static bool is_type(uint8_t class, uint8_t type) {
    switch (class) {
    case IUA_MGMT: return type <= IUA_TEI_QUERY;
    case IUA_ASPSM: return type >= IUA_UP && type <= IUA_BEAT_ACK;
    case IUA_ASPTM: return type >= IUA_ACTIVE && type <= IUA_INACTIVE_ACK;
    default: return type >= IUA_DATA_REQUEST && type <= IUA_RELEASE_INDICATION;
    }
}

/* Interface identifiers, of 4 octets each, or ranges, of 8. */
static bool read_ranges(iua_message *to, const uint8_t *value, size_t length, size_t each) {
    if (length == 0 || length % each != 0)
        return false;
    for (size_t at = 0; at < length; at += each) {
        uint32_t first = octets_get32(value + at), last = octets_get32(value + at + each - 4);
        if (to->ranges == IUA_MOST_RANGES || first > last)
            return false;
        to->range[to->ranges].first = first;
        to->range[to->ranges].last = last;
        to->ranges++;
    }
    return true;
}

/* The address of a link, as Q.921 has it, and two octets that are spare. */
static bool read_link(iua_message *to, const uint8_t *value, size_t length) {
    if (length != 4 || (value[0] & 1) != 0 || (value[1] & 1) != 1)
        return false;
    to->has_link = true;
    to->sapi = value[0] >> 2;
    to->tei = value[1] >> 1;
    return true;
}

static bool read_number(uint32_t *to, const uint8_t *value, size_t length) {
    if (length != 4)
        return false;
    *to = octets_get32(value);
    return true;
}

/* A parameter; false: its length or form is wrong. */
static bool read_parameter(iua_message *to, uint32_t tag, const uint8_t *value, size_t length) {
    uint32_t unread;
    switch (tag) {
    case IUA_TAG_IDENTIFIER: return read_ranges(to, value, length, 4);
    case IUA_TAG_RANGE: return read_ranges(to, value, length, 8);
    case IUA_TAG_TEXT: to->has_text = true; return true;
    case IUA_TAG_DLCI: return read_link(to, value, length);
    case IUA_TAG_MODE: to->has_mode = true; return read_number(&to->mode, value, length);
    case IUA_TAG_ASP: to->has_asp = true; return read_number(&to->asp, value, length);
    case IUA_TAG_ERROR: return read_number(&to->error, value, length);
    case IUA_TAG_STATUS:
    case IUA_TAG_REASON:
    case IUA_TAG_TEI_STATUS: return read_number(&unread, value, length);
    case IUA_TAG_HEARTBEAT:
    case IUA_TAG_DATA:
        to->has_data = true;
        to->data = value;
        to->length = length;
        return true;
    default: return true;
    }
}

static bool read_parameters(iua_message *to, const uint8_t *octets, size_t length) {
    for (size_t at = IUA_HEAD; at < length;) {
        size_t size = length - at >= 4 ? octets_get16(octets + at + 2) : 0;
        if (size < 4 || size > length - at || !read_parameter(to, octets_get16(octets + at), octets + at + 4, size - 4))
            return false;
        at += (size + 3) / 4 * 4;
    }
    return true;
}

/* How many octets of a message that says it is `whole` octets long are looked at. The padding of the last parameter may be left
 * out of the octets, or of the number alone. 0: the two do not fit. */
static size_t length_of(size_t whole, size_t length) {
    if (whole == length || whole == (length + 3) / 4 * 4)
        return length;
    return length == (whole + 3) / 4 * 4 ? whole : 0;
}

unsigned iua_read(iua_message *message, const uint8_t *octets, size_t length) {
    memset(message, 0, offsetof(iua_message, range));
    message->data = NULL;
    if (length < IUA_HEAD)
        return IUA_PROTOCOL_ERROR;
    message->class = octets[2];
    message->type = octets[3];
    if (octets[0] != IUA_VERSION)
        return IUA_BAD_VERSION;
    if (!is_class(message->class))
        return IUA_BAD_CLASS;
    if (!is_type(message->class, message->type))
        return IUA_BAD_TYPE;
    size_t known = length_of(octets_get32(octets + 4), length);
    return known >= IUA_HEAD && read_parameters(message, octets, known) ? IUA_OK : IUA_PROTOCOL_ERROR;
}

/* ---- Written -------------------------------------------------------------------------------------------------------- */

void iua_begin(iua_octets *out, uint8_t class, uint8_t type) {
    const uint8_t head[IUA_HEAD] = {IUA_VERSION, 0, class, type, 0, 0, 0, IUA_HEAD};
    memcpy(out->octets, head, sizeof head);
    out->length = sizeof head;
}

void iua_put(iua_octets *out, uint32_t tag, const void *value, size_t length) {
    size_t room = (IUA_LONGEST - out->length) / 4 * 4;
    uint8_t *at = out->octets + out->length;
    if (room < 4)
        return;
    if (length > room - 4)
        length = room - 4;
    size_t padded = (length + 3) / 4 * 4;
    octets_put16(at, tag);
    octets_put16(at + 2, (uint32_t)length + 4);
    memset(at + 4, 0, padded);
    if (length > 0)
        memcpy(at + 4, value, length);
    out->length += 4 + padded;
    octets_put32(out->octets + 4, (uint32_t)out->length);
}

void iua_put_number(iua_octets *out, uint32_t tag, uint32_t value) {
    uint8_t octets[4];
    octets_put32(octets, value);
    iua_put(out, tag, octets, sizeof octets);
}

void iua_put_range(iua_octets *out, uint32_t first, uint32_t last) {
    uint8_t octets[8];
    octets_put32(octets, first);
    octets_put32(octets + 4, last);
    iua_put(out, IUA_TAG_RANGE, octets, sizeof octets);
}

void iua_put_link(iua_octets *out, uint32_t identifier, uint8_t sapi, uint8_t tei) {
    const uint8_t address[4] = {(uint8_t)(sapi << 2), (uint8_t)(tei << 1 | 1), 0, 0};
    iua_put_number(out, IUA_TAG_IDENTIFIER, identifier);
    iua_put(out, IUA_TAG_DLCI, address, sizeof address);
}

/* ---- Names ---------------------------------------------------------------------------------------------------------- */

const char *iua_name(uint8_t class, uint8_t type) {
    static const char *const of_mgmt[] = {"error", "notify", "TEI status request", "TEI status confirm", "TEI status indication",
                                          "TEI status query"};
    static const char *const of_aspsm[] = {"?", "ASP up", "ASP down", "heartbeat", "ASP up ack", "ASP down ack", "heartbeat ack"};
    static const char *const of_asptm[] = {"?", "ASP active", "ASP inactive", "ASP active ack", "ASP inactive ack"};
    static const char *const of_qptm[] = {
        "?", "data request", "data indication", "unit data request", "unit data indication", "establish request",
        "establish confirm", "establish indication", "release request", "release confirm", "release indication"};
    if (!is_class(class) || !is_type(class, type))
        return "unknown message";
    switch (class) {
    case IUA_MGMT: return of_mgmt[type];
    case IUA_ASPSM: return of_aspsm[type];
    case IUA_ASPTM: return of_asptm[type];
    default: return of_qptm[type];
    }
}

const char *iua_error_name(unsigned code) {
    static const char *const names[IUA_ERRORS] = {
        "no error", "invalid version", "invalid interface identifier", "unsupported message class", "unsupported message type",
        "unsupported traffic handling mode", "unexpected message", "protocol error", "unsupported interface identifier type",
        "invalid stream identifier", "unassigned TEI", "unrecognized SAPI", "invalid TEI, SAPI combination",
        "refused, management blocking", "ASP identifier required", "invalid ASP identifier"};
    return code < IUA_ERRORS ? names[code] : "unknown error";
}
