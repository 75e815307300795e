/*
 * fuzz_iua.c: a target of libFuzzer for gateway/iua.c. Any octets are read. What is read well is written again, and read: it says
 * the same. Nothing that is written is longer than it may be.
 *
 *     clang -g -fsanitize=fuzzer,address,undefined -I gateway -o fuzz_iua tests/gateway.d/fuzz_iua.c gateway/iua.c
 */
#include <stdlib.h>
#include <string.h>

#include "iua.h"

int LLVMFuzzerTestOneInput(const uint8_t *octets, size_t length);

static void must(bool is_so) {
    if (!is_so)
        abort();
}

/* A message with what another says, as far as a gateway writes it. */
static void write_again(iua_octets *out, const iua_message *came) {
    iua_begin(out, came->class, came->type);
    for (unsigned i = 0; i < came->ranges && i < 64; i++)
        iua_put_range(out, came->range[i].first, came->range[i].last);
    if (came->has_link)
        iua_put_link(out, 7, came->sapi, came->tei);
    if (came->has_mode)
        iua_put_number(out, IUA_TAG_MODE, came->mode);
    if (came->has_data)
        iua_put(out, came->class == IUA_ASPSM ? IUA_TAG_HEARTBEAT : IUA_TAG_DATA, came->data, came->length);
}

static void must_say_the_same(const iua_message *came, const iua_octets *out) {
    static iua_message again;
    unsigned ranges = came->ranges < 64 ? came->ranges : 64;
    must(out->length <= IUA_LONGEST && out->length % 4 == 0);
    must(iua_read(&again, out->octets, out->length) == IUA_OK);
    must(again.class == came->class && again.type == came->type && again.ranges == ranges + came->has_link);
    for (unsigned i = 0; i < ranges; i++)
        must(again.range[i].first == came->range[i].first && again.range[i].last == came->range[i].last);
    must(again.has_link == came->has_link && (!came->has_link || (again.sapi == came->sapi && again.tei == came->tei)));
    must(again.has_mode == came->has_mode && again.mode == came->mode);
    must(again.has_data == came->has_data && again.length <= came->length);
    must(again.length == 0 || memcmp(again.data, came->data, again.length) == 0);
}

int LLVMFuzzerTestOneInput(const uint8_t *octets, size_t length) {
    static iua_message came;
    static iua_octets out;
    unsigned error = iua_read(&came, octets, length);
    must(error < IUA_ERRORS);
    must(iua_error_name(error) != NULL);
    if (error != IUA_OK)
        return 0;
    must(iua_name(came.class, came.type) != NULL);
    must(!came.has_data || (came.data >= octets && came.data + came.length <= octets + length));
    write_again(&out, &came);
    must_say_the_same(&came, &out);
    return 0;
}
