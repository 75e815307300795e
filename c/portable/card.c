/* ---- Cards and clocks: each has a machine of its own -------------------------------------------------------------- */

/* A machine whose heap has so many octets, and as many after it as an image takes, on which nothing was started; NULL where
 * there is no memory. */
static machine *new_machine(u64 heap, u64 image) {
    u64 octets = HEAP + heap + image;
    if (octets > (size_t)-1 - sizeof(own) - BEHIND || octets > 0xFFFFFFF0)
        return NULL;
    rattle_tried tried = rattle_alloc(sizeof(own) + (size_t)octets + BEHIND, 8);
    if (!tried.there)
        return NULL;
    machine *instance = (u8 *)tried.at + sizeof(own);
    memset(instance, 0, HEAP);
    OWN(instance)->octets = (u32)octets;
    OWN(instance)->image = (u32)image;
    init_globals(instance);
    init_memories(instance);
    w2c_module_heap(instance, HEAP, HEAP + heap);
    return instance;
}

/* The first field that is out of range, as a start's status: what is told where there is no memory to ask a machine. */
static u32 fault_of(const lapd_config *config) {
    const struct {
        u32 value, least, most, status;
    } fields[] = {
        /* tools/names: ranges */
        {config->lines, 1, 64, LAPD_BAD_LINES},
        {config->terminals, 1, 8, LAPD_BAD_TERMINALS},
        {config->k, 1, 127, LAPD_BAD_K},
        {config->k16, 1, 127, LAPD_BAD_K16},
        {config->queue, config->k > config->k16 ? config->k : config->k16, 127, LAPD_BAD_QUEUE},
        {config->unit_queue, 1, 16, LAPD_BAD_UNIT_QUEUE},
        {config->control, 2, 16, LAPD_BAD_CONTROL},
        {config->slots, 1, 8192, LAPD_BAD_SLOTS},
        {config->n201, 8, 260, LAPD_BAD_N201},
        {config->n200, 0, 10, LAPD_BAD_N200},
        {config->sapi, 0, 62, LAPD_BAD_SAPI},
        {config->side, 0, LAPD_TERMINAL, LAPD_BAD_SIDE},
        {config->reading, 0, LAPD_ANNEX_B, LAPD_BAD_READING},
        /* tools/names: end */
    };
    for (size_t i = 0; i < sizeof fields / sizeof *fields; i++)
        if (fields[i].value < fields[i].least || fields[i].value > fields[i].most)
            return fields[i].status;
    for (size_t i = 0; i < sizeof config->reserved / sizeof *config->reserved; i++)
        if (config->reserved[i] != 0)
            return LAPD_BAD_RESERVED;
    return LAPD_OK;
}

/* tools/names: image_octets */
enum { BEHIND_NUMBERS = 20, IMAGE_LINK = 19 };
/* tools/names: end */

/* So many octets the image of a card of this configuration has at most, and that of a clock; it is in range. */
static u32 most_of_card(const lapd_config *config) {
    u32 links = 2u * config->terminals, moments = 24 + config->lines * 8u * (2 * links + 1);
    u32 teis = config->side == LAPD_TERMINAL ? 7 + 5 * (config->terminals + 1u) : 39;
    u32 line = config->terminals + teis + 1 + config->unit_queue + 1 + links * (IMAGE_LINK + 3u * config->control) + 8 * LAPD_COUNTERS + 2;
    return BEHIND_NUMBERS + 2 + config->lines * line + config->slots * (2u + config->n201) + moments;
}

static u32 most_of_clock(const lapd_config *config) {
    return 24 + config->lines * (1u + 11u * (4u * config->terminals + 1u));
}

uint32_t lapd_image_octets(const lapd_config *config) {
    return fault_of(config) == LAPD_OK ? most_of_card(config) : 0;
}

typedef u32 starts(machine *instance, u64 handle, u64 config);

/* What a start is, and how it is called in a machine, with lengths of timers or without. */
typedef struct {
    starts *plain;
    u32 (*timed)(machine *instance, u64 handle, u64 config, u64 lengths);
    const lapd_lengths *lengths;
} start_call;

static u32 called(machine *instance, const start_call *call) {
    enum { LENGTHS = OTHER + 64 };
    if (call->lengths == NULL)
        return call->plain(instance, HANDLE, OTHER);
    put_lapd_lengths(instance, LENGTHS, call->lengths);
    return call->timed(instance, HANDLE, OTHER, LENGTHS);
}

/* What is wrong with lengths of timers: one is out of range, or a place is not 0 that is for a later version. */
static u32 fault_of_lengths(const lapd_lengths *it) {
    enum { HOUR = 3600000 };
    if (it->t200 - 1 >= HOUR || it->t203 - 1 >= HOUR || it->t201 - 1 >= HOUR || it->t202 - 1 >= HOUR)
        return LAPD_WRONG_TIME;
    for (size_t i = 0; i < sizeof it->reserved / sizeof *it->reserved; i++)
        if (it->reserved[i] != 0)
            return LAPD_BAD_RESERVED;
    return LAPD_OK;
}

/* Starts a card or a clock in a machine of its own. */
static uint32_t start(bool *started, void **at, const lapd_config *config, u64 heap, u64 image, const start_call *call) {
    if (*started)
        return LAPD_SECOND_START;
    u32 fault = fault_of(config);
    if (fault == LAPD_OK && call->lengths != NULL)
        fault = fault_of_lengths(call->lengths);
    machine *instance = fault == LAPD_OK ? new_machine(heap, IMAGE_ROOM(image)) : new_machine(0, 0);
    if (instance == NULL)
        return fault != LAPD_OK ? fault : LAPD_NO_MEMORY;
    put_lapd_config(instance, OTHER, config);
    u32 status = called(instance, call);
    if (status == LAPD_OK) {
        *started = true;
        *at = instance;
    } else {
        rattle_dealloc(OWN(instance));
    }
    return status;
}

uint32_t lapd_version(void) {
    return LAPD_VERSION;
}

#ifndef LAPD_NO_OCTETS
uint32_t lapd_card_start(lapd_card *card, const lapd_config *config) {
    if (card == NULL || config == NULL)
        return LAPD_WRONG_POINTER;
    const start_call call = {w2c_lapd_card_start, NULL, NULL};
    return start(&card->started, &card->at, config, lapd_card_octets(config), most_of_card(config), &call);
}

uint32_t lapd_card_start_timed(lapd_card *card, const lapd_config *config, const lapd_lengths *lengths) {
    if (card == NULL || config == NULL || lengths == NULL)
        return LAPD_WRONG_POINTER;
    const start_call call = {NULL, w2c_lapd_card_start_timed, lengths};
    return start(&card->started, &card->at, config, lapd_card_octets_timed(config), most_of_card(config), &call);
}
#endif

uint32_t lapd_card_start_frames(lapd_card *card, const lapd_config *config) {
    if (card == NULL || config == NULL)
        return LAPD_WRONG_POINTER;
    const start_call call = {w2c_lapd_card_start_frames, NULL, NULL};
    return start(&card->started, &card->at, config, lapd_card_octets_frames(config), most_of_card(config), &call);
}

uint32_t lapd_card_start_frames_timed(lapd_card *card, const lapd_config *config, const lapd_lengths *lengths) {
    if (card == NULL || config == NULL || lengths == NULL)
        return LAPD_WRONG_POINTER;
    const start_call call = {NULL, w2c_lapd_card_start_frames_timed, lengths};
    return start(&card->started, &card->at, config, lapd_card_octets_frames_timed(config), most_of_card(config), &call);
}

uint32_t lapd_clock_start(lapd_clock *clock, const lapd_config *config) {
    if (clock == NULL || config == NULL)
        return LAPD_WRONG_POINTER;
    const start_call call = {w2c_lapd_clock_start, NULL, NULL};
    return start(&clock->started, &clock->at, config, lapd_clock_octets(config), most_of_clock(config), &call);
}

typedef u32 ends(machine *instance, u64 handle);

/* Ends a card or a clock, whose machine goes. */
static uint32_t finish(bool *started, void **at, uint32_t none, ends *call) {
    if (!*started)
        return none;
    u32 status = call(machine_of(*at), HANDLE);
    rattle_dealloc(OWN(*at));
    *started = false;
    *at = NULL;
    return status;
}

uint32_t lapd_card_free(lapd_card *card) {
    if (card == NULL)
        return LAPD_WRONG_POINTER;
    return finish(&card->started, &card->at, LAPD_NO_CARD, w2c_lapd_card_free);
}

uint32_t lapd_clock_free(lapd_clock *clock) {
    if (clock == NULL)
        return LAPD_WRONG_POINTER;
    return finish(&clock->started, &clock->at, LAPD_NO_CLOCK, w2c_lapd_clock_free);
}

#ifndef LAPD_NO_IMAGES
typedef u32 saves(machine *instance, u64 handle, u64 image, u64 room, u64 length);
typedef u32 restores(machine *instance, u64 handle, u64 image, u64 length);

/* Saves what a machine holds, by way of its room for an image, which is as much as an image has at most. */
static uint32_t save(void *at, saves *call, uint8_t *image, size_t room, size_t *length) {
    machine *instance = machine_of(at);
    u32 most = OWN(instance)->image, from = OWN(instance)->octets - most;
    u32 status = call(instance, HANDLE, from, at_most(room, most), OTHER);
    if (status == LAPD_OK) {
        get_size_t(instance, OTHER, length);
        copy(image, instance + from, at_most(*length, most));
    }
    return status;
}

/* Restores a card or a clock from its image, in a machine of its own, which has so large a heap. */
static uint32_t restore(bool *started, void **at, const uint8_t *image, size_t length, u64 heap, u32 most, restores *call) {
    if (length > most)
        return LAPD_BAD_IMAGE;
    machine *instance = new_machine(heap, most);
    if (instance == NULL)
        return LAPD_NO_MEMORY;
    u32 from = OWN(instance)->octets - most;
    copy(instance + from, image, length);
    u32 status = call(instance, HANDLE, from, length);
    if (status == LAPD_OK) {
        *started = true;
        *at = instance;
    } else {
        rattle_dealloc(OWN(instance));
    }
    return status;
}

/* How large an image says that its card is: all by which a heap's size is told. The machine reads it once more, and all else.
 * Whether these are the first octets of an image. */
static bool sizes_of(const uint8_t *image, size_t length, lapd_config *config) {
    enum { FLAGS = 6 };
    if (length < BEHIND_NUMBERS)
        return false;
    const lapd_config it = {
        /* tools/names: image_numbers */
        .lines = image[7],
        .terminals = image[8],
        .k = image[9],
        .k16 = image[10],
        .queue = image[11],
        .unit_queue = image[12],
        .control = image[13],
        .n200 = image[14],
        .sapi = image[15],
        .slots = (uint16_t)(image[16] | image[17] << 8),
        .n201 = (uint16_t)(image[18] | image[19] << 8),
        /* tools/names: end */
        .side = (image[FLAGS] & 3) == 3 ? LAPD_TERMINAL : LAPD_NETWORK,
    };
    *config = it;
    return fault_of(config) == LAPD_OK;
}

uint32_t lapd_card_save(lapd_card *card, uint8_t *image, size_t room, size_t *length) {
    if (card == NULL || (image == NULL && room != 0) || length == NULL)
        return LAPD_WRONG_POINTER;
    return card->started ? save(card->at, w2c_lapd_card_save, image, room, length) : LAPD_NO_CARD;
}

uint32_t lapd_card_restore(lapd_card *card, const uint8_t *image, size_t length) {
    enum { KIND = 5 };
    static u64 (*const heaps[])(const lapd_config *config) = {lapd_card_octets_frames, lapd_card_octets, lapd_card_octets_frames_timed,
                                                              lapd_card_octets_timed};
    lapd_config config;
    if (card == NULL || (image == NULL && length != 0))
        return LAPD_WRONG_POINTER;
    if (card->started)
        return LAPD_SECOND_START;
    if (!sizes_of(image, length, &config))
        return LAPD_BAD_IMAGE;
    u64 heap = heaps[image[KIND] & 3](&config);
    return restore(&card->started, &card->at, image, length, heap, most_of_card(&config), w2c_lapd_card_restore);
}

uint32_t lapd_clock_save(lapd_clock *clock, uint8_t *image, size_t room, size_t *length) {
    if (clock == NULL || (image == NULL && room != 0) || length == NULL)
        return LAPD_WRONG_POINTER;
    return clock->started ? save(clock->at, w2c_lapd_clock_save, image, room, length) : LAPD_NO_CLOCK;
}

uint32_t lapd_clock_restore(lapd_clock *clock, const uint8_t *image, size_t length) {
    enum { LINES = 6, TERMINALS = 7, BEHIND_SIZES = 8 };
    if (clock == NULL || (image == NULL && length != 0))
        return LAPD_WRONG_POINTER;
    if (clock->started)
        return LAPD_SECOND_START;
    if (length < BEHIND_SIZES || image[LINES] < 1 || image[LINES] > 64 || image[TERMINALS] < 1 || image[TERMINALS] > 8)
        return LAPD_BAD_IMAGE;
    const lapd_config config = {.lines = image[LINES], .terminals = image[TERMINALS]};
    return restore(&clock->started, &clock->at, image, length, lapd_clock_octets(&config), most_of_clock(&config), w2c_lapd_clock_restore);
}
#endif

#ifndef LAPD_NO_OCTETS
/* Whether two lengths are one, and the steps not beyond it. */
static bool is_exchange(size_t taken, size_t given, size_t steps) {
    return taken == given && (steps / 2 < taken || steps == 2 * taken);
}

/* An exchange goes by runs, each of which is one of the machine's: up to and with the first step that has something to
 * tell. What is no exchange is handed over as another that is none, for the machine to say what is wrong first. */
uint32_t lapd_exchange(lapd_card *card, uint32_t line, const uint8_t *in, size_t in_length, uint8_t *out, size_t out_length,
                       size_t *steps, lapd_report *report) {
    enum { STEPS = OTHER, IN = OTHER + 16, OUT = IN + RUN };
    if (card == NULL || (in == NULL && in_length != 0) || (out == NULL && out_length != 0) || steps == NULL || report == NULL)
        return LAPD_WRONG_POINTER;
    if (!card->started)
        return LAPD_NO_CARD;
    machine *instance = machine_of(card->at);
    if (!is_exchange(in_length, out_length, *steps))
        return w2c_lapd_exchange(instance, HANDLE, line, IN, 0, OUT, 1, STEPS, REPORT);
    for (;;) {
        size_t from = *steps / 2, run = at_most(in_length - from, RUN), first = *steps % 2, last = first;
        if (run != 0)
            memcpy(instance + IN, in + from, run);
        put_size_t(instance, STEPS, &last);
        u32 status = w2c_lapd_exchange(instance, HANDLE, line, IN, run, OUT, run, STEPS, REPORT);
        if (status != LAPD_OK)
            return status;
        get_size_t(instance, STEPS, &last);
        if (run != 0)
            memcpy(out + from, instance + OUT, at_most(last / 2, run));
        *steps = 2 * from + last;
        get_lapd_report(instance, REPORT, report);
        if (lapd_tells(report) || *steps == 2 * in_length)
            return LAPD_OK;
    }
}
#endif

/* What a null pointer to no octets is taken for. */
static const uint8_t no_octet = 0;

/* What octets say is said by a machine of its own on the stack, as no card is needed. They stand after the fields of a frame, which
 * lie where each call's structs do. */
enum { MOST_OCTETS = 1029, FIELDS = OTHER, OCTETS = FIELDS + 16, AFTER_OCTETS = OCTETS + 1040 };
#define MACHINE_OF(octets) union { own first; u8 room[sizeof(own) + (octets) + BEHIND]; } ALIGNED
#define MACHINE_IN(of) ((of).room + sizeof(own))

/* Such a machine begins, with octets of which it is handed at most one more than it takes: so many. */
static size_t begin(machine *instance, u32 end, const uint8_t *octets, size_t length) {
    size_t count = at_most(length, MOST_OCTETS);
    memset(instance, 0, end);
    OWN(instance)->octets = end;
    init_globals(instance);
    init_memories(instance);
    memcpy(instance + OCTETS, octets, count);
    return count;
}

uint32_t lapd_frame_read(const uint8_t *octets, size_t length, uint16_t side, lapd_fields *fields) {
    MACHINE_OF(AFTER_OCTETS) of;
    machine *instance = MACHINE_IN(of);
    if (octets == NULL && length == 0)
        octets = &no_octet;
    if (octets == NULL || fields == NULL)
        return LAPD_WRONG_POINTER;
    size_t count = begin(instance, AFTER_OCTETS, octets, length);
    u32 status = w2c_lapd_frame_read(instance, OCTETS, count, side, FIELDS);
    if (status == LAPD_OK)
        get_lapd_fields(instance, FIELDS, fields);
    return status;
}

#ifndef LAPD_NO_TEXT
uint32_t lapd_frame_text(const uint8_t *octets, size_t length, uint16_t side, char *text, size_t room) {
    enum { MOST_TEXT = 2176, TEXT = AFTER_OCTETS, END = TEXT + MOST_TEXT };
    MACHINE_OF(END) of;
    machine *instance = MACHINE_IN(of);
    if (octets == NULL && length == 0)
        octets = &no_octet;
    if (octets == NULL || (text == NULL && room != 0))
        return LAPD_WRONG_POINTER;
    size_t count = begin(instance, END, octets, length);
    u32 status = w2c_lapd_frame_text(instance, OCTETS, count, side, TEXT, at_most(room, MOST_TEXT));
    for (size_t i = 0; status == LAPD_OK && i < at_most(room, MOST_TEXT); i++) {
        text[i] = (char)instance[TEXT + i];
        if (text[i] == 0)
            break;
    }
    return status;
}
#endif
