/*
 * Tests of the C face. Every call goes through `call`, which lends buffers of the exact length between guard bytes and looks at all that a
 * call must not touch: the guard bytes always, the bytes behind what was written, the image of a question or a listing, and everything
 * after a refusal. It compares every byte of a listing with the image, and every byte of the image with what a choice makes of it. The two
 * calls on recorded lines go through `turn`, which looks at the same. With -DGUARD=0 a buffer is a heap block of its exact length, so that
 * valgrind sees a byte read or written outside it.
 */
#include <inttypes.h>
#include <stdio.h>
#include <stdlib.h>
#include <string.h>

#include "hadulmir.h"

#ifndef GUARD
#define GUARD 64
#endif

#define IMAGE HADULMIR_IMAGE_SIZE
#define ROWS_ROOM HADULMIR_ROWS_SIZE
#define RECORDS_ROOM HADULMIR_RECORDS_SIZE
#define ID_ROOM HADULMIR_ID_SIZE
#define LENT_AT_MOST 4096
#define TEXT_AT_MOST 8192

/* Places in an image, and in an entry of it; the bits of a choice. */
#define PROGRAM(n) (HADULMIR_PROGRAMS_AT + HADULMIR_PROGRAM_SIZE * (size_t)(n))
#define ENTRY(i) (HADULMIR_EVENTS_AT + HADULMIR_ENTRY_SIZE * (size_t)(i))
enum { PROGRAM_AT = 16, CONTROLS_AT = 17, CREATED_AT = 21, START_AT = 25, DURATION_AT = 29 };
enum { RANDOMIZE_START_AT = 33, RANDOMIZE_DURATION_AT = 35, START_DRAW_AT = 37, DURATION_DRAW_AT = 39 };
enum { EFFECTIVE_START_AT = 41, HELD_AT = 49, CANCELLED_AT = 53, CHOICE_AT = 54 };
enum { OUT = 1, WAS_IN = 2, WAS_OUT = 4 };

/* COUNTING */

static unsigned passed, failed;

static void check(int ok, const char *what, int line)
{
    if (ok) {
        passed++;
        return;
    }
    failed++;
    if (failed <= 40)
        printf("face.c:%d: failed: %s\n", line, what);
}

#define CHECK(ok) check((ok), #ok, __LINE__)

/* BUFFERS */

struct lent {
    uint8_t *block;
    uint8_t *at;
    size_t len;
};

static const uint8_t guard_byte = 0xA5;

static uint8_t pattern(size_t i)
{
    return (uint8_t)(i * 7 + 0x5A);
}

/* A buffer of a pattern. Its address goes through all remainders by 8, since no call may ask for an alignment. */
static struct lent lend(size_t len)
{
    static size_t shift;
    struct lent b;
    size_t before, i;

    shift = (shift + 1) % 8;
    before = GUARD + shift;
    if (before + len == 0)
        before = 1; /* one past a block of one byte: not null, and no byte of it may be touched */
    b.block = malloc(before + len + GUARD);
    if (b.block == NULL)
        abort();
    memset(b.block, guard_byte, before + len + GUARD);
    b.at = b.block + before;
    b.len = len;
    for (i = 0; i < len; i++)
        b.at[i] = pattern(i);
    return b;
}

static int guards_whole(const struct lent *b)
{
    const uint8_t *p;

    for (p = b->block; p < b->at; p++)
        if (*p != guard_byte)
            return 0;
    for (p = b->at + b->len; p < b->at + b->len + GUARD; p++)
        if (*p != guard_byte)
            return 0;
    return 1;
}

static int pattern_from(const struct lent *b, size_t from)
{
    size_t i;

    for (i = from; i < b->len; i++)
        if (b->at[i] != pattern(i))
            return 0;
    return 1;
}

/* CALLS */

enum kind { ADD, DELIVER, CANCEL, OPT_OUT, OPT_IN, CLOCK, ASK, LIST };

/* A call with all that is given to it but the image. `room` is the length of the lent buffer. */
struct op {
    enum kind kind;
    uint64_t high, id; /* the halves of the id of DELIVER, CANCEL, OPT_OUT and OPT_IN; `id` is the reading of CLOCK too */
    uint8_t number; /* of a program or a control */
    uint8_t primacy;
    uint32_t controls; /* also the defaults of ADD */
    uint32_t created, start, duration;
    int32_t randomize_start, randomize_duration, start_draw, duration_draw;
    size_t room;
};

static struct op blank_op(enum kind kind)
{
    struct op op;

    memset(&op, 0, sizeof op);
    op.kind = kind;
    return op;
}

static struct op add(uint8_t number, uint8_t primacy, uint32_t defaults)
{
    struct op op = blank_op(ADD);

    op.number = number;
    op.primacy = primacy;
    op.controls = defaults;
    return op;
}

static struct op event(uint64_t id, uint8_t program, uint32_t controls, uint32_t created, uint32_t start, uint32_t duration)
{
    struct op op = blank_op(DELIVER);

    op.id = id;
    op.number = program;
    op.controls = controls;
    op.created = created;
    op.start = start;
    op.duration = duration;
    return op;
}

static struct op drawn(struct op op, int32_t randomize_start, int32_t start_draw, int32_t randomize_duration, int32_t duration_draw)
{
    op.randomize_start = randomize_start;
    op.start_draw = start_draw;
    op.randomize_duration = randomize_duration;
    op.duration_draw = duration_draw;
    return op;
}

/* The same with an upper half of the id, which is 0 else. */
static struct op wide(uint64_t high, struct op op)
{
    op.high = high;
    return op;
}

/* A call that names an event. */
static struct op naming(enum kind kind, uint64_t id)
{
    struct op op = blank_op(kind);

    op.id = id;
    return op;
}

static struct op cancel(uint64_t id)
{
    return naming(CANCEL, id);
}

static struct op opt_out(uint64_t id)
{
    return naming(OPT_OUT, id);
}

static struct op opt_in(uint64_t id)
{
    return naming(OPT_IN, id);
}

/* A call that is lent a buffer. */
static struct op lending(enum kind kind, size_t room)
{
    struct op op = blank_op(kind);

    op.room = room;
    return op;
}

static struct op set_clock(uint64_t reading, size_t room)
{
    struct op op = lending(CLOCK, room);

    op.id = reading;
    return op;
}

static struct op ask(uint8_t control, size_t room)
{
    struct op op = lending(ASK, room);

    op.number = control;
    return op;
}

static struct op list(size_t room)
{
    return lending(LIST, room);
}

static int32_t act(uint8_t *image, size_t len, const struct op *op, uint8_t *lent)
{
    switch (op->kind) {
    case ADD:
        return hadulmir_add_program(image, len, op->number, op->primacy, op->controls);
    case DELIVER:
        return hadulmir_deliver(image, len, op->high, op->id, op->number, op->controls, op->created, op->start, op->duration,
                                hadulmir_signed(op->randomize_start), hadulmir_signed(op->randomize_duration),
                                hadulmir_signed(op->start_draw), hadulmir_signed(op->duration_draw));
    case CANCEL:
        return hadulmir_cancel(image, len, op->high, op->id);
    case OPT_OUT:
        return hadulmir_opt_out(image, len, op->high, op->id);
    case OPT_IN:
        return hadulmir_opt_in(image, len, op->high, op->id);
    case CLOCK:
        return hadulmir_set_clock(image, len, op->id, lent, op->room);
    case ASK:
        return hadulmir_ask(image, len, op->number, lent, op->room);
    default:
        return hadulmir_list(image, len, lent, op->room);
    }
}

/* Bytes of the lent buffer that an answer says were written. */
static size_t written(enum kind kind, int32_t answer)
{
    switch (kind) {
    case CLOCK:
        return (size_t)answer * HADULMIR_ROW_SIZE;
    case ASK:
        return answer == HADULMIR_EVENT ? HADULMIR_ID_SIZE : 0;
    case LIST:
        return (size_t)answer * HADULMIR_RECORD_SIZE;
    default:
        return 0;
    }
}

/* A number as bytes, most significant first. */
static void put(uint8_t *at, size_t size, uint64_t number)
{
    while (size > 0) {
        size--;
        at[size] = (uint8_t)(number & 0xFF);
        number >>= 8;
    }
}

/*
 * When an event might begin at the earliest, by the sentence of #101: the lesser of start and start plus randomizeStart. From the bytes of its
 * entry, without the header's readers.
 */
static int64_t earliest_start(const uint8_t *entry)
{
    int64_t start = entry[25] * INT64_C(16777216) + entry[26] * 65536 + entry[27] * 256 + entry[28];
    int64_t moved = start + entry[33] * 256 + entry[34] - (entry[33] >= 128 ? 65536 : 0);

    return moved < start ? moved : start;
}

/* Whether these are the records of the image: for each held event the bytes of its entry, then 8 bytes of the earliest start. */
static int records_of(const uint8_t *records, int32_t count, const uint8_t *image)
{
    uint8_t wanted[HADULMIR_RECORD_SIZE];
    int32_t i;

    if (count != image[HADULMIR_COUNT_AT])
        return 0;
    for (i = 0; i < count; i++) {
        const uint8_t *entry = image + ENTRY(i);

        memcpy(wanted, entry, HADULMIR_ENTRY_SIZE);
        put(wanted + HADULMIR_ENTRY_SIZE, 8, (uint64_t)earliest_start(entry));
        if (memcmp(records + HADULMIR_RECORD_SIZE * i, wanted, HADULMIR_RECORD_SIZE) != 0)
            return 0;
    }
    return 1;
}

/* Whether a choice that was answered with 4 or 5 has turned bit 0 of the choice of its event, and no other bit of the image. */
static int turned(const uint8_t *before, const uint8_t *after, const struct op *op, int32_t returned)
{
    uint8_t wanted[IMAGE];
    size_t i;

    memcpy(wanted, before, IMAGE);
    for (i = 0; i < before[HADULMIR_COUNT_AT]; i++)
        if (hadulmir_number_at(before + ENTRY(i), 8) == op->high && hadulmir_number_at(before + ENTRY(i) + 8, 8) == op->id)
            wanted[ENTRY(i) + CHOICE_AT] ^= OUT;
    return returned == (op->kind == OPT_OUT ? HADULMIR_OPTED_OUT : HADULMIR_OPTED_IN) && memcmp(wanted, after, IMAGE) == 0
           && memcmp(before, after, IMAGE) != 0;
}

/* Whether an accepted call has left the image as it may. */
static int image_fits(const uint8_t *before, const uint8_t *after, size_t len, const struct op *op, int32_t returned)
{
    switch (op->kind) {
    case ASK:
    case LIST:
        return memcmp(before, after, len) == 0;
    case DELIVER:
    case CANCEL:
        return returned != 0 || memcmp(before, after, len) == 0;
    case OPT_OUT:
    case OPT_IN:
        return returned == 0 ? memcmp(before, after, len) == 0 : len == IMAGE && turned(before, after, op, returned);
    default:
        return 1;
    }
}

/* The lent bytes as the last call left them. */
static uint8_t lent_bytes[LENT_AT_MOST];

/* Makes a call on `len` bytes of an image, which get what the call left. */
static int32_t call_at_length(uint8_t *image, size_t len, struct op op)
{
    struct lent own = lend(len), lent = lend(op.room);
    int32_t returned;
    int untouched;

    memcpy(own.at, image, len);
    returned = act(own.at, len, &op, lent.at);
    untouched = guards_whole(&own) && guards_whole(&lent);
    if (returned < 0)
        untouched = untouched && memcmp(own.at, image, len) == 0 && pattern_from(&lent, 0);
    else
        untouched = untouched && image_fits(image, own.at, len, &op, returned) && written(op.kind, returned) <= op.room
                    && pattern_from(&lent, written(op.kind, returned));
    CHECK(untouched);
    if (op.kind == LIST && returned >= 0)
        CHECK(written(LIST, returned) <= op.room && records_of(lent.at, returned, own.at));
    memcpy(image, own.at, len);
    memcpy(lent_bytes, lent.at, op.room);
    free(own.block);
    free(lent.block);
    return returned;
}

static int32_t call(uint8_t *image, struct op op)
{
    return call_at_length(image, IMAGE, op);
}

static void expect_at(uint8_t *image, struct op op, int32_t wanted, int line)
{
    int32_t returned = call(image, op);

    if (returned != wanted && failed < 40)
        printf("face.c:%d: returned %" PRId32 ", expected %" PRId32 "\n", line, returned, wanted);
    check(returned == wanted, "the returned number", line);
}

#define EXPECT(image, op, wanted) expect_at((image), (op), (wanted), __LINE__)

/* IMAGES BY HAND, and what is read out of them */

static void blank_image(uint8_t *image, uint64_t clock)
{
    memset(image, 0, IMAGE);
    put(image, 8, clock);
}

static void put_program(uint8_t *image, uint8_t number, uint8_t primacy, uint32_t defaults)
{
    uint8_t *at = image + PROGRAM(number);

    at[0] = 1;
    at[1] = primacy;
    put(at + 2, 4, defaults);
}

static uint8_t *entry_of(uint8_t *image, size_t i)
{
    return image + ENTRY(i);
}

/* Puts an entry behind the last one. */
static void put_event(uint8_t *image, struct op e, uint64_t effective_start, uint32_t held, uint8_t cancelled, uint8_t choice)
{
    uint8_t *at = entry_of(image, image[HADULMIR_COUNT_AT]);

    put(at, 8, e.high);
    put(at + 8, 8, e.id);
    at[PROGRAM_AT] = e.number;
    put(at + CONTROLS_AT, 4, e.controls);
    put(at + CREATED_AT, 4, e.created);
    put(at + START_AT, 4, e.start);
    put(at + DURATION_AT, 4, e.duration);
    put(at + RANDOMIZE_START_AT, 2, hadulmir_signed(e.randomize_start));
    put(at + RANDOMIZE_DURATION_AT, 2, hadulmir_signed(e.randomize_duration));
    put(at + START_DRAW_AT, 2, hadulmir_signed(e.start_draw));
    put(at + DURATION_DRAW_AT, 2, hadulmir_signed(e.duration_draw));
    put(at + EFFECTIVE_START_AT, 8, effective_start);
    put(at + HELD_AT, 4, held);
    at[CANCELLED_AT] = cancelled;
    at[CHOICE_AT] = choice;
    image[HADULMIR_COUNT_AT]++;
}

static int same(const uint8_t *a, const uint8_t *b)
{
    return memcmp(a, b, IMAGE) == 0;
}

static void fresh(uint8_t *image)
{
    CHECK(hadulmir_fresh(image, IMAGE) == 0);
}

/* Appends to a text whose parts are separated by "; ". */
static void append(char *text, const char *part)
{
    if (text[0] != '\0')
        strcat(text, "; ");
    strcat(text, part);
}

/* An id as text: a number, before it the upper half and a colon where that is not 0. */
static const char *id_text(struct hadulmir_id id)
{
    static char text[48];

    if (id.high == 0)
        snprintf(text, sizeof text, "%" PRIu64, id.low);
    else
        snprintf(text, sizeof text, "%" PRIu64 ":%" PRIu64, id.high, id.low);
    return text;
}

static void rows_text(char *text, int32_t count)
{
    char part[128];
    int32_t i;

    text[0] = '\0';
    for (i = 0; i < count; i++) {
        struct hadulmir_row row = hadulmir_row_at(lent_bytes, (size_t)i);
        snprintf(part, sizeof part, "%" PRIu64 " %s %u", row.time, id_text(row.id), (unsigned)row.code);
        append(text, part);
    }
}

static size_t parts_of(const char *text)
{
    size_t parts = text[0] != '\0';

    for (; *text != '\0'; text++)
        parts += *text == ';';
    return parts;
}

/*
 * Sets the clock and compares the rows: "time id code; time id code". The buffer is first one byte short, then longer than needed by one
 * byte, then by more than a row, then exact; the first is refused and the others agree.
 */
static void rows_at(uint8_t *image, uint64_t reading, const char *wanted, int line)
{
    static char text[TEXT_AT_MOST];
    static const size_t more[] = {1, 40, 0};
    uint8_t before[IMAGE], after[IMAGE];
    size_t need = parts_of(wanted) * HADULMIR_ROW_SIZE;
    size_t i;

    memcpy(before, image, IMAGE);
    if (need > 0)
        expect_at(image, set_clock(reading, need - 1), HADULMIR_TOO_SHORT, line);
    for (i = 0; i < 3; i++) {
        memcpy(image, before, IMAGE);
        expect_at(image, set_clock(reading, need + more[i]), (int32_t)parts_of(wanted), line);
        rows_text(text, (int32_t)parts_of(wanted));
        if (strcmp(text, wanted) != 0)
            printf("face.c:%d: rows %s\n", line, text);
        check(strcmp(text, wanted) == 0, "the rows", line);
        check(hadulmir_clock_of(image) == reading, "the clock", line);
        if (i > 0)
            check(same(image, after), "one image for every room", line);
        memcpy(after, image, IMAGE);
    }
}

#define ROWS(image, reading, wanted) rows_at((image), (reading), (wanted), __LINE__)

/* A record as text: "id start-end held", behind it " cancelled", " out", and " earliest TIME" where that is not the effective start. */
static void record_text(char *text, size_t size, size_t i)
{
    struct hadulmir_record r = hadulmir_record_at(lent_bytes, i);
    int used = snprintf(text, size, "%s %" PRIu64 "-%" PRIu64 " %" PRIX32 "%s%s", id_text(r.entry.event.id), r.entry.effective_start,
                        hadulmir_effective_end(&r.entry.event), r.entry.held, r.entry.cancelled ? " cancelled" : "",
                        r.entry.out ? " out" : "");

    if (r.earliest_start != r.entry.effective_start)
        snprintf(text + used, size - (size_t)used, " earliest %" PRIu64, r.earliest_start);
}

/* Lists and compares the records, "; " between them. The room is one byte short, longer, and exact, as with rows. */
static void listed_at(uint8_t *image, const char *wanted, int line)
{
    static char text[TEXT_AT_MOST];
    static const size_t more[] = {1, HADULMIR_RECORD_SIZE - 1, HADULMIR_RECORD_SIZE, 100, 0};
    size_t need = parts_of(wanted) * HADULMIR_RECORD_SIZE;
    size_t i, j;
    char part[128];

    if (need > 0)
        expect_at(image, list(need - 1), HADULMIR_TOO_SHORT, line);
    for (i = 0; i < 5; i++) {
        expect_at(image, list(need + more[i]), (int32_t)parts_of(wanted), line);
        text[0] = '\0';
        for (j = 0; j < parts_of(wanted); j++) {
            record_text(part, sizeof part, j);
            append(text, part);
        }
        if (strcmp(text, wanted) != 0)
            printf("face.c:%d: records %s\n", line, text);
        check(strcmp(text, wanted) == 0, "the records", line);
    }
}

#define LISTED(image, wanted) listed_at((image), (wanted), __LINE__)

/* Asks for a control: an event by its id. Its id buffer is too short, longer, and exact. */
static void holder_at(uint8_t *image, uint8_t control, uint64_t high, uint64_t id, int line)
{
    size_t room;

    for (room = 0; room < HADULMIR_ID_SIZE; room++)
        expect_at(image, ask(control, room), HADULMIR_TOO_SHORT, line);
    for (; room <= 2 * HADULMIR_ID_SIZE + 1; room++) {
        expect_at(image, ask(control, room), HADULMIR_EVENT, line);
        check(hadulmir_number_at(lent_bytes, 8) == high && hadulmir_number_at(lent_bytes + 8, 8) == id, "the holder's id", line);
    }
}

#define HOLDER(image, control, id) holder_at((image), (control), 0, (id), __LINE__)
#define WIDE_HOLDER(image, control, high, id) holder_at((image), (control), (high), (id), __LINE__)

/* Asks for a control that no event holds: nothing is written, so every length does. */
static void no_holder_at(uint8_t *image, uint8_t control, int32_t wanted, int line)
{
    size_t room;

    for (room = 0; room <= HADULMIR_ID_SIZE + 1; room++)
        expect_at(image, ask(control, room), wanted, line);
}

#define NONE(image, control) no_holder_at((image), (control), HADULMIR_NOBODY, __LINE__)
#define FALLS_BACK(image, control, program) no_holder_at((image), (control), HADULMIR_DEFAULT + (program), __LINE__)

/* THE FUNCTIONS, ONE BY ONE */

/* An image with program 0 (primacy 1, no defaults) at a clock. */
static void begin(uint8_t *image, uint64_t clock)
{
    fresh(image);
    EXPECT(image, add(0, 1, 0), 0);
    EXPECT(image, set_clock(clock, 0), 0);
}

static void test_fresh(void)
{
    static const size_t wrong[] = {0, 1, HADULMIR_ENTRY_SIZE, IMAGE - 1, IMAGE + 1, 2 * IMAGE};
    uint8_t zero[IMAGE];
    struct lent b;
    size_t i;

    memset(zero, 0, IMAGE);
    b = lend(IMAGE);
    CHECK(hadulmir_fresh(b.at, IMAGE) == 0);
    CHECK(same(b.at, zero) && guards_whole(&b));
    CHECK(hadulmir_fresh(b.at, IMAGE) == 0);
    CHECK(same(b.at, zero) && guards_whole(&b));
    free(b.block);
    for (i = 0; i < sizeof wrong / sizeof wrong[0]; i++) {
        b = lend(wrong[i]);
        CHECK(hadulmir_fresh(b.at, wrong[i]) == HADULMIR_BAD_IMAGE);
        CHECK(pattern_from(&b, 0) && guards_whole(&b));
        free(b.block);
    }
    LISTED(zero, "");
    ROWS(zero, 0, "");
    NONE(zero, 0);
}

static void test_add_program(void)
{
    uint8_t image[IMAGE], wanted[IMAGE];
    unsigned n;

    fresh(image);
    blank_image(wanted, 0);
    for (n = 0; n < 8; n++) {
        EXPECT(image, add((uint8_t)n, (uint8_t)(191 - n), 0x80000001u + n), 0);
        put_program(wanted, (uint8_t)n, (uint8_t)(191 - n), 0x80000001u + n);
        CHECK(same(image, wanted));
    }
    for (n = 0; n < 8; n++) {
        EXPECT(image, add((uint8_t)n, (uint8_t)(191 - n), 0x80000001u + n), HADULMIR_PROGRAM_ADDED);
        EXPECT(image, add((uint8_t)n, 0, 0), HADULMIR_PROGRAM_ADDED);
        EXPECT(image, add((uint8_t)n, 3, 0), HADULMIR_PROGRAM_ADDED); /* 4 before 5 */
    }
    for (n = 8; n < 256; n++) {
        EXPECT(image, add((uint8_t)n, 0, 0), HADULMIR_PROGRAM_TOO_LARGE);
        EXPECT(image, add((uint8_t)n, 64, 0), HADULMIR_PROGRAM_TOO_LARGE); /* 3 before 5 */
    }
    for (n = 0; n < 256; n++) {
        fresh(image);
        EXPECT(image, add(7, (uint8_t)n, 0), n <= 2 || (n >= 65 && n <= 191) ? 0 : HADULMIR_PRIMACY_RESERVED);
    }
    fresh(image);
    EXPECT(image, add(3, 0, 0), 0);
    blank_image(wanted, 0);
    put_program(wanted, 3, 0, 0);
    CHECK(same(image, wanted));
    EXPECT(image, set_clock(HADULMIR_CLOCK_AT_MOST, 0), 0);
    EXPECT(image, add(4, 65, 0xFFFFFFFFu), 0);
    put(wanted, 8, HADULMIR_CLOCK_AT_MOST);
    put_program(wanted, 4, 65, 0xFFFFFFFFu);
    CHECK(same(image, wanted));
}

/* Delivers to a copy, so that the image stays as it is. */
static void try_at(const uint8_t *image, struct op op, int32_t wanted, int line)
{
    uint8_t copy[IMAGE];

    memcpy(copy, image, IMAGE);
    expect_at(copy, op, wanted, line);
}

#define TRY(image, op, wanted) try_at((image), (op), (wanted), __LINE__)

static void test_deliver_answers(void)
{
    uint8_t image[IMAGE], wanted[IMAGE];
    struct op first = drawn(event(0x090A0B0C0D0E0F10u, 7, 0xA1B2C3D4u, 0x11223344, 0x55667788, 0x99AABBCCu), -3600, -2, 3600, 3);
    struct op smaller = event(UINT64_MAX, 0, 1, 0, 3600, 1);
    struct op larger = wide(UINT64_MAX, event(UINT64_MAX, 0, 0xFFFFFFFFu, UINT32_MAX, UINT32_MAX, UINT32_MAX));

    first.high = 0x0102030405060708u;
    fresh(image);
    EXPECT(image, add(7, 191, 0), 0);
    EXPECT(image, add(0, 0, 0), 0);
    EXPECT(image, first, HADULMIR_RECEIVED);
    blank_image(wanted, 0);
    put_program(wanted, 7, 191, 0);
    put_program(wanted, 0, 0, 0);
    put_event(wanted, first, 0x55667786, 0, 0, 0);
    CHECK(same(image, wanted));

    /* Entries go by id, whatever the order of arrival. */
    EXPECT(image, larger, HADULMIR_RECEIVED);
    EXPECT(image, smaller, HADULMIR_RECEIVED);
    blank_image(wanted, 0);
    put_program(wanted, 7, 191, 0);
    put_program(wanted, 0, 0, 0);
    put_event(wanted, smaller, 3600, 0, 0, 0);
    put_event(wanted, first, 0x55667786, 0, 0, 0);
    put_event(wanted, larger, UINT32_MAX, 0, 0, 0);
    CHECK(same(image, wanted));

    /* Held already: 0, and no change, also if cancelled or if the end by the duration alone has passed. */
    EXPECT(image, first, 0);
    EXPECT(image, smaller, 0);
    EXPECT(image, larger, 0);
    EXPECT(image, wide(UINT64_MAX, cancel(UINT64_MAX)), HADULMIR_CANCELLED);
    EXPECT(image, larger, 0);
    begin(image, 4000);
    EXPECT(image, drawn(event(9, 0, 1, 0, 5000, 600), 0, 0, 100, 100), HADULMIR_RECEIVED);
    ROWS(image, 5650, "5000 9 2");
    EXPECT(image, drawn(event(9, 0, 1, 0, 5000, 600), 0, 0, 100, 100), 0);
    EXPECT(image, drawn(event(8, 0, 1, 0, 5000, 600), 0, 0, 100, 100), HADULMIR_EVENT_EXPIRED);

    /* The id 0 is an id. After its end an id is free, for another event only. */
    EXPECT(image, event(0, 0, 2, 0, 6000, 60), HADULMIR_RECEIVED);
    ROWS(image, 6060, "5700 9 3; 6000 0 2; 6060 0 3");
    LISTED(image, "");
    EXPECT(image, event(0, 0, 2, 0, 6000, 60), HADULMIR_EVENT_EXPIRED);
    EXPECT(image, event(0, 0, 2, 0, 7000, 60), HADULMIR_RECEIVED);
    LISTED(image, "0 7000-7060 0");
}

/* An event that its draw has ended before start + duration is delivered again: with that draw it comes too late, with another it is new. */
static void test_deliver_ended(void)
{
    uint8_t image[IMAGE];

    begin(image, 4000);
    EXPECT(image, drawn(event(9, 0, 1, 0, 5000, 600), 0, 0, -100, -100), HADULMIR_RECEIVED);
    ROWS(image, 5550, "5000 9 2; 5500 9 3");
    EXPECT(image, drawn(event(9, 0, 1, 0, 5000, 600), 0, 0, -100, -100), HADULMIR_EVENT_EXPIRED);
    EXPECT(image, drawn(event(9, 0, 1, 0, 5000, 600), 0, 0, -100, -20), HADULMIR_RECEIVED);
    ROWS(image, 5600, "5551 9 2; 5580 9 3");
}

static void test_deliver_refusals(void)
{
    uint8_t image[IMAGE];
    const struct op good = event(1, 0, 1, 100, 5000, 600);
    struct op e;
    unsigned n;

    begin(image, 4000);
    TRY(image, good, HADULMIR_RECEIVED);

    /* 3 and 6, in this order and before 7. */
    for (n = 8; n < 256; n++)
        TRY(image, event(1, (uint8_t)n, 1, 100, 5000, 600), HADULMIR_PROGRAM_TOO_LARGE);
    TRY(image, event(1, 8, 0, 100, 0, 0), HADULMIR_PROGRAM_TOO_LARGE);
    for (n = 1; n < 8; n++) {
        TRY(image, event(1, (uint8_t)n, 1, 100, 5000, 600), HADULMIR_PROGRAM_UNKNOWN);
        TRY(image, event(1, (uint8_t)n, 0, 100, 0, 0), HADULMIR_PROGRAM_UNKNOWN);
    }

    /* 7, each condition on both sides of its edge. */
    TRY(image, event(1, 0, 0, 100, 5000, 600), HADULMIR_EVENT_INVALID);
    TRY(image, event(1, 0, 0x80000000u, 100, 5000, 600), HADULMIR_RECEIVED);
    TRY(image, event(1, 0, 1, 100, 3599, 600), HADULMIR_EVENT_INVALID);
    TRY(image, event(1, 0, 1, 100, 3600, 600), HADULMIR_RECEIVED);
    TRY(image, event(1, 0, 1, 100, 5000, 0), HADULMIR_EVENT_INVALID);
    TRY(image, event(1, 0, 1, 100, 5000, 1), HADULMIR_RECEIVED);
    TRY(image, drawn(good, 3600, 3600, 0, 0), HADULMIR_RECEIVED);
    TRY(image, drawn(good, 3601, 0, 0, 0), HADULMIR_EVENT_INVALID);
    TRY(image, drawn(good, 3600, 3601, 0, 0), HADULMIR_EVENT_INVALID);
    TRY(image, drawn(good, -3600, -100, 0, 0), HADULMIR_RECEIVED);
    TRY(image, drawn(good, -3601, 0, 0, 0), HADULMIR_EVENT_INVALID);
    TRY(image, drawn(good, -3600, -3601, 0, 0), HADULMIR_EVENT_INVALID);
    TRY(image, drawn(good, 0, 0, 3600, 3600), HADULMIR_RECEIVED);
    TRY(image, drawn(good, 0, 0, 3601, 0), HADULMIR_EVENT_INVALID);
    TRY(image, drawn(good, 0, 0, 3600, 3601), HADULMIR_EVENT_INVALID);
    TRY(image, drawn(good, 0, 0, -3600, -599), HADULMIR_RECEIVED);
    TRY(image, drawn(good, 0, 0, -3601, 0), HADULMIR_EVENT_INVALID);
    TRY(image, drawn(good, 0, 0, -3600, -600), HADULMIR_EVENT_INVALID);
    TRY(image, drawn(good, 0, 1, 0, 0), HADULMIR_EVENT_INVALID);
    TRY(image, drawn(good, 0, -1, 0, 0), HADULMIR_EVENT_INVALID);
    TRY(image, drawn(good, 0, 0, 0, 1), HADULMIR_EVENT_INVALID);
    TRY(image, drawn(good, 0, 0, 0, -1), HADULMIR_EVENT_INVALID);
    TRY(image, drawn(good, 10, -1, 0, 0), HADULMIR_EVENT_INVALID);
    TRY(image, drawn(good, -10, 1, 0, 0), HADULMIR_EVENT_INVALID);
    TRY(image, drawn(good, 10, 11, 0, 0), HADULMIR_EVENT_INVALID);
    TRY(image, drawn(good, -10, -11, 0, 0), HADULMIR_EVENT_INVALID);
    TRY(image, drawn(good, 10, 10, -10, -10), HADULMIR_RECEIVED);
    TRY(image, drawn(good, -32768, 0, 0, 0), HADULMIR_EVENT_INVALID);
    TRY(image, drawn(good, 32767, 0, 0, 0), HADULMIR_EVENT_INVALID);
    TRY(image, drawn(good, 0, -32768, 0, 0), HADULMIR_EVENT_INVALID);
    TRY(image, drawn(good, 0, 0, 0, -32768), HADULMIR_EVENT_INVALID);
    TRY(image, drawn(good, -65836, 0, 0, 0), HADULMIR_EVENT_INVALID); /* cut off to 16 bits it would have been -300 */

    /* 8, by each field; 7 before 8; 8 before 9. */
    EXPECT(image, good, HADULMIR_RECEIVED);
    EXPECT(image, add(1, 1, 0), 0);
    EXPECT(image, event(1, 1, 1, 100, 5000, 600), HADULMIR_EVENT_DIFFERS);
    EXPECT(image, event(1, 0, 3, 100, 5000, 600), HADULMIR_EVENT_DIFFERS);
    EXPECT(image, event(1, 0, 1, 101, 5000, 600), HADULMIR_EVENT_DIFFERS);
    EXPECT(image, event(1, 0, 1, 100, 5001, 600), HADULMIR_EVENT_DIFFERS);
    EXPECT(image, event(1, 0, 1, 100, 5000, 601), HADULMIR_EVENT_DIFFERS);
    EXPECT(image, drawn(good, 1, 0, 0, 0), HADULMIR_EVENT_DIFFERS);
    EXPECT(image, drawn(good, 0, 0, 1, 0), HADULMIR_EVENT_DIFFERS);
    EXPECT(image, drawn(good, 0, 0, 0, 1), HADULMIR_EVENT_INVALID);
    EXPECT(image, drawn(event(2, 0, 2, 0, 5000, 600), 10, 5, 10, 5), HADULMIR_RECEIVED);
    EXPECT(image, drawn(event(2, 0, 2, 0, 5000, 600), 10, 6, 10, 5), HADULMIR_EVENT_DIFFERS);
    EXPECT(image, drawn(event(2, 0, 2, 0, 5000, 600), 10, 5, 10, 6), HADULMIR_EVENT_DIFFERS);
    EXPECT(image, event(1, 0, 1, 100, 3600, 1), HADULMIR_EVENT_DIFFERS);
    EXPECT(image, event(1, 0, 0, 100, 5000, 600), HADULMIR_EVENT_INVALID);

    /* 9, both reasons. The sum start + duration has more than 32 bits. */
    begin(image, 5599);
    TRY(image, good, HADULMIR_EVENT_EXPIRED);
    TRY(image, drawn(good, 0, 0, 1, 1), HADULMIR_RECEIVED);
    begin(image, 5600);
    TRY(image, drawn(good, 0, 0, 100, 100), HADULMIR_EVENT_EXPIRED);
    begin(image, 5299);
    TRY(image, drawn(good, -300, -300, 0, 0), HADULMIR_EVENT_EXPIRED);
    begin(image, 5298);
    TRY(image, drawn(good, -300, -300, 0, 0), HADULMIR_RECEIVED);
    begin(image, 0);
    TRY(image, drawn(event(1, 0, 1, 0, 3600, 1), -3600, -3600, 0, 0), HADULMIR_EVENT_EXPIRED);
    TRY(image, drawn(event(1, 0, 1, 0, 3600, 2), -3600, -3600, 0, 0), HADULMIR_RECEIVED);
    begin(image, UINT64_C(8589934588));
    TRY(image, event(1, 0, 1, 0, UINT32_MAX, UINT32_MAX), HADULMIR_RECEIVED);
    begin(image, UINT64_C(8589934589));
    TRY(image, event(1, 0, 1, 0, UINT32_MAX, UINT32_MAX), HADULMIR_EVENT_EXPIRED);
    begin(image, HADULMIR_CLOCK_AT_MOST);
    e = drawn(event(1, 0, 1, 0, UINT32_MAX, UINT32_MAX), 3600, 3600, 3600, 3600);
    TRY(image, e, HADULMIR_EVENT_EXPIRED);
    begin(image, UINT64_C(8589934589));
    EXPECT(image, e, HADULMIR_RECEIVED);
    ROWS(image, HADULMIR_CLOCK_AT_MOST, "8589934590 1 2; 8589941790 1 3");
}

static void test_cancel(void)
{
    uint8_t image[IMAGE], wanted[IMAGE];

    begin(image, 4000);
    EXPECT(image, cancel(1), HADULMIR_NOT_HELD);
    EXPECT(image, event(1, 0, 1, 100, 5000, 600), HADULMIR_RECEIVED);
    EXPECT(image, event(2, 0, 2, 100, 5000, 600), HADULMIR_RECEIVED);
    EXPECT(image, event(4, 0, 1, 50, 5000, 600), HADULMIR_RECEIVED);
    EXPECT(image, cancel(0), HADULMIR_NOT_HELD);
    EXPECT(image, cancel(3), HADULMIR_NOT_HELD);
    EXPECT(image, cancel(UINT64_MAX), HADULMIR_NOT_HELD);
    EXPECT(image, wide(1, cancel(1)), HADULMIR_NOT_HELD);
    EXPECT(image, wide(UINT64_C(1) << 63, cancel(2)), HADULMIR_NOT_HELD);
    EXPECT(image, wide(4, cancel(0)), HADULMIR_NOT_HELD);

    /* Before its start: it never holds and gives no row. */
    EXPECT(image, cancel(2), HADULMIR_CANCELLED);
    EXPECT(image, cancel(2), 0);
    LISTED(image, "1 5000-5600 0; 2 5000-5600 0 cancelled; 4 5000-5600 0");
    ROWS(image, 5100, "5000 4 7; 5000 1 2");
    HOLDER(image, 0, 1);
    NONE(image, 1);

    /* While it holds: from then on it holds nothing. The one that it had beaten does not come back, and can be cancelled too. */
    memcpy(wanted, image, IMAGE);
    EXPECT(image, cancel(1), HADULMIR_CANCELLED);
    put(entry_of(wanted, 0) + HELD_AT, 4, 0);
    entry_of(wanted, 0)[CANCELLED_AT] = 1;
    CHECK(same(image, wanted));
    NONE(image, 0);
    EXPECT(image, cancel(4), HADULMIR_CANCELLED);
    EXPECT(image, cancel(4), 0);
    LISTED(image, "1 5000-5600 0 cancelled; 2 5000-5600 0 cancelled; 4 5000-5600 0 cancelled");
    ROWS(image, 5599, "");
    EXPECT(image, cancel(1), 0);
    ROWS(image, 5600, "");
    EXPECT(image, cancel(1), HADULMIR_NOT_HELD);
    LISTED(image, "");

    /* What it holds at the clock counts as held then: a worse one that starts at that moment is beaten, one second later it is not. */
    begin(image, 4000);
    EXPECT(image, event(1, 0, 1, 200, 5000, 600), HADULMIR_RECEIVED);
    EXPECT(image, event(2, 0, 1, 100, 5100, 300), HADULMIR_RECEIVED);
    EXPECT(image, event(3, 0, 1, 100, 5101, 300), HADULMIR_RECEIVED);
    ROWS(image, 5100, "5000 1 2; 5100 2 7");
    EXPECT(image, cancel(1), HADULMIR_CANCELLED);
    ROWS(image, 6000, "5101 3 2; 5401 3 3");
}

static void test_set_clock(void)
{
    uint8_t image[IMAGE], wanted[IMAGE];
    uint64_t reading;

    begin(image, 4000);
    EXPECT(image, set_clock(4000, 0), 0);
    EXPECT(image, set_clock(3999, 0), HADULMIR_BAD_CLOCK);
    EXPECT(image, set_clock(0, ROWS_ROOM), HADULMIR_BAD_CLOCK);
    EXPECT(image, set_clock(HADULMIR_CLOCK_AT_MOST + 1, ROWS_ROOM), HADULMIR_BAD_CLOCK);
    EXPECT(image, set_clock(UINT64_MAX, 0), HADULMIR_BAD_CLOCK);
    EXPECT(image, event(1, 0, 1, 100, 5000, 600), HADULMIR_RECEIVED);
    EXPECT(image, set_clock(3999, 0), HADULMIR_BAD_CLOCK); /* 12 before 13 */
    EXPECT(image, set_clock(HADULMIR_CLOCK_AT_MOST + 1, 0), HADULMIR_BAD_CLOCK);
    TRY(image, set_clock(HADULMIR_CLOCK_AT_MOST, 2 * HADULMIR_ROW_SIZE), 2);
    TRY(image, set_clock(HADULMIR_CLOCK_AT_MOST, 2 * HADULMIR_ROW_SIZE - 1), HADULMIR_TOO_SHORT);
    TRY(image, set_clock(HADULMIR_CLOCK_AT_MOST, 0), HADULMIR_TOO_SHORT);
    ROWS(image, 4999, "");

    /* The image after a clock call, whole. */
    ROWS(image, 5000, "5000 1 2");
    blank_image(wanted, 5000);
    put_program(wanted, 0, 1, 0);
    put_event(wanted, event(1, 0, 1, 100, 5000, 600), 5000, 1, 0, WAS_IN);
    CHECK(same(image, wanted));
    ROWS(image, 5000, "");
    CHECK(same(image, wanted));
    ROWS(image, 5599, "");
    ROWS(image, 5600, "5600 1 3");
    blank_image(wanted, 5600);
    put_program(wanted, 0, 1, 0);
    CHECK(same(image, wanted));
    ROWS(image, HADULMIR_CLOCK_AT_MOST, "");
    ROWS(image, HADULMIR_CLOCK_AT_MOST, "");
    EXPECT(image, set_clock(HADULMIR_CLOCK_AT_MOST - 1, 0), HADULMIR_BAD_CLOCK);

    /* Rows at one time: 3, then 7, then 2, each by id. */
    begin(image, 4000);
    EXPECT(image, event(9, 0, 1, 100, 5000, 100), HADULMIR_RECEIVED);
    EXPECT(image, event(8, 0, 2, 100, 5000, 100), HADULMIR_RECEIVED);
    EXPECT(image, event(7, 0, 4, 100, 5000, 200), HADULMIR_RECEIVED);
    EXPECT(image, event(6, 0, 8, 100, 5000, 200), HADULMIR_RECEIVED);
    EXPECT(image, event(5, 0, 12, 200, 5100, 100), HADULMIR_RECEIVED);
    EXPECT(image, event(4, 0, 1, 200, 5100, 100), HADULMIR_RECEIVED);
    EXPECT(image, event(3, 0, 1, 100, 5100, 100), HADULMIR_RECEIVED);
    ROWS(image, 5100, "5000 6 2; 5000 7 2; 5000 8 2; 5000 9 2; 5100 8 3; 5100 9 3; 5100 3 7; 5100 6 7; 5100 7 7; 5100 4 2; 5100 5 2");

    /* A call for each second gives what one call gives. */
    begin(image, 4990);
    EXPECT(image, event(1, 0, 3, 100, 5000, 20), HADULMIR_RECEIVED);
    EXPECT(image, event(2, 0, 1, 200, 5005, 5), HADULMIR_RECEIVED);
    EXPECT(image, event(3, 0, 3, 300, 5015, 3), HADULMIR_RECEIVED);
    memcpy(wanted, image, IMAGE);
    for (reading = 4991; reading <= 5030; reading++)
        switch (reading) {
        case 5000:
            ROWS(image, reading, "5000 1 2");
            break;
        case 5005:
            ROWS(image, reading, "5005 2 2");
            break;
        case 5010:
            ROWS(image, reading, "5010 2 3");
            break;
        case 5015:
            ROWS(image, reading, "5015 1 7; 5015 3 2");
            break;
        case 5018:
            ROWS(image, reading, "5018 3 3");
            break;
        default:
            ROWS(image, reading, "");
        }
    ROWS(wanted, 5030, "5000 1 2; 5005 2 2; 5010 2 3; 5015 1 7; 5015 3 2; 5018 3 3");
    CHECK(same(image, wanted));
}

static void test_ask(void)
{
    uint8_t image[IMAGE];
    unsigned c;

    fresh(image);
    for (c = 0; c < 32; c++)
        NONE(image, (uint8_t)c);
    for (c = 32; c < 256; c++) {
        EXPECT(image, ask((uint8_t)c, ID_ROOM), HADULMIR_CONTROL_TOO_LARGE);
        EXPECT(image, ask((uint8_t)c, 0), HADULMIR_CONTROL_TOO_LARGE);
    }

    /* Each program as the default; the best primacy, then the smaller number. */
    for (c = 0; c < 8; c++) {
        EXPECT(image, add((uint8_t)c, 100, UINT32_C(1) << (c + 8)), 0);
        FALLS_BACK(image, (uint8_t)(c + 8), (int32_t)c);
        NONE(image, (uint8_t)c);
    }
    fresh(image);
    EXPECT(image, add(6, 90, 0x80000003u), 0);
    FALLS_BACK(image, 31, 6);
    EXPECT(image, add(2, 91, 0x80000001u), 0);
    FALLS_BACK(image, 31, 6);
    EXPECT(image, add(3, 90, 0x00000001u), 0);
    FALLS_BACK(image, 0, 3);
    FALLS_BACK(image, 1, 6);
    FALLS_BACK(image, 31, 6);
    EXPECT(image, add(7, 0, 0x80000000u), 0);
    FALLS_BACK(image, 31, 7);

    /* A holder before a default, whatever the primacies; none before its start and after its end. 14 before 13. */
    EXPECT(image, set_clock(4000, 0), 0);
    EXPECT(image, wide(UINT64_C(0x0123456789ABCDEF), event(UINT64_C(0xFEDCBA9876543210), 2, 0x80000000u, 100, 5000, 600)), HADULMIR_RECEIVED);
    FALLS_BACK(image, 31, 7);
    ROWS(image, 5000, "5000 81985529216486895:18364758544493064720 2");
    WIDE_HOLDER(image, 31, UINT64_C(0x0123456789ABCDEF), UINT64_C(0xFEDCBA9876543210));
    EXPECT(image, ask(32, ID_ROOM - 1), HADULMIR_CONTROL_TOO_LARGE);
    FALLS_BACK(image, 0, 3);
    NONE(image, 30);
    ROWS(image, 5600, "5600 81985529216486895:18364758544493064720 3");
    FALLS_BACK(image, 31, 7);
}

/* A full schedule: 48 events, one behind the other, ids not in the order of their starts. */
static void fill(uint8_t *image)
{
    uint32_t i;

    begin(image, 4000);
    for (i = 0; i < 48; i++)
        EXPECT(image, event((i * 5) % 48 + 100, 0, UINT32_C(1) << i % 32, i, 5000 + 10 * i, 5), HADULMIR_RECEIVED);
}

static void test_full(void)
{
    static char rows[TEXT_AT_MOST], records[TEXT_AT_MOST];
    uint8_t image[IMAGE], copy[IMAGE];
    char part[128];
    uint32_t i;

    fill(image);
    EXPECT(image, event(1, 0, 1, 0, 5000, 5), HADULMIR_FULL);
    EXPECT(image, event(100, 0, 1, 0, 5000, 5), 0);
    EXPECT(image, event(100, 0, 1, 0, 5000, 6), HADULMIR_EVENT_DIFFERS); /* 8 before 10 */
    EXPECT(image, event(1, 0, 1, 0, 3600, 400), HADULMIR_EVENT_EXPIRED); /* 9 before 10 */
    EXPECT(image, event(1, 0, 0, 0, 5000, 5), HADULMIR_EVENT_INVALID);

    rows[0] = records[0] = '\0';
    for (i = 0; i < 48; i++) {
        snprintf(part, sizeof part, "%u %u 2; %u %u 3", (unsigned)(5000 + 10 * i), (unsigned)(i * 5 % 48 + 100),
                 (unsigned)(5005 + 10 * i), (unsigned)(i * 5 % 48 + 100));
        append(rows, part);
        snprintf(part, sizeof part, "%u %u-%u 0", (unsigned)(100 + i), (unsigned)(5000 + 10 * (i * 29 % 48)),
                 (unsigned)(5005 + 10 * (i * 29 % 48)));
        append(records, part);
    }
    CHECK(parts_of(rows) == HADULMIR_ROWS_AT_MOST);
    LISTED(image, records);
    EXPECT(image, list(HADULMIR_RECORDS_SIZE), 48);
    EXPECT(image, list(HADULMIR_RECORDS_SIZE - 1), HADULMIR_TOO_SHORT);
    EXPECT(image, list(0), HADULMIR_TOO_SHORT);

    /* As many rows in one call as there can be: the room for them does, one byte less does not. */
    memcpy(copy, image, IMAGE);
    EXPECT(copy, set_clock(6000, ROWS_ROOM - 1), HADULMIR_TOO_SHORT);
    EXPECT(copy, set_clock(6000, ROWS_ROOM), HADULMIR_ROWS_AT_MOST);
    ROWS(image, 6000, rows);
    CHECK(same(image, copy));
    LISTED(image, "");

    /* Every count of rows that a clock call can answer, in the exact room. */
    fill(image);
    for (i = 1; i <= HADULMIR_ROWS_AT_MOST; i++) {
        TRY(image, set_clock(4995 + 5 * i, HADULMIR_ROW_SIZE * i), (int32_t)i);
        TRY(image, set_clock(4995 + 5 * i, HADULMIR_ROW_SIZE * i - 1), HADULMIR_TOO_SHORT);
    }

    /* One place comes free at an end, not before. A cancelled event keeps its place. */
    fill(image);
    EXPECT(image, cancel(100), HADULMIR_CANCELLED);
    ROWS(image, 5004, "");
    EXPECT(image, event(1, 0, 1, 0, 7000, 5), HADULMIR_FULL);
    ROWS(image, 5005, "");
    EXPECT(image, event(1, 0, 1, 0, 7000, 5), HADULMIR_RECEIVED);
    EXPECT(image, event(2, 0, 1, 0, 7000, 5), HADULMIR_FULL);

    /* 48 events that start and end together, on 32 controls: 48 rows at the start, 32 at the end. */
    begin(image, 4000);
    for (i = 0; i < 48; i++)
        EXPECT(image, event(i, 0, UINT32_C(1) << i % 32, i, 5000, 600), HADULMIR_RECEIVED);
    rows[0] = '\0';
    for (i = 0; i < 16; i++) {
        snprintf(part, sizeof part, "5000 %u 7", (unsigned)i);
        append(rows, part);
    }
    for (; i < 48; i++) {
        snprintf(part, sizeof part, "5000 %u 2", (unsigned)i);
        append(rows, part);
    }
    for (i = 16; i < 48; i++) {
        snprintf(part, sizeof part, "5600 %u 3", (unsigned)i);
        append(rows, part);
    }
    memcpy(copy, image, IMAGE);
    ROWS(copy, 6000, rows);
    EXPECT(image, set_clock(5000, 48 * HADULMIR_ROW_SIZE), 48);
    for (i = 0; i < 32; i++)
        HOLDER(image, (uint8_t)i, i < 16 ? i + 32 : i);
}

/* Every count of records, with randomisations of both signs: room for each does; one byte less does not, nor does room for the entries. */
static void test_rooms(void)
{
    uint8_t image[IMAGE];
    size_t i;

    begin(image, 4000);
    EXPECT(image, list(0), 0);
    for (i = 1; i <= HADULMIR_EVENTS_AT_MOST; i++) {
        int32_t bound = i % 2 == 0 ? 7 * (int32_t)i : -7 * (int32_t)i;

        EXPECT(image, wide(UINT64_MAX % i, drawn(event(UINT64_MAX / i, 0, 1, 0, 5000 + (uint32_t)i, 5), bound, bound / 2, 0, 0)),
               HADULMIR_RECEIVED);
        EXPECT(image, list(HADULMIR_ENTRY_SIZE * i), HADULMIR_TOO_SHORT);
        EXPECT(image, list((HADULMIR_RECORD_SIZE - 1) * i), HADULMIR_TOO_SHORT);
        EXPECT(image, list(HADULMIR_RECORD_SIZE * i - 1), HADULMIR_TOO_SHORT);
        EXPECT(image, list(HADULMIR_RECORD_SIZE * i), (int32_t)i);
        EXPECT(image, list(HADULMIR_RECORD_SIZE * i + 1), (int32_t)i);
    }
}

/* DOCUMENT 01'S MARKS AND EXAMPLE */

static const struct op mark = {.kind = DELIVER, .id = 1, .controls = 1, .created = 100, .start = 5000, .duration = 600};

static void test_marks(void)
{
    uint8_t image[IMAGE];

    /* T1 */
    begin(image, 4999);
    EXPECT(image, mark, HADULMIR_RECEIVED);
    LISTED(image, "1 5000-5600 0");
    ROWS(image, 6000, "5000 1 2; 5600 1 3");
    /* T2 */
    begin(image, 5000);
    EXPECT(image, mark, HADULMIR_RECEIVED);
    LISTED(image, "1 5001-5600 0 earliest 5000");
    ROWS(image, 6000, "5001 1 2; 5600 1 3");
    /* T3 */
    begin(image, 5598);
    EXPECT(image, mark, HADULMIR_RECEIVED);
    LISTED(image, "1 5599-5600 0 earliest 5000");
    ROWS(image, 6000, "5599 1 2; 5600 1 3");
    /* T4 */
    begin(image, 5599);
    EXPECT(image, mark, HADULMIR_EVENT_EXPIRED);
    LISTED(image, "");
    /* T5 */
    begin(image, 4000);
    EXPECT(image, drawn(mark, -300, -300, 0, 0), HADULMIR_RECEIVED);
    LISTED(image, "1 4700-5300 0");
    ROWS(image, 6000, "4700 1 2; 5300 1 3");
    /* T6 */
    begin(image, 4000);
    EXPECT(image, drawn(mark, -300, -301, 0, 0), HADULMIR_EVENT_INVALID);
    EXPECT(image, drawn(mark, -300, 1, 0, 0), HADULMIR_EVENT_INVALID);
    LISTED(image, "");
    /* T7 */
    EXPECT(image, drawn(event(1, 0, 1, 100, 5000, 10), 0, 0, -10, -10), HADULMIR_EVENT_INVALID);
    EXPECT(image, drawn(event(1, 0, 1, 100, 5000, 10), 0, 0, -10, -9), HADULMIR_RECEIVED);
    LISTED(image, "1 5000-5001 0");
    ROWS(image, 6000, "5000 1 2; 5001 1 3");
    /* T8 */
    begin(image, 4000);
    EXPECT(image, mark, HADULMIR_RECEIVED);
    EXPECT(image, event(2, 0, 1, 100, 5600, 600), HADULMIR_RECEIVED);
    ROWS(image, 7000, "5000 1 2; 5600 1 3; 5600 2 2; 6200 2 3");
    /* T9 */
    begin(image, 4000);
    EXPECT(image, mark, HADULMIR_RECEIVED);
    EXPECT(image, event(2, 0, 1, 99, 5000, 600), HADULMIR_RECEIVED);
    ROWS(image, 7000, "5000 2 7; 5000 1 2; 5600 1 3");
    /* T10 */
    begin(image, 4000);
    EXPECT(image, event(1, 0, 1, 300, 5000, 10), HADULMIR_RECEIVED);
    EXPECT(image, event(2, 0, 1, 200, 5005, 25), HADULMIR_RECEIVED);
    EXPECT(image, event(3, 0, 1, 100, 5012, 8), HADULMIR_RECEIVED);
    ROWS(image, 7000, "5000 1 2; 5005 2 7; 5010 1 3; 5012 3 2; 5020 3 3");
    /* T11 */
    begin(image, 4000);
    EXPECT(image, event(1, 0, 3, 100, 5000, 600), HADULMIR_RECEIVED);
    EXPECT(image, event(2, 0, 1, 200, 5200, 100), HADULMIR_RECEIVED);
    ROWS(image, 5250, "5000 1 2; 5200 2 2");
    HOLDER(image, 0, 2);
    HOLDER(image, 1, 1);
    LISTED(image, "1 5000-5600 2; 2 5200-5300 1");
    ROWS(image, 5300, "5300 2 3");
    NONE(image, 0);
    ROWS(image, 7000, "5600 1 3");
    /* T12 */
    begin(image, 4000);
    EXPECT(image, add(1, 0, 0), 0);
    EXPECT(image, event(1, 1, 1, 100, 5000, 600), HADULMIR_RECEIVED);
    EXPECT(image, event(2, 0, 1, 200, 5000, 600), HADULMIR_RECEIVED);
    ROWS(image, 7000, "5000 2 7; 5000 1 2; 5600 1 3");
    /* and the last tie: the larger id is better */
    begin(image, 4000);
    EXPECT(image, mark, HADULMIR_RECEIVED);
    EXPECT(image, event(2, 0, 1, 100, 5000, 600), HADULMIR_RECEIVED);
    ROWS(image, 7000, "5000 1 7; 5000 2 2; 5600 2 3");
}

/* WHEN AN EVENT MIGHT BEGIN AT THE EARLIEST */

/* One event of 600 s, received at a clock: neither the draw nor a late receipt moves its earliest start. */
static void test_earliest(void)
{
    static const struct {
        uint64_t clock;
        uint32_t start;
        int32_t randomize_start, start_draw;
        const char *listed;
    } cases[] = {
        {4000, 5000, -300, -300, "1 4700-5300 0"}, /* T5 */
        {4000, 5000, -300, 0, "1 5000-5600 0 earliest 4700"},
        {4000, 5000, -300, -299, "1 4701-5301 0 earliest 4700"},
        {4000, 5000, 300, 300, "1 5300-5900 0 earliest 5000"},
        {4000, 5000, 300, 0, "1 5000-5600 0"},
        {4000, 5000, -1, 0, "1 5000-5600 0 earliest 4999"},
        {4000, 5000, 1, 1, "1 5001-5601 0 earliest 5000"},
        /* received late, also where the start itself is not yet reached */
        {5100, 5000, -300, -300, "1 5101-5300 0 earliest 4700"},
        {5100, 5000, -300, 0, "1 5101-5600 0 earliest 4700"},
        {5100, 5000, 300, 0, "1 5101-5600 0 earliest 5000"},
        {5100, 5000, 300, 300, "1 5300-5900 0 earliest 5000"},
        {4800, 5000, -300, -300, "1 4801-5300 0 earliest 4700"},
        /* the least and the greatest start, and a borrow from byte to byte */
        {0, 3600, -3600, 0, "1 3600-4200 0 earliest 0"},
        {0, 3600, -3600, -3600, "1 1-600 0 earliest 0"},
        {0, 3600, 3600, 3600, "1 7200-7800 0 earliest 3600"},
        {0, 65536, -1, 0, "1 65536-66136 0 earliest 65535"},
        {0, 16777216, -3600, 0, "1 16777216-16777816 0 earliest 16773616"},
        {4000, 4294967295u, 3600, 3600, "1 4294970895-4294971495 0 earliest 4294967295"},
        {4000, 4294967295u, 3600, 0, "1 4294967295-4294967895 0"},
        {4000, 4294967295u, -3600, 0, "1 4294967295-4294967895 0 earliest 4294963695"},
        {UINT64_C(4294967500), 4294967295u, 3600, 0, "1 4294967501-4294967895 0 earliest 4294967295"}};
    uint8_t image[IMAGE];
    size_t i;

    for (i = 0; i < sizeof cases / sizeof cases[0]; i++) {
        begin(image, cases[i].clock);
        EXPECT(image, drawn(event(1, 0, 1, 100, cases[i].start, 600), cases[i].randomize_start, cases[i].start_draw, 0, 0), HADULMIR_RECEIVED);
        LISTED(image, cases[i].listed);
    }
}

/* It stays what it is while the event runs, is superseded, is cancelled, is delivered again. */
static void test_earliest_stays(void)
{
    uint8_t image[IMAGE];
    const struct op first = drawn(event(1, 0, 1, 100, 5000, 600), -300, -100, 60, 60);
    const struct op second = drawn(event(2, 0, 1, 200, 5200, 100), 60, 30, -10, -5);

    begin(image, 4000);
    EXPECT(image, first, HADULMIR_RECEIVED);
    EXPECT(image, second, HADULMIR_RECEIVED);
    LISTED(image, "1 4900-5560 0 earliest 4700; 2 5230-5325 0 earliest 5200");
    ROWS(image, 5000, "4900 1 2");
    LISTED(image, "1 4900-5560 1 earliest 4700; 2 5230-5325 0 earliest 5200");
    ROWS(image, 5240, "5230 1 7; 5230 2 2");
    LISTED(image, "1 4900-5560 0 earliest 4700; 2 5230-5325 1 earliest 5200");
    EXPECT(image, cancel(1), HADULMIR_CANCELLED);
    EXPECT(image, cancel(2), HADULMIR_CANCELLED);
    EXPECT(image, first, 0);
    LISTED(image, "1 4900-5560 0 cancelled earliest 4700; 2 5230-5325 0 cancelled earliest 5200");
    ROWS(image, 5325, "");
    LISTED(image, "1 4900-5560 0 cancelled earliest 4700");
}

static void test_example(void)
{
    uint8_t image[IMAGE];

    fresh(image);
    EXPECT(image, add(0, 1, 1), 0);
    ROWS(image, 4000, "");
    EXPECT(image, event(1, 0, 1, 100, 5000, 600), HADULMIR_RECEIVED);
    EXPECT(image, event(2, 0, 1, 200, 5300, 60), HADULMIR_RECEIVED);
    ROWS(image, 6000, "5000 1 2; 5300 1 7; 5300 2 2; 5360 2 3");
    FALLS_BACK(image, 0, 0);
    LISTED(image, "");
}

/* USERS WHO OPT OUT */

/* The choice of a held event; 255 if it is not held. */
static uint8_t choice_of(const uint8_t *image, uint64_t id)
{
    size_t i;

    for (i = 0; i < hadulmir_count_of(image); i++)
        if (hadulmir_entry_of(image, i).event.id.high == 0 && hadulmir_entry_of(image, i).event.id.low == id)
            return image[ENTRY(i) + CHOICE_AT];
    return 255;
}

#define CHOICE(image, id, wanted) check(choice_of((image), (id)) == (wanted), "the choice", __LINE__)

/* For each id up to 9: held and in, it answers 4 and 5 by turns, and 0 for a repeat; not held, it is refused with 11. */
static void by_turns_at(uint8_t *image, const char *held, int line)
{
    uint64_t id;

    for (id = 0; id < 10; id++)
        if (strchr(held, '0' + (int)id) != NULL) {
            expect_at(image, opt_in(id), 0, line);
            expect_at(image, opt_out(id), HADULMIR_OPTED_OUT, line);
            expect_at(image, opt_out(id), 0, line);
            expect_at(image, opt_in(id), HADULMIR_OPTED_IN, line);
            expect_at(image, opt_in(id), 0, line);
        } else {
            expect_at(image, opt_out(id), HADULMIR_NOT_HELD, line);
            expect_at(image, opt_in(id), HADULMIR_NOT_HELD, line);
        }
}

#define BY_TURNS(image, held) by_turns_at((image), (held), __LINE__)

/* Whatever an event has come to: not started, running, started without a control, superseded, cancelled, ended. */
static void test_choice_answers(void)
{
    uint8_t image[IMAGE];

    begin(image, 4000);
    BY_TURNS(image, "");
    EXPECT(image, event(2, 0, 1, 100, 5000, 600), HADULMIR_RECEIVED);
    EXPECT(image, event(4, 0, 2, 100, 5000, 600), HADULMIR_RECEIVED);
    EXPECT(image, event(6, 0, 1, 200, 5300, 100), HADULMIR_RECEIVED);
    EXPECT(image, event(8, 0, 2, 50, 5100, 400), HADULMIR_RECEIVED);
    EXPECT(image, opt_out(UINT64_MAX), HADULMIR_NOT_HELD);
    EXPECT(image, opt_in(UINT64_C(4) << 32), HADULMIR_NOT_HELD);
    EXPECT(image, wide(2, opt_out(0)), HADULMIR_NOT_HELD);
    EXPECT(image, wide(2, opt_in(2)), HADULMIR_NOT_HELD);
    BY_TURNS(image, "2468");
    ROWS(image, 5000, "5000 2 2; 5000 4 2");
    BY_TURNS(image, "2468");
    ROWS(image, 5300, "5100 8 7; 5300 2 7; 5300 6 2");
    BY_TURNS(image, "2468");
    EXPECT(image, cancel(4), HADULMIR_CANCELLED);
    EXPECT(image, cancel(2), HADULMIR_CANCELLED);
    BY_TURNS(image, "2468");
    LISTED(image, "2 5000-5600 0 cancelled; 4 5000-5600 0 cancelled; 6 5300-5400 1; 8 5100-5500 0");
    ROWS(image, 5399, "");
    BY_TURNS(image, "2468");
    ROWS(image, 5400, "5400 6 3");
    BY_TURNS(image, "248");
    ROWS(image, 5599, "");
    BY_TURNS(image, "24");
    ROWS(image, 5600, "");
    BY_TURNS(image, "");
}

/* A choice stays with its event: delivered again, refused with another field, cancelled. A new event under the same id is in. */
static void test_choice_stays(void)
{
    uint8_t image[IMAGE];
    const struct op e = event(7, 0, 1, 100, 5000, 600);

    begin(image, 4000);
    EXPECT(image, e, HADULMIR_RECEIVED);
    EXPECT(image, opt_out(7), HADULMIR_OPTED_OUT);
    EXPECT(image, e, 0);
    EXPECT(image, event(7, 0, 1, 100, 5000, 601), HADULMIR_EVENT_DIFFERS);
    CHOICE(image, 7, OUT);
    ROWS(image, 5100, "5000 7 2");
    EXPECT(image, e, 0);
    EXPECT(image, cancel(7), HADULMIR_CANCELLED);
    EXPECT(image, cancel(7), 0);
    EXPECT(image, opt_out(7), 0);
    CHOICE(image, 7, OUT | WAS_OUT);
    LISTED(image, "7 5000-5600 0 cancelled out");
    ROWS(image, 5600, "");
    EXPECT(image, event(7, 0, 1, 100, 6000, 600), HADULMIR_RECEIVED);
    CHOICE(image, 7, 0);
    ROWS(image, 6600, "6000 7 2; 6600 7 3");
}

#define TURNS 4

/*
 * The code at the end of an event from 5000 to 5010 if the user opts out, in, out, in at these clocks, the last ones of which may be missing.
 * The clock goes by `step` seconds at most.
 */
static uint8_t code_after(const uint64_t *turns, uint64_t step)
{
    uint8_t image[IMAGE];
    uint64_t clock = 4990;
    size_t done = 0;
    int32_t rows;
    uint8_t code;

    begin(image, clock);
    EXPECT(image, event(1, 0, 1, 100, 5000, 10), HADULMIR_RECEIVED);
    do {
        for (; done < TURNS && turns[done] == clock; done++)
            EXPECT(image, done % 2 == 0 ? opt_out(1) : opt_in(1), done % 2 == 0 ? HADULMIR_OPTED_OUT : HADULMIR_OPTED_IN);
        clock = clock + step < 5010 ? clock + step : 5010;
        if (done < TURNS && turns[done] != 0 && turns[done] < clock)
            clock = turns[done];
        rows = call(image, set_clock(clock, ROWS_ROOM));
    } while (clock < 5010);
    code = rows > 0 ? hadulmir_row_at(lent_bytes, (size_t)rows - 1).code : 0;
    EXPECT(image, opt_out(1), HADULMIR_NOT_HELD); /* at the clock of its end it is held no more */
    EXPECT(image, opt_in(1), HADULMIR_NOT_HELD);
    return code;
}

/* A choice counts from the second after its clock on: each side of the start, of the last second before the end, and of the end. */
static void test_choice_codes(void)
{
    static const struct {
        uint8_t code;
        uint64_t turns[TURNS];
    } cases[] = {
        {HADULMIR_COMPLETED, {0}}, {HADULMIR_COMPLETED, {4990, 4990}}, {HADULMIR_COMPLETED, {4990, 4999}},
        {HADULMIR_COMPLETED, {4999, 4999}}, {HADULMIR_COMPLETED, {5000, 5000}}, {HADULMIR_COMPLETED, {5008, 5008}},
        {HADULMIR_COMPLETED, {5009}}, {HADULMIR_COMPLETED, {5009, 5009}}, {HADULMIR_COMPLETED, {4990, 4999, 5009}},
        {HADULMIR_NOT_PARTICIPATED, {4990}}, {HADULMIR_NOT_PARTICIPATED, {4999}}, {HADULMIR_NOT_PARTICIPATED, {4999, 5000, 5000}},
        {HADULMIR_NOT_PARTICIPATED, {4999, 5009}}, {HADULMIR_NOT_PARTICIPATED, {4999, 5009, 5009}},
        {HADULMIR_PARTLY_OPTED_OUT, {5000}}, {HADULMIR_PARTLY_OPTED_OUT, {5001}}, {HADULMIR_PARTLY_OPTED_OUT, {5008}},
        {HADULMIR_PARTLY_OPTED_OUT, {4999, 5000, 5001}}, {HADULMIR_PARTLY_OPTED_OUT, {4999, 5008, 5009}},
        {HADULMIR_PARTLY_OPTED_OUT, {5003, 5005, 5009}}, {HADULMIR_PARTLY_OPTED_OUT, {5003, 5009, 5009}},
        {HADULMIR_PARTLY_OPTED_IN, {4999, 5000}}, {HADULMIR_PARTLY_OPTED_IN, {4999, 5008}}, {HADULMIR_PARTLY_OPTED_IN, {5000, 5001}},
        {HADULMIR_PARTLY_OPTED_IN, {5008, 5009}}, {HADULMIR_PARTLY_OPTED_IN, {5003, 5009}},
        {HADULMIR_PARTLY_OPTED_IN, {4999, 5003, 5005, 5009}}, {HADULMIR_PARTLY_OPTED_IN, {5003, 5005, 5009, 5009}}};
    size_t i;

    for (i = 0; i < sizeof cases / sizeof cases[0]; i++) {
        CHECK(code_after(cases[i].turns, 1) == cases[i].code);
        CHECK(code_after(cases[i].turns, 3) == cases[i].code);
        CHECK(code_after(cases[i].turns, 100) == cases[i].code);
    }
}

/* Events of one second, and one received late: the clock of the choice is the one before the only second, or is that second. */
static void test_choice_short(void)
{
    uint8_t image[IMAGE];

    begin(image, 4999);
    EXPECT(image, event(1, 0, 1, 100, 5000, 1), HADULMIR_RECEIVED);
    EXPECT(image, event(2, 0, 2, 100, 5000, 1), HADULMIR_RECEIVED);
    EXPECT(image, event(3, 0, 4, 100, 4900, 102), HADULMIR_RECEIVED);
    EXPECT(image, event(4, 0, 8, 100, 4900, 102), HADULMIR_RECEIVED);
    EXPECT(image, opt_out(1), HADULMIR_OPTED_OUT);
    EXPECT(image, opt_out(3), HADULMIR_OPTED_OUT);
    ROWS(image, 5000, "5000 1 2; 5000 2 2; 5000 3 2; 5000 4 2");
    EXPECT(image, opt_in(1), HADULMIR_OPTED_IN);
    EXPECT(image, opt_out(2), HADULMIR_OPTED_OUT);
    EXPECT(image, opt_in(3), HADULMIR_OPTED_IN);
    EXPECT(image, opt_out(4), HADULMIR_OPTED_OUT);
    ROWS(image, 5001, "5001 1 10; 5001 2 3");
    ROWS(image, 5002, "5002 3 9; 5002 4 8");
}

/* The four codes of an end go by id and not by code, before 7 and 2. */
static void test_choice_order(void)
{
    uint8_t image[IMAGE];
    uint64_t id;

    begin(image, 4000);
    for (id = 1; id <= 6; id++)
        EXPECT(image, event(id, 0, UINT32_C(1) << id, 100, 5000, id < 6 ? 600 : 900), HADULMIR_RECEIVED);
    EXPECT(image, event(7, 0, UINT32_C(1) << 6, 200, 5600, 100), HADULMIR_RECEIVED);
    EXPECT(image, event(0, 0, 1, 100, 5600, 100), HADULMIR_RECEIVED);
    EXPECT(image, opt_out(1), HADULMIR_OPTED_OUT);
    EXPECT(image, opt_out(3), HADULMIR_OPTED_OUT);
    EXPECT(image, opt_out(6), HADULMIR_OPTED_OUT);
    ROWS(image, 5000, "5000 1 2; 5000 2 2; 5000 3 2; 5000 4 2; 5000 5 2; 5000 6 2");
    EXPECT(image, opt_out(4), HADULMIR_OPTED_OUT);
    EXPECT(image, opt_in(3), HADULMIR_OPTED_IN);
    ROWS(image, 5600, "5600 1 10; 5600 2 3; 5600 3 9; 5600 4 8; 5600 5 3; 5600 6 7; 5600 0 2; 5600 7 2");
    ROWS(image, 6000, "5700 0 3; 5700 7 3");
}

/* A question goes by the choice at once: the best default or nobody, and no lesser event; a better one takes the control as ever. */
static void test_choice_ask(void)
{
    uint8_t image[IMAGE];

    begin(image, 4000);
    EXPECT(image, add(1, 2, 0x1), 0);
    EXPECT(image, add(2, 0, 0x1), 0);
    EXPECT(image, event(10, 0, 3, 100, 5000, 600), HADULMIR_RECEIVED);
    EXPECT(image, event(20, 1, 4, 100, 5000, 600), HADULMIR_RECEIVED);
    EXPECT(image, event(30, 1, 2, 200, 5100, 100), HADULMIR_RECEIVED);
    EXPECT(image, event(40, 2, 1, 50, 5200, 100), HADULMIR_RECEIVED);
    ROWS(image, 5000, "5000 10 2; 5000 20 2");
    HOLDER(image, 0, 10);
    EXPECT(image, opt_out(10), HADULMIR_OPTED_OUT);
    FALLS_BACK(image, 0, 2);
    NONE(image, 1);
    HOLDER(image, 2, 20);
    EXPECT(image, ask(32, 0), HADULMIR_CONTROL_TOO_LARGE);
    LISTED(image, "10 5000-5600 3 out; 20 5000-5600 4; 30 5100-5200 0; 40 5200-5300 0");
    ROWS(image, 5100, "5100 30 7");
    NONE(image, 1);
    ROWS(image, 5200, "5200 40 2");
    HOLDER(image, 0, 40);
    EXPECT(image, opt_in(10), HADULMIR_OPTED_IN);
    HOLDER(image, 0, 40);
    HOLDER(image, 1, 10);
    EXPECT(image, opt_out(40), HADULMIR_OPTED_OUT);
    FALLS_BACK(image, 0, 2);
    LISTED(image, "10 5000-5600 2; 20 5000-5600 4; 40 5200-5300 1 out");
    EXPECT(image, opt_out(20), HADULMIR_OPTED_OUT);
    NONE(image, 2);
    EXPECT(image, cancel(20), HADULMIR_CANCELLED);
    EXPECT(image, opt_in(20), HADULMIR_OPTED_IN);
    NONE(image, 2);
    ROWS(image, 6000, "5300 40 8; 5600 10 9");
}

/* What is noted of a second: by the choice that was made before it, from the start on, also while a part of the controls is held. */
static void test_choice_noted(void)
{
    uint8_t image[IMAGE], wanted[IMAGE];
    const struct op first = event(1, 0, 3, 100, 5000, 600), second = event(2, 0, 1, 200, 5001, 100);

    begin(image, 4000);
    EXPECT(image, first, HADULMIR_RECEIVED);
    EXPECT(image, second, HADULMIR_RECEIVED);
    EXPECT(image, opt_out(1), HADULMIR_OPTED_OUT);
    ROWS(image, 4999, "");
    CHOICE(image, 1, OUT);
    ROWS(image, 5000, "5000 1 2");
    CHOICE(image, 1, OUT | WAS_OUT);
    EXPECT(image, opt_in(1), HADULMIR_OPTED_IN);
    ROWS(image, 5000, "");
    CHOICE(image, 1, WAS_OUT);
    ROWS(image, 5001, "5001 2 2");
    EXPECT(image, opt_out(2), HADULMIR_OPTED_OUT);
    blank_image(wanted, 5001);
    put_program(wanted, 0, 1, 0);
    put_event(wanted, first, 5000, 2, 0, WAS_IN | WAS_OUT);
    put_event(wanted, second, 5001, 1, 0, OUT | WAS_IN);
    CHECK(same(image, wanted));
    ROWS(image, 5600, "5101 2 8; 5600 1 9");
}

/* An event that holds nothing is noted nothing of: superseded, cancelled, started without a control. The choice itself may still be made. */
static void test_choice_frozen(void)
{
    uint8_t image[IMAGE];

    begin(image, 4000);
    EXPECT(image, event(1, 0, 1, 100, 5000, 600), HADULMIR_RECEIVED);
    EXPECT(image, event(2, 0, 1, 200, 5200, 100), HADULMIR_RECEIVED);
    EXPECT(image, event(3, 0, 2, 100, 5000, 600), HADULMIR_RECEIVED);
    EXPECT(image, event(4, 0, 1, 50, 5100, 600), HADULMIR_RECEIVED);
    EXPECT(image, event(5, 0, 4, 50, 5190, 600), HADULMIR_RECEIVED);
    EXPECT(image, opt_out(5), HADULMIR_OPTED_OUT);
    EXPECT(image, cancel(5), HADULMIR_CANCELLED);
    ROWS(image, 5199, "5000 1 2; 5000 3 2; 5100 4 7");
    EXPECT(image, opt_out(1), HADULMIR_OPTED_OUT);
    EXPECT(image, opt_out(3), HADULMIR_OPTED_OUT);
    EXPECT(image, cancel(3), HADULMIR_CANCELLED);
    EXPECT(image, opt_out(4), HADULMIR_OPTED_OUT);
    ROWS(image, 5200, "5200 1 7; 5200 2 2");
    CHOICE(image, 1, OUT | WAS_IN);
    CHOICE(image, 2, WAS_IN);
    CHOICE(image, 3, OUT | WAS_IN);
    CHOICE(image, 4, OUT);
    CHOICE(image, 5, OUT);
    EXPECT(image, opt_in(1), HADULMIR_OPTED_IN);
    EXPECT(image, opt_in(4), HADULMIR_OPTED_IN);
    ROWS(image, 5599, "5300 2 3");
    CHOICE(image, 1, WAS_IN);
    CHOICE(image, 3, OUT | WAS_IN);
    CHOICE(image, 4, 0);
    ROWS(image, 6000, "");
}

/* As many events as there can be, each opted out of: only the codes of their ends are others. */
static void test_choice_full(void)
{
    uint8_t image[IMAGE];
    int32_t i;

    fill(image);
    for (i = 0; i < HADULMIR_EVENTS_AT_MOST; i++) {
        EXPECT(image, opt_out(UINT64_C(147) - (uint64_t)i), HADULMIR_OPTED_OUT);
        EXPECT(image, opt_out(UINT64_C(148) + (uint64_t)i), HADULMIR_NOT_HELD);
    }
    EXPECT(image, list(RECORDS_ROOM), HADULMIR_EVENTS_AT_MOST);
    for (i = 0; i < HADULMIR_EVENTS_AT_MOST; i++)
        CHECK(hadulmir_record_at(lent_bytes, (size_t)i).entry.out == 1);
    EXPECT(image, set_clock(6000, ROWS_ROOM), HADULMIR_ROWS_AT_MOST);
    for (i = 0; i < HADULMIR_ROWS_AT_MOST; i++)
        CHECK(hadulmir_row_at(lent_bytes, (size_t)i).code == (i % 2 == 0 ? HADULMIR_STARTED : HADULMIR_NOT_PARTICIPATED));
}

/* IDS OF 128 BITS */

#define TOP (UINT64_C(1) << 63)
#define IDS 18

/* By size: ids that agree in one half and differ in the other, ids with their halves exchanged, and both sides of the top bit of a half. */
static const struct hadulmir_id ids[IDS] = {
    {0, 0}, {0, 1}, {0, 2}, {0, TOP - 1}, {0, TOP}, {0, UINT64_MAX}, {1, 0}, {1, 1}, {1, 2}, {1, UINT64_MAX}, {2, 0}, {2, 1},
    {TOP - 1, UINT64_MAX}, {TOP, 0}, {TOP, 1}, {UINT64_MAX, 0}, {UINT64_MAX, TOP}, {UINT64_MAX, UINT64_MAX}};

/* A call with the id of this place. */
static struct op of_id(size_t i, struct op op)
{
    op.high = ids[i].high;
    op.id = ids[i].low;
    return op;
}

/* Appends a text that has an id in it: the format has one %s. */
static void append_with_id(char *text, const char *format, size_t i)
{
    char part[128];

    snprintf(part, sizeof part, format, id_text(ids[i]));
    append(text, part);
}

/* Two events of equal rank but for their ids, delivered in this order: both are held, and the larger id is better, all of its bits counted. */
static void tie(size_t first, size_t second)
{
    const size_t less = first < second ? first : second, more = first < second ? second : first;
    const struct op e = event(0, 0, 1, 100, 5000, 600);
    char rows[256] = "", records[256] = "";
    uint8_t image[IMAGE];

    append_with_id(rows, "5000 %s 7", less);
    append_with_id(rows, "5000 %s 2", more);
    begin(image, 4000);
    EXPECT(image, of_id(first, e), HADULMIR_RECEIVED);
    EXPECT(image, of_id(second, e), HADULMIR_RECEIVED);
    EXPECT(image, of_id(first, e), 0);
    EXPECT(image, of_id(second, e), 0);
    EXPECT(image, of_id(second, event(0, 0, 1, 100, 5000, 601)), HADULMIR_EVENT_DIFFERS);
    ROWS(image, 5100, rows);
    WIDE_HOLDER(image, 0, ids[more].high, ids[more].low);

    /* What is done to one leaves the other. */
    EXPECT(image, of_id(less, cancel(0)), HADULMIR_CANCELLED);
    EXPECT(image, of_id(more, opt_out(0)), HADULMIR_OPTED_OUT);
    append_with_id(records, "%s 5000-5600 0 cancelled", less);
    append_with_id(records, "%s 5000-5600 1 out", more);
    LISTED(image, records);
    EXPECT(image, of_id(more, opt_in(0)), HADULMIR_OPTED_IN);
    EXPECT(image, of_id(less, opt_in(0)), 0);
    rows[0] = '\0';
    append_with_id(rows, "5600 %s 3", more);
    ROWS(image, 6000, rows);
}

static void test_id_ties(void)
{
    size_t i, j;

    for (i = 0; i < IDS; i++)
        for (j = 0; j < IDS; j++)
            if (i != j)
                tie(i, j);
}

/* All of them, each on a control of its own, delivered from place `from` on in steps of 5, which come to all; then one that is better. */
static void deliver_ids(uint8_t *image, size_t from)
{
    size_t n, i;

    begin(image, 4000);
    for (n = 0; n < IDS; n++) {
        i = (from + 5 * n) % IDS;
        EXPECT(image, of_id(i, event(0, 0, UINT32_C(1) << i, 100, 5000, i % 2 == 0 ? 200 : 600)), HADULMIR_RECEIVED);
    }
    EXPECT(image, wide(1, event(3, 0, 0xFFFFFFFFu, 200, 5300, 100)), HADULMIR_RECEIVED);
}

/* Image, rows of each code and listing go by id, whatever the order of arrival. */
static void test_id_order(void)
{
    static char rows[TEXT_AT_MOST], records[TEXT_AT_MOST];
    uint8_t image[IMAGE], other[IMAGE];
    size_t i;

    rows[0] = records[0] = '\0';
    deliver_ids(image, 0);
    for (i = 1; i < IDS; i++) {
        deliver_ids(other, i);
        CHECK(same(image, other));
    }
    for (i = 0; i < IDS; i++)
        append_with_id(rows, "5000 %s 2", i);
    for (i = 0; i < IDS; i += 2)
        append_with_id(rows, "5200 %s 3", i);
    ROWS(image, 5250, rows);
    for (i = 1; i < IDS; i += 2) {
        char part[128];

        if (i == 9)
            append(records, "1:3 5300-5400 0");
        snprintf(part, sizeof part, "%s 5000-5600 %lX", id_text(ids[i]), 1ul << i);
        append(records, part);
    }
    LISTED(image, records);
    for (i = 1; i < IDS; i += 2)
        WIDE_HOLDER(image, (uint8_t)i, ids[i].high, ids[i].low);
    rows[0] = '\0';
    for (i = 1; i < IDS; i += 2)
        append_with_id(rows, "5300 %s 7", i);
    append(rows, "5300 1:3 2; 5400 1:3 3");
    ROWS(image, 6000, rows);
}

/* Every second one is held: a call that names another is refused, and one that names a held one acts on it alone. */
static void test_id_named(void)
{
    uint8_t image[IMAGE], wanted[IMAGE];
    size_t i;

    begin(image, 4000);
    for (i = 0; i < IDS; i += 2)
        EXPECT(image, of_id(i, event(0, 0, UINT32_C(1) << i, 100, 5000, 600)), HADULMIR_RECEIVED);
    for (i = 0; i < IDS; i++) {
        EXPECT(image, of_id(i, opt_in(0)), i % 2 == 0 ? 0 : HADULMIR_NOT_HELD);
        EXPECT(image, of_id(i, opt_out(0)), i % 2 == 0 ? HADULMIR_OPTED_OUT : HADULMIR_NOT_HELD);
    }
    for (i = 0; i < IDS; i++) {
        memcpy(wanted, image, IMAGE);
        if (i % 2 == 0)
            entry_of(wanted, i / 2)[CANCELLED_AT] = 1;
        EXPECT(image, of_id(i, cancel(0)), i % 2 == 0 ? HADULMIR_CANCELLED : HADULMIR_NOT_HELD);
        CHECK(same(image, wanted));
        EXPECT(image, of_id(i, opt_in(0)), i % 2 == 0 ? HADULMIR_OPTED_IN : HADULMIR_NOT_HELD);
    }
    for (i = 1; i < IDS; i += 2)
        EXPECT(image, of_id(i, event(0, 0, 1, 100, 5000, 600)), HADULMIR_RECEIVED);
    CHECK(hadulmir_count_of(image) == IDS);
    for (i = 0; i < IDS; i++)
        CHECK(hadulmir_id_compare(hadulmir_entry_of(image, i).event.id, ids[i]) == 0);
}

/* An id that stands twice in an image, or before a smaller one, breaks it; the other way round it does not. */
static void test_id_images(void)
{
    const struct op e = event(0, 0, 1, 100, 5000, 600);
    uint8_t image[IMAGE];
    size_t i, j;

    for (i = 0; i < IDS; i++)
        for (j = 0; j < IDS; j++) {
            blank_image(image, 4000);
            put_program(image, 0, 1, 0);
            put_event(image, of_id(i, e), 5000, 0, 0, 0);
            put_event(image, of_id(j, e), 5000, 0, 0, 0);
            EXPECT(image, list(RECORDS_ROOM), i < j ? 2 : HADULMIR_BAD_IMAGE);
        }
}

/* IMAGES MADE BY HAND */

/* No list of calls leads to these images, yet they keep every rule; the rules run on from them. */
static void test_unreachable(void)
{
    uint8_t image[IMAGE];
    const struct op e = event(1, 0, 1, 100, 5000, 600);

    /* An effective start later than the drawn start and than the second after the clock. */
    blank_image(image, 4000);
    put_program(image, 0, 1, 0);
    put_event(image, e, 5500, 0, 0, 0);
    LISTED(image, "1 5500-5600 0 earliest 5000");
    EXPECT(image, e, 0);
    ROWS(image, 5499, "");
    ROWS(image, 6000, "5500 1 2; 5600 1 3");

    /* The better event has started and holds nothing, beside a worse one that holds: it gains nothing and blocks nobody. */
    blank_image(image, 5100);
    put_program(image, 0, 1, 0);
    put_event(image, e, 5000, 1, 0, WAS_IN);
    put_event(image, event(2, 0, 1, 200, 5000, 900), 5000, 0, 0, 0);
    put_event(image, event(3, 0, 1, 50, 5650, 10), 5650, 0, 0, 0);
    HOLDER(image, 0, 1);
    LISTED(image, "1 5000-5600 1; 2 5000-5900 0; 3 5650-5660 0");
    ROWS(image, 5601, "5600 1 3");
    NONE(image, 0);
    ROWS(image, 6000, "5650 3 2; 5660 3 3");

    /* A started event that holds less than it carries, though nobody has the rest. */
    blank_image(image, 5100);
    put_program(image, 0, 1, 0);
    put_event(image, event(1, 0, 7, 100, 5000, 600), 5100, 2, 0, WAS_IN);
    NONE(image, 0);
    HOLDER(image, 1, 1);
    ROWS(image, 6000, "5600 1 3");

    /* Started at clock 0, with and without a control. */
    blank_image(image, 0);
    put_program(image, 0, 1, 0);
    put_event(image, drawn(event(1, 0, 1, 100, 3600, 600), -3600, -3600, 0, 0), 0, 1, 0, WAS_IN);
    put_event(image, drawn(event(2, 0, 2, 100, 3600, 600), -3600, -3600, 0, 0), 0, 0, 0, 0);
    HOLDER(image, 0, 1);
    NONE(image, 1);
    LISTED(image, "1 0-600 1; 2 0-600 0");
    ROWS(image, 1000, "600 1 3");

    /* What is held at the clock of the image can be lost in the next second. */
    blank_image(image, 5100);
    put_program(image, 0, 1, 0);
    put_event(image, e, 5000, 1, 0, WAS_IN);
    put_event(image, event(2, 0, 1, 200, 5101, 10), 5101, 0, 0, 0);
    ROWS(image, 5101, "5101 1 7; 5101 2 2");

    /* Number 9 is no rule of images: start + duration has passed, the effective end has not. A delivery then answers 0. */
    blank_image(image, 5650);
    put_program(image, 0, 1, 0);
    put_event(image, drawn(e, 0, 0, 100, 100), 5699, 0, 0, 0);
    EXPECT(image, drawn(e, 0, 0, 100, 100), 0);
    ROWS(image, 5700, "5699 1 2; 5700 1 3");

    /* The worse of two holds a control although the better one that carries it holds another. */
    blank_image(image, 5100);
    put_program(image, 0, 1, 0);
    put_program(image, 5, 191, 0xFFFFFFFFu);
    put_event(image, event(1, 5, 3, 100, 5000, 600), 5000, 1, 0, WAS_IN);
    put_event(image, event(2, 0, 3, 100, 5000, 500), 5000, 2, 0, WAS_IN);
    HOLDER(image, 0, 1);
    HOLDER(image, 1, 2);
    FALLS_BACK(image, 2, 5);
    ROWS(image, 6000, "5500 2 3; 5600 1 3");
}

/* Whatever the choice in a sound image: the code at the end of an event that holds, from each of the two last seconds before it. */
static void test_choice_by_hand(void)
{
    static const uint8_t codes[2][6] = {{3, 8, 9, 10, 9, 8}, {3, 3, 10, 10, 9, 8}};
    const struct op e = event(1, 0, 1, 100, 5000, 600);
    uint8_t image[IMAGE], choice;
    char rows[32];
    uint64_t clock;

    for (choice = WAS_IN; choice <= (OUT | WAS_IN | WAS_OUT); choice++)
        for (clock = 5598; clock <= 5599; clock++) {
            blank_image(image, clock);
            put_program(image, 0, 1, 0);
            put_event(image, e, 5000, 1, 0, choice);
            snprintf(rows, sizeof rows, "5600 1 %u", (unsigned)codes[clock - 5598][choice - WAS_IN]);
            ROWS(image, 5600, rows);
        }
    /* one that has started and holds nothing: no code, and the choice stays */
    for (choice = 0; choice <= (OUT | WAS_IN | WAS_OUT); choice++) {
        blank_image(image, 5100);
        put_program(image, 0, 1, 0);
        put_event(image, e, 5000, 0, choice % 2, choice);
        ROWS(image, 5599, "");
        CHOICE(image, 1, choice);
        ROWS(image, 5600, "");
    }
}

/* Arguments that, on an accepted image, would be refused by another number, or accepted: number 2 comes first. */
static void all_refuse_at(const uint8_t *image, size_t len, int line)
{
    const struct op ops[] = {
        add(6, 1, 0), add(255, 3, 0), event(77, 0, 4, 0, 9000, 9), event(10, 9, 0, 0, 0, 0), cancel(10), cancel(1), opt_out(10), opt_out(1),
        opt_in(10), opt_in(1), set_clock(5200, ROWS_ROOM), set_clock(0, 0), ask(0, ID_ROOM), ask(99, 0), list(RECORDS_ROOM), list(0)};
    uint8_t copy[2 * IMAGE];
    size_t i;

    for (i = 0; i < sizeof ops / sizeof ops[0]; i++) {
        int32_t returned;

        memcpy(copy, image, len);
        returned = call_at_length(copy, len, ops[i]);
        if (returned != HADULMIR_BAD_IMAGE && failed < 40)
            printf("face.c:%d: call %u returned %" PRId32 "\n", line, (unsigned)i, returned);
        check(returned == HADULMIR_BAD_IMAGE, "a broken image is refused", line);
    }
}

/* A sound image to break: a holder, a cancelled event, one that waits. */
static void sound_image(uint8_t *image)
{
    blank_image(image, 5100);
    put_program(image, 0, 1, 0xF);
    put_program(image, 2, 191, 0);
    put_event(image, drawn(event(10, 0, 3, 100, 5000, 600), -100, -50, 100, 50), 4950, 1, 0, WAS_IN);
    put_event(image, event(20, 2, 1, 200, 5000, 600), 5000, 0, 1, 0);
    put_event(image, event(30, 0, 2, 300, 5200, 600), 5200, 0, 0, 0);
}

/* One number of the sound image changed: `size` bytes at `at`. */
static void broken_at(size_t at, size_t size, uint64_t number, int line)
{
    uint8_t image[IMAGE];

    sound_image(image);
    put(image + at, size, number);
    all_refuse_at(image, IMAGE, line);
}

static void unbroken_at(size_t at, size_t size, uint64_t number, int line)
{
    uint8_t image[IMAGE];

    sound_image(image);
    put(image + at, size, number);
    expect_at(image, list(3 * HADULMIR_RECORD_SIZE), 3, line);
}

#define BREAKS(at, size, number) broken_at((at), (size), (number), __LINE__)
#define KEEPS(at, size, number) unbroken_at((at), (size), (number), __LINE__)

static void test_broken(void)
{
    static const size_t lengths[] = {0, 1, HADULMIR_COUNT_AT, HADULMIR_PROGRAMS_AT, ENTRY(0), ENTRY(1), IMAGE - 8 * HADULMIR_EVENTS_AT_MOST,
                                     IMAGE - 1, IMAGE + 1, 2 * IMAGE};
    uint8_t image[IMAGE], other[2 * IMAGE];
    size_t i;

    sound_image(image);
    EXPECT(image, list(3 * HADULMIR_RECORD_SIZE), 3);
    EXPECT(image, ask(0, ID_ROOM), HADULMIR_EVENT);

    /* length */
    memset(other, 0, sizeof other);
    memcpy(other, image, IMAGE);
    for (i = 0; i < sizeof lengths / sizeof lengths[0]; i++)
        all_refuse_at(other, lengths[i], __LINE__);

    /* limits */
    blank_image(image, HADULMIR_CLOCK_AT_MOST);
    EXPECT(image, list(0), 0);
    blank_image(image, HADULMIR_CLOCK_AT_MOST + 1);
    all_refuse_at(image, IMAGE, __LINE__);
    blank_image(image, UINT64_MAX);
    all_refuse_at(image, IMAGE, __LINE__);
    BREAKS(HADULMIR_COUNT_AT, 1, 49);
    BREAKS(HADULMIR_COUNT_AT, 1, 255);

    /* marks */
    BREAKS(PROGRAM(0), 1, 2);
    BREAKS(PROGRAM(7), 1, 255);
    BREAKS(ENTRY(1) + CANCELLED_AT, 1, 2);
    BREAKS(ENTRY(0) + CANCELLED_AT, 1, 255);
    BREAKS(ENTRY(47) + CANCELLED_AT, 1, 2);

    /* unused entries zero */
    BREAKS(PROGRAM(1) + 1, 1, 1);
    BREAKS(PROGRAM(7) + 2, 4, 1);
    BREAKS(PROGRAM(3) + 2, 4, 0x80000000u);
    BREAKS(HADULMIR_COUNT_AT, 1, 2);
    BREAKS(HADULMIR_COUNT_AT, 1, 4);
    for (i = 0; i < HADULMIR_ENTRY_SIZE; i++) {
        BREAKS(ENTRY(3) + i, 1, 1);
        BREAKS(ENTRY(47) + i, 1, 1);
    }

    /* added programs: 5 */
    BREAKS(PROGRAM(0) + 1, 1, 3);
    BREAKS(PROGRAM(0) + 1, 1, 64);
    KEEPS(PROGRAM(0) + 1, 1, 65);
    BREAKS(PROGRAM(2) + 1, 1, 192);
    BREAKS(PROGRAM(2) + 1, 1, 255);
    KEEPS(PROGRAM(2) + 1, 1, 0);

    /* ids ascending, as unsigned numbers of 16 bytes */
    BREAKS(ENTRY(1) + 8, 8, 10);
    BREAKS(ENTRY(1) + 8, 8, 9);
    BREAKS(ENTRY(1) + 8, 8, 30);
    BREAKS(ENTRY(2) + 8, 8, 0);
    BREAKS(ENTRY(0) + 8, 8, UINT64_MAX);
    KEEPS(ENTRY(1) + 8, 8, 11);
    KEEPS(ENTRY(2) + 8, 8, UINT64_MAX);
    BREAKS(ENTRY(0), 8, 1);
    BREAKS(ENTRY(1), 8, UINT64_C(1) << 63);
    KEEPS(ENTRY(2), 8, 1);
    KEEPS(ENTRY(2), 8, UINT64_C(1) << 63);
    KEEPS(ENTRY(2), 8, UINT64_MAX);

    /* 3 and 6 */
    BREAKS(ENTRY(0) + PROGRAM_AT, 1, 8);
    BREAKS(ENTRY(2) + PROGRAM_AT, 1, 255);
    BREAKS(ENTRY(0) + PROGRAM_AT, 1, 1);
    BREAKS(ENTRY(2) + PROGRAM_AT, 1, 7);
    KEEPS(ENTRY(0) + PROGRAM_AT, 1, 2);

    /* 7 */
    BREAKS(ENTRY(2) + CONTROLS_AT, 4, 0);
    BREAKS(ENTRY(2) + START_AT, 4, 3599);
    BREAKS(ENTRY(2) + DURATION_AT, 4, 0);
    BREAKS(ENTRY(2) + RANDOMIZE_START_AT, 2, 3601);
    KEEPS(ENTRY(2) + RANDOMIZE_START_AT, 2, 3600);
    BREAKS(ENTRY(2) + RANDOMIZE_START_AT, 2, hadulmir_signed(-3601));
    KEEPS(ENTRY(2) + RANDOMIZE_START_AT, 2, hadulmir_signed(-3600));
    BREAKS(ENTRY(2) + RANDOMIZE_DURATION_AT, 2, 3601);
    BREAKS(ENTRY(2) + RANDOMIZE_DURATION_AT, 2, hadulmir_signed(-3601));
    BREAKS(ENTRY(2) + RANDOMIZE_DURATION_AT, 2, 0x8000);
    BREAKS(ENTRY(2) + START_DRAW_AT, 2, hadulmir_signed(-1));
    BREAKS(ENTRY(0) + START_DRAW_AT, 2, 1);
    BREAKS(ENTRY(2) + DURATION_DRAW_AT, 2, 1);
    BREAKS(ENTRY(2) + DURATION_DRAW_AT, 2, hadulmir_signed(-1));
    BREAKS(ENTRY(0) + DURATION_DRAW_AT, 2, 101);
    KEEPS(ENTRY(0) + DURATION_DRAW_AT, 2, 100);
    blank_image(image, 4000);
    put_program(image, 0, 1, 0);
    put_event(image, drawn(event(1, 0, 1, 0, 5000, 10), 0, 0, -10, -9), 5000, 0, 0, 0);
    EXPECT(image, list(HADULMIR_RECORD_SIZE), 1);
    put(entry_of(image, 0) + DURATION_DRAW_AT, 2, hadulmir_signed(-10));
    all_refuse_at(image, IMAGE, __LINE__);

    /* effective start: not before the drawn start, before the effective end */
    BREAKS(ENTRY(0) + EFFECTIVE_START_AT, 8, 4949);
    KEEPS(ENTRY(0) + EFFECTIVE_START_AT, 8, 4951);
    BREAKS(ENTRY(2) + EFFECTIVE_START_AT, 8, 5199);
    KEEPS(ENTRY(2) + EFFECTIVE_START_AT, 8, 5799);
    BREAKS(ENTRY(2) + EFFECTIVE_START_AT, 8, 5800);
    BREAKS(ENTRY(2) + EFFECTIVE_START_AT, 8, UINT64_MAX);
    BREAKS(ENTRY(2) + EFFECTIVE_START_AT, 8, 0);

    /* effective end after the clock */
    KEEPS(0, 8, 5599);
    BREAKS(0, 8, 5600);
    BREAKS(0, 8, 5800);
    BREAKS(0, 8, HADULMIR_CLOCK_AT_MOST);

    /* held mask: within the controls, zero before the start, zero if cancelled, no bit shared */
    BREAKS(ENTRY(0) + HELD_AT, 4, 4);
    BREAKS(ENTRY(0) + HELD_AT, 4, 0x80000001u);
    KEEPS(ENTRY(0) + HELD_AT, 4, 3);
    KEEPS(ENTRY(0) + HELD_AT, 4, 0);
    BREAKS(ENTRY(2) + HELD_AT, 4, 2);
    BREAKS(0, 8, 4949);
    KEEPS(0, 8, 4950);
    BREAKS(ENTRY(1) + HELD_AT, 4, 1);
    BREAKS(ENTRY(0) + CANCELLED_AT, 1, 1);
    blank_image(image, 5100);
    put_program(image, 0, 1, 0);
    put_event(image, event(1, 0, 3, 0, 5000, 600), 5000, 1, 0, WAS_IN);
    put_event(image, event(2, 0, 4, 0, 5000, 600), 5000, 4, 0, WAS_IN);
    put_event(image, event(3, 0, 3, 0, 5000, 600), 5000, 2, 0, WAS_IN);
    EXPECT(image, list(3 * HADULMIR_RECORD_SIZE), 3);
    put(entry_of(image, 2) + HELD_AT, 4, 3);
    all_refuse_at(image, IMAGE, __LINE__);
    put(entry_of(image, 2) + HELD_AT, 4, 1);
    all_refuse_at(image, IMAGE, __LINE__);

    /* A fresh image can be made over any bytes. */
    CHECK(hadulmir_fresh(image, IMAGE) == 0);
    EXPECT(image, list(0), 0);
}

/* Every choice of an event that holds, one that was cancelled, one that waits, and of unused entries. */
static void test_broken_choice(void)
{
    uint8_t image[IMAGE];
    unsigned value;

    for (value = 0; value < 256; value++) {
        (WAS_IN <= value && value <= 7 ? unbroken_at : broken_at)(ENTRY(0) + CHOICE_AT, 1, value, __LINE__);
        (value <= 7 ? unbroken_at : broken_at)(ENTRY(1) + CHOICE_AT, 1, value, __LINE__);
        (value <= OUT ? unbroken_at : broken_at)(ENTRY(2) + CHOICE_AT, 1, value, __LINE__);
        (value == 0 ? unbroken_at : broken_at)(ENTRY(3) + CHOICE_AT, 1, value, __LINE__);
        (value == 0 ? unbroken_at : broken_at)(ENTRY(47) + CHOICE_AT, 1, value, __LINE__);
    }
    /* without a control, each choice of one that has started; with one, not both bits zero */
    for (value = 0; value <= 7; value++) {
        sound_image(image);
        image[ENTRY(0) + CHOICE_AT] = (uint8_t)value;
        put(entry_of(image, 0) + HELD_AT, 4, 0);
        EXPECT(image, list(3 * HADULMIR_RECORD_SIZE), 3);
    }
    /* noted before the start, and at it */
    for (value = WAS_IN; value <= 7; value++) {
        sound_image(image);
        image[ENTRY(2) + CHOICE_AT] = (uint8_t)value;
        put(image, 8, 5199);
        all_refuse_at(image, IMAGE, __LINE__);
        put(image, 8, 5200);
        EXPECT(image, list(3 * HADULMIR_RECORD_SIZE), 3);
    }
}

/* The rules of images once more, written from document 01 for this test. */
static int draw_fits(int32_t randomisation, int32_t draw)
{
    return randomisation < 0 ? randomisation <= draw && draw <= 0 : 0 <= draw && draw <= randomisation;
}

static int outside(int32_t randomisation)
{
    return randomisation < -3600 || randomisation > 3600;
}

static int event_keeps_rules(const uint8_t *image, const struct hadulmir_entry *entry)
{
    const struct hadulmir_event *e = &entry->event;
    uint64_t clock = hadulmir_clock_of(image);
    int64_t drawn_start = (int64_t)e->start + e->start_draw;
    int64_t end = drawn_start + e->duration + e->duration_draw;

    if (e->program > 7 || image[PROGRAM(e->program)] != 1)
        return 0;
    if (e->controls == 0 || e->start < 3600 || e->duration == 0 || (int64_t)e->duration + e->duration_draw < 1)
        return 0;
    if (outside(e->randomize_start) || outside(e->randomize_duration))
        return 0;
    if (!draw_fits(e->randomize_start, e->start_draw) || !draw_fits(e->randomize_duration, e->duration_draw))
        return 0;
    if (entry->effective_start < (uint64_t)drawn_start || entry->effective_start >= (uint64_t)end || (uint64_t)end <= clock)
        return 0;
    if ((entry->held & ~e->controls) != 0 || entry->cancelled > 1)
        return 0;
    return entry->held == 0 || (clock >= entry->effective_start && !entry->cancelled);
}

/* The rules of a choice, from document 02: three bits, two of them zero before the start, and not both zero beside a held control. */
static int choice_keeps_rules(uint8_t choice, int started, uint32_t held)
{
    int noted = (choice & (WAS_IN | WAS_OUT)) != 0;

    return (choice & ~(OUT | WAS_IN | WAS_OUT)) == 0 && (started || !noted) && (noted || held == 0);
}

static int keeps_rules(const uint8_t *image)
{
    uint8_t count = image[HADULMIR_COUNT_AT];
    uint32_t taken = 0;
    size_t i;

    if (hadulmir_clock_of(image) > HADULMIR_CLOCK_AT_MOST || count > HADULMIR_EVENTS_AT_MOST)
        return 0;
    for (i = 0; i < 8; i++) {
        const uint8_t *p = image + PROGRAM(i);

        if (p[0] > 1 || (p[0] == 0 && hadulmir_number_at(p, HADULMIR_PROGRAM_SIZE) != 0))
            return 0;
        if (p[0] == 1 && !(p[1] <= 2 || (65 <= p[1] && p[1] <= 191)))
            return 0;
    }
    for (i = ENTRY(count); i < IMAGE; i++)
        if (image[i] != 0)
            return 0;
    for (i = 0; i < count; i++) {
        struct hadulmir_entry e = hadulmir_entry_of(image, i);

        if (i > 0 && memcmp(image + ENTRY(i - 1), image + ENTRY(i), HADULMIR_ID_SIZE) >= 0)
            return 0;
        if (!event_keeps_rules(image, &e) || (e.held & taken) != 0)
            return 0;
        if (!choice_keeps_rules(image[ENTRY(i) + CHOICE_AT], hadulmir_clock_of(image) >= e.effective_start, e.held))
            return 0;
        taken |= e.held;
    }
    return 1;
}

/* Numbers that look random, the same in every run. */
static uint32_t next_random(void)
{
    static uint32_t state = 20305;

    state = state * 1664525u + 1013904223u;
    return state >> 8;
}

/* Changes one number of an image: a field by its place and size, to a value near an edge. */
static void change_a_number(uint8_t *image)
{
    static const struct {
        uint8_t at, size;
    } fields[] = {{0, 8}, {8, 8}, {PROGRAM_AT, 1}, {CONTROLS_AT, 4}, {CREATED_AT, 4}, {START_AT, 4}, {DURATION_AT, 4},
                  {RANDOMIZE_START_AT, 2}, {RANDOMIZE_DURATION_AT, 2}, {START_DRAW_AT, 2}, {DURATION_DRAW_AT, 2},
                  {EFFECTIVE_START_AT, 8}, {HELD_AT, 4}, {CANCELLED_AT, 1}, {CHOICE_AT, 1}};
    uint32_t f = next_random() % (sizeof fields / sizeof fields[0]);
    uint8_t count = image[HADULMIR_COUNT_AT];
    size_t entries = count > 0 && count < HADULMIR_EVENTS_AT_MOST ? count + 1u : HADULMIR_EVENTS_AT_MOST;
    size_t at = ENTRY(next_random() % entries) + fields[f].at;
    size_t size = fields[f].size;
    uint64_t old;

    switch (next_random() % 8) {
    case 0:
        at = 0, size = 8;
        break;
    case 1:
        at = PROGRAM(next_random() % HADULMIR_PROGRAMS_AT_MOST) + next_random() % 2, size = 1;
        break;
    case 2:
        at = HADULMIR_COUNT_AT + next_random() % (IMAGE - HADULMIR_COUNT_AT), size = 1;
        break;
    }
    old = hadulmir_number_at(image + at, size);
    switch (next_random() % 6) {
    case 0:
        put(image + at, size, old + 1);
        break;
    case 1:
        put(image + at, size, old - 1);
        break;
    case 2:
        put(image + at, size, next_random() % 8);
        break;
    case 3:
        put(image + at, size, old + next_random() % 400);
        break;
    case 4:
        put(image + at, size, old - next_random() % 400);
        break;
    case 5:
        put(image + at, size, old ^ (UINT64_C(1) << next_random() % 64));
        break;
    }
}

/* Images changed at random: each function refuses with 2 those that break a rule, and no others. */
static void test_changed(void)
{
    static uint8_t base[4][IMAGE];
    uint8_t image[IMAGE], copy[IMAGE];
    unsigned kept = 0, broken = 0;
    unsigned i, j;

    sound_image(base[0]);
    fill(base[1]);
    EXPECT(base[1], set_clock(5003, HADULMIR_ROW_SIZE), 1);
    fresh(base[2]);
    begin(base[3], 4000);
    for (i = 0; i < 6; i++)
        EXPECT(base[3], event(i * i, 0, 3u << i, i % 3, 5000 + 50 * (i % 4), 300), HADULMIR_RECEIVED);
    EXPECT(base[3], cancel(4), HADULMIR_CANCELLED);
    EXPECT(base[3], opt_out(9), HADULMIR_OPTED_OUT);
    EXPECT(base[3], set_clock(5120, ROWS_ROOM), 4);
    for (i = 0; i < 6000; i++) {
        const struct op ops[] = {add((uint8_t)(i % 8), 1, 1), event(i % 50, 0, 1 + i % 7, i, 5000 + i, 50), cancel(i % 30), opt_out(i % 30),
                                 opt_in(i % 30), set_clock(hadulmir_clock_of(base[i % 4]) + i % 500, ROWS_ROOM),
                                 ask((uint8_t)(i % 32), ID_ROOM), list(RECORDS_ROOM)};
        int sound, all = 1;

        memcpy(image, base[i % 4], IMAGE);
        do
            change_a_number(image);
        while (next_random() % 4 == 0);
        sound = keeps_rules(image);
        *(sound ? &kept : &broken) += 1;
        for (j = 0; j < sizeof ops / sizeof ops[0]; j++) {
            int32_t returned;

            memcpy(copy, image, IMAGE);
            returned = call(copy, ops[j]);
            all = all && (returned == HADULMIR_BAD_IMAGE) == !sound && keeps_rules(copy) == sound;
        }
        CHECK(all);
    }
    CHECK(kept > 500 && broken > 500);
}

/* LOSS OF POWER */

#define OPS 33

static void day(struct op *ops)
{
    const struct op list_of_calls[OPS] = {
        add(0, 1, 1), add(1, 0, 2), ask(0, ID_ROOM), set_clock(4000, ROWS_ROOM), event(1, 0, 1, 100, 5000, 600),
        event(2, 0, 1, 200, 5300, 60), event(3, 1, 3, 50, 5350, 100), drawn(event(4, 0, 0x80000000u, 50, 5000, 500), -300, -17, 100, 9),
        event(1, 0, 1, 100, 5000, 600), opt_out(3), opt_out(9), list(RECORDS_ROOM), set_clock(5000, ROWS_ROOM), ask(0, ID_ROOM), opt_out(4),
        ask(31, ID_ROOM), opt_out(4), cancel(9), set_clock(5310, 2 * HADULMIR_ROW_SIZE - 1), set_clock(5310, 2 * HADULMIR_ROW_SIZE),
        ask(0, ID_ROOM), list(4 * HADULMIR_RECORD_SIZE - 1), list(4 * HADULMIR_RECORD_SIZE), cancel(4), cancel(4),
        set_clock(5360, ROWS_ROOM), event(5, 0, 0, 0, 0, 0), event(6, 1, 4, 1, 5300, 200), ask(1, ID_ROOM), opt_in(3), ask(1, ID_ROOM),
        set_clock(7000, ROWS_ROOM), list(0)};

    memcpy(ops, list_of_calls, sizeof list_of_calls);
}

/* Runs the list; from bit k of `cuts` on, the host has a copy of the image that was made after call k, and the old one is overwritten. */
static void run_day(uint64_t cuts, int32_t *returned, uint8_t (*lent)[LENT_AT_MOST], uint8_t (*images)[IMAGE])
{
    struct op ops[OPS];
    struct lent own = lend(IMAGE);
    size_t k;

    day(ops);
    CHECK(hadulmir_fresh(own.at, IMAGE) == 0);
    for (k = 0; k < OPS; k++) {
        struct lent room = lend(ops[k].room);

        returned[k] = act(own.at, IMAGE, &ops[k], room.at);
        memset(lent[k], 0, LENT_AT_MOST);
        memcpy(lent[k], room.at, room.len);
        memcpy(images[k], own.at, IMAGE);
        free(room.block);
        if ((cuts >> k & 1) != 0) {
            struct lent next = lend(IMAGE);

            memcpy(next.at, own.at, IMAGE);
            memset(own.at, 0xEE, IMAGE);
            free(own.block);
            own = next;
        }
    }
    free(own.block);
}

static void test_power(void)
{
    static const int32_t wanted[OPS] = {0, 0, 2, 0, 1, 1, 1, 1, 0, 4, -11, 4, 2, 1, 4, 0, 0, -11, -13, 2, 1, -13, 4, 6, 0, 2, -7, 1, 3, 5, 1,
                                        3, 0};
    static uint8_t lent[2][OPS][LENT_AT_MOST], images[2][OPS][IMAGE];
    struct op ops[OPS];
    int32_t returned[2][OPS];
    uint64_t cuts;
    unsigned k;

    day(ops);
    run_day(0, returned[0], lent[0], images[0]);
    for (k = 0; k < OPS; k++) {
        if (returned[0][k] != wanted[k])
            printf("face.c: call %u of the day returned %" PRId32 "\n", k, returned[0][k]);
        CHECK(returned[0][k] == wanted[k]);
        CHECK(keeps_rules(images[0][k]));
        CHECK(ops[k].kind != LIST || returned[0][k] < 0 || records_of(lent[0][k], returned[0][k], images[0][k]));
    }
    /* after each single call, then after every one */
    for (k = 0; k <= OPS; k++) {
        cuts = k < OPS ? UINT64_C(1) << k : UINT64_MAX;
        run_day(cuts, returned[1], lent[1], images[1]);
        CHECK(memcmp(returned[0], returned[1], sizeof returned[0]) == 0);
        CHECK(memcmp(lent[0], lent[1], sizeof lent[0]) == 0);
        CHECK(memcmp(images[0], images[1], sizeof images[0]) == 0);
    }
}

/* A FRESH IMAGE WITH WHAT STILL COUNTS, by the steps of docs/HOST.md */

static void move_clock(uint8_t *to, uint64_t reading)
{
    uint8_t rows[HADULMIR_ROWS_SIZE];

    CHECK(hadulmir_set_clock(to, IMAGE, reading, rows, sizeof rows) >= 0);
}

/* Programs, and the events that are not cancelled; the user is out from the beginning of those that it was out of. */
static void move_records(uint8_t *to, const uint8_t *from)
{
    size_t i;

    for (i = 0; i < HADULMIR_PROGRAMS_AT_MOST; i++) {
        struct hadulmir_program p = hadulmir_program_of(from, (uint8_t)i);

        if (p.added)
            CHECK(hadulmir_add_program(to, IMAGE, (uint8_t)i, p.primacy, p.defaults) == 0);
    }
    for (i = 0; i < hadulmir_count_of(from); i++) {
        struct hadulmir_entry e = hadulmir_entry_of(from, i);

        if (e.cancelled)
            continue;
        CHECK(hadulmir_deliver_event(to, IMAGE, &e.event) == HADULMIR_RECEIVED);
        if (e.was_out || (e.out && !e.was_in))
            CHECK(hadulmir_opt_out(to, IMAGE, e.event.id.high, e.event.id.low) == HADULMIR_OPTED_OUT);
    }
}

/* Of the events that the user was in and out of, and that are not done, the one that starts first; the count if there is none. */
static size_t next_mixed(const uint8_t *from, uint64_t done)
{
    size_t found = hadulmir_count_of(from), i;

    for (i = 0; i < hadulmir_count_of(from); i++) {
        struct hadulmir_entry e = hadulmir_entry_of(from, i);

        if ((done >> i & 1) == 0 && !e.cancelled && e.was_in && e.was_out
            && (found == hadulmir_count_of(from) || e.effective_start < hadulmir_entry_of(from, found).effective_start))
            found = i;
    }
    return found;
}

/* Opts in to these events, each at its effective start. */
static void move_mixed(uint8_t *to, const uint8_t *from)
{
    uint64_t done = 0;
    size_t i;

    while ((i = next_mixed(from, done)) < hadulmir_count_of(from)) {
        struct hadulmir_entry e = hadulmir_entry_of(from, i);

        move_clock(to, e.effective_start);
        CHECK(hadulmir_opt_in(to, IMAGE, e.event.id.high, e.event.id.low) == HADULMIR_OPTED_IN);
        done |= UINT64_C(1) << i;
    }
}

/* Makes `to` out of what `from` holds, by the steps of docs/HOST.md. */
static void move_over(uint8_t *to, const uint8_t *from)
{
    size_t i;

    fresh(to);
    move_records(to, from);
    move_mixed(to, from);
    move_clock(to, hadulmir_clock_of(from));
    for (i = 0; i < hadulmir_count_of(from); i++) {
        struct hadulmir_entry e = hadulmir_entry_of(from, i);

        if (!e.cancelled)
            CHECK((e.out ? hadulmir_opt_out : hadulmir_opt_in)(to, IMAGE, e.event.id.high, e.event.id.low) >= 0);
    }
}

static void test_fresh_again(void)
{
    uint8_t image[IMAGE], moved[IMAGE];

    fresh(image);
    EXPECT(image, add(0, 1, 0x3), 0);
    EXPECT(image, add(5, 65, 0x4), 0);
    ROWS(image, 4000, "");
    EXPECT(image, event(1, 0, 0x1, 100, 5000, 600), HADULMIR_RECEIVED);
    EXPECT(image, event(2, 0, 0x1, 200, 5300, 60), HADULMIR_RECEIVED);
    EXPECT(image, drawn(event(3, 5, 0x6, 50, 5100, 30), -60, -30, 3600, 2000), HADULMIR_RECEIVED);
    ROWS(image, 5310, "5000 1 2; 5070 3 2; 5300 1 7; 5300 2 2");
    move_over(moved, image);
    CHECK(same(moved, image));

    /* without what was cancelled, its place is free, and what it had superseded holds again */
    EXPECT(image, cancel(2), HADULMIR_CANCELLED);
    move_over(moved, image);
    LISTED(moved, "1 5000-5600 1; 3 5070-7100 6 earliest 5040");
    ROWS(moved, 7200, "5600 1 3; 7100 3 3");
}

/* Every choice that calls can lead to, of events that hold and of events that wait, is there in the fresh image too. */
static void test_choices_again(void)
{
    static const uint32_t starts[] = {5001, 5002, 5004, 5003, 5005, 5006, 6000, 6000, 5003};
    static const uint8_t wanted[] = {WAS_IN, OUT | WAS_OUT, OUT | WAS_IN | WAS_OUT, WAS_IN | WAS_OUT, OUT | WAS_IN, WAS_OUT, OUT, 0,
                                     WAS_IN | WAS_OUT};
    static const char *const rows = "5601 0 3; 5602 1 10; 5603 3 9; 5603 8 9; 5604 2 8; 5605 4 8; 5606 5 9; 6000 6 2; 6000 7 2; "
                                    "6600 6 10; 6600 7 3";
    uint8_t image[IMAGE], moved[IMAGE];
    uint64_t id;

    begin(image, 4000);
    for (id = 0; id <= 8; id++)
        EXPECT(image, event(id, 0, UINT32_C(1) << id, 100, starts[id], 600), HADULMIR_RECEIVED);
    EXPECT(image, opt_out(1), HADULMIR_OPTED_OUT);
    EXPECT(image, opt_out(5), HADULMIR_OPTED_OUT);
    EXPECT(image, opt_out(6), HADULMIR_OPTED_OUT);
    EXPECT(image, set_clock(5100, ROWS_ROOM), 7);
    EXPECT(image, opt_out(2), HADULMIR_OPTED_OUT);
    EXPECT(image, opt_out(3), HADULMIR_OPTED_OUT);
    EXPECT(image, opt_out(8), HADULMIR_OPTED_OUT);
    ROWS(image, 5200, "");
    EXPECT(image, opt_in(3), HADULMIR_OPTED_IN);
    EXPECT(image, opt_in(8), HADULMIR_OPTED_IN);
    ROWS(image, 5300, "");
    EXPECT(image, opt_out(4), HADULMIR_OPTED_OUT);
    EXPECT(image, opt_in(5), HADULMIR_OPTED_IN);
    for (id = 0; id <= 8; id++)
        CHOICE(image, id, wanted[id]);
    move_over(moved, image);
    CHECK(same(moved, image));
    ROWS(moved, 7000, rows);
    ROWS(image, 7000, rows);
}

/* RECORDED LINES */

typedef int32_t turning(const uint8_t *line, uint64_t line_len, uint8_t *out, uint64_t out_len);

/* Makes a call on a line of `len` bytes, which it leaves as it is. */
static int32_t turn(turning *way, const char *line, size_t len, size_t room)
{
    struct lent given = lend(len), lent = lend(room);
    int32_t returned;

    memcpy(given.at, line, len);
    returned = way(given.at, len, lent.at, room);
    CHECK(memcmp(given.at, line, len) == 0 && guards_whole(&given) && guards_whole(&lent) && (returned < 0 || (size_t)returned <= room)
          && pattern_from(&lent, returned < 0 ? 0 : (size_t)returned));
    memcpy(lent_bytes, lent.at, room < LENT_AT_MOST ? room : LENT_AT_MOST);
    free(given.block);
    free(lent.block);
    return returned;
}

static void returns_at(turning *way, const char *text, size_t len, size_t room, int32_t wanted, int line)
{
    int32_t returned = turn(way, text, len, room);

    if (returned != wanted && failed < 40)
        printf("face.c:%d: %.*s returned %" PRId32 ", expected %" PRId32 "\n", line, (int)(len < 90 ? len : 90), text, returned, wanted);
    check(returned == wanted, "the returned number of a line", line);
}

/* The line becomes `wanted` in every buffer that is long enough for that, and is refused with 13 in every shorter one. */
static void becomes_at(turning *way, const char *text, const char *wanted, int line)
{
    size_t need = strlen(wanted), room;

    for (room = 0; room <= need + 2; room++) {
        returns_at(way, text, strlen(text), room, room < need ? HADULMIR_TOO_SHORT : (int32_t)need, line);
        check(room < need || memcmp(lent_bytes, wanted, need) == 0, "the turned line", line);
    }
}

/* The line is refused with this number in every buffer. */
static void refuses_at(turning *way, const char *text, int32_t wanted, int line)
{
    size_t room;

    for (room = 0; room <= HADULMIR_LONG_LINE_SIZE + 2; room++)
        returns_at(way, text, strlen(text), room, wanted, line);
}

#define BECOMES(way, text, wanted) becomes_at((way), (text), (wanted), __LINE__)
#define REFUSES(way, text, wanted) refuses_at((way), (text), (wanted), __LINE__)

#define ZEROS "0000000000000000"
#define FIELDS "00" "00000001" "00000064" "00001388" "00000258" "0000000000000000"
#define ALL_ZERO ZEROS ZEROS ZEROS "00"
#define ALL_ONE "FFFFFFFFFFFFFFFFFFFFFFFFFFFFFFFFFFFFFFFFFFFFFFFFFF"

/* Lines of every kind, among them such as their calls would refuse with 3, 6, 7, 12 and 14. */
static const struct {
    const char *shorter, *longer;
} lines[] = {{"01" "FEDCBA9876543210" FIELDS, "01" ZEROS "FEDCBA9876543210" FIELDS},
             {"01" ZEROS ALL_ZERO, "01" ZEROS ZEROS ALL_ZERO},
             {"01" "FFFFFFFFFFFFFFFF" ALL_ONE, "01" ZEROS "FFFFFFFFFFFFFFFF" ALL_ONE},
             {"02" "0123456789ABCDEF", "02" ZEROS "0123456789ABCDEF"},
             {"06" "8000000000000001", "06" ZEROS "8000000000000001"},
             {"07" "0000000100000000", "07" ZEROS "0000000100000000"},
             {"03" "0000000000001388", "03" "0000000000001388"},
             {"03" "FFFFFFFFFFFFFFFF", "03" "FFFFFFFFFFFFFFFF"},
             {"04" "00010000000F", "04" "00010000000F"},
             {"04" "FFFFFFFFFFFF", "04" "FFFFFFFFFFFF"},
             {"05" "1F", "05" "1F"},
             {"05" "FF", "05" "FF"}};

#define LINES (sizeof lines / sizeof lines[0])

static void test_lines(void)
{
    struct hadulmir_id id;
    size_t i;

    for (i = 0; i < LINES; i++) {
        BECOMES(hadulmir_lengthen, lines[i].shorter, lines[i].longer);
        BECOMES(hadulmir_shorten, lines[i].longer, lines[i].shorter);
        if (strlen(lines[i].shorter) != strlen(lines[i].longer)) {
            REFUSES(hadulmir_lengthen, lines[i].longer, HADULMIR_NO_FRAME);
            REFUSES(hadulmir_shorten, lines[i].shorter, HADULMIR_NO_FRAME);
        }
    }
    CHECK(turn(hadulmir_lengthen, lines[0].shorter, 68, HADULMIR_LONG_LINE_SIZE) == 84);
    CHECK(hadulmir_id_from_text((const char *)lent_bytes + 2, 32, &id) && id.high == 0 && id.low == UINT64_C(0xFEDCBA9876543210));
}

/* A long line of which one digit of the id is not 0: 15 comes of the upper half, and a byte behind it that is no digit gives 1 first. */
static void try_digit(const char *line, size_t at, char digit)
{
    char text[HADULMIR_LONG_LINE_SIZE + 1];
    size_t len = strlen(line), room;

    strcpy(text, line);
    memset(text + 2, '0', 32);
    text[at] = digit;
    for (room = 0; room <= HADULMIR_SHORT_LINE_SIZE; room += HADULMIR_SHORT_LINE_SIZE)
        returns_at(hadulmir_shorten, text, len, room,
                   at < 18 ? HADULMIR_ID_TOO_LARGE : room == 0 ? HADULMIR_TOO_SHORT : (int32_t)len - 16, __LINE__);
    CHECK(at < 18 || (memcmp(lent_bytes, text, 2) == 0 && memcmp(lent_bytes + 2, text + 18, len - 18) == 0));
    text[len - 1] = 'f';
    for (room = 0; room <= HADULMIR_SHORT_LINE_SIZE; room += HADULMIR_SHORT_LINE_SIZE)
        returns_at(hadulmir_shorten, text, len, room, HADULMIR_NO_FRAME, __LINE__);
}

/* Each digit of the id, with one bit and with all bits. */
static void test_line_halves(void)
{
    static const char digits[] = "1248F";
    size_t i, at, d;

    for (i = 0; i < LINES; i++) {
        if (strlen(lines[i].shorter) == strlen(lines[i].longer))
            continue;
        for (at = 2; at < 34; at++)
            for (d = 0; d < sizeof digits - 1; d++)
                try_digit(lines[i].longer, at, digits[d]);
    }
}

/* How many digits the lines of a kind have, short and long; 0 if there is no such kind. */
static size_t line_length(unsigned kind, int is_long)
{
    static const uint8_t lengths[2][8] = {{0, 68, 18, 18, 14, 4, 18, 18}, {0, 84, 34, 18, 14, 4, 34, 34}};

    return kind < 8 ? lengths[is_long][kind] : 0;
}

/* What a call has to return for a text, and the turned line in `wanted`, by the sentences of #105. */
static int32_t turned_by_hand(turning *way, const char *text, size_t len, size_t room, char *wanted)
{
    int lengthens = way == hadulmir_lengthen;
    size_t need, i;

    for (i = 0; i < len; i++)
        if (text[i] == '\0' || strchr("0123456789ABCDEF", text[i]) == NULL)
            return HADULMIR_NO_FRAME;
    if (len < 2 || text[0] != '0' || len != line_length((unsigned)(text[1] - '0'), !lengthens))
        return HADULMIR_NO_FRAME;
    need = line_length((unsigned)(text[1] - '0'), lengthens);
    if (need < len && strncmp(text + 2, ZEROS, 16) != 0)
        return HADULMIR_ID_TOO_LARGE;
    if (room < need)
        return HADULMIR_TOO_SHORT;
    sprintf(wanted, "%.2s%s%.*s", text, need > len ? ZEROS : "", (int)len - (need < len ? 18 : 2), text + (need < len ? 18 : 2));
    return (int32_t)need;
}

/* A call on a text, beside what is worked out for it. Gives the number. */
static int32_t beside_at(turning *way, const char *text, size_t len, size_t room, int line)
{
    char wanted[HADULMIR_LONG_LINE_SIZE + 1];
    int32_t returned = turned_by_hand(way, text, len, room, wanted);

    returns_at(way, text, len, room, returned, line);
    check(returned < 0 || memcmp(lent_bytes, wanted, (size_t)returned) == 0, "the turned line", line);
    return returned;
}

/* Both calls, each with a buffer that always suffices. */
static void both_beside_at(const char *text, size_t len, int line)
{
    beside_at(hadulmir_lengthen, text, len, HADULMIR_LONG_LINE_SIZE, line);
    beside_at(hadulmir_shorten, text, len, HADULMIR_SHORT_LINE_SIZE, line);
}

#define BOTH_BESIDE(text, len) both_beside_at((text), (len), __LINE__)

/* Every kind, those too that there are not, with every length; and lengths that would be right if they were cut off to 8 or 16 bits. */
static void test_line_lengths(void)
{
    static char text[65536 + HADULMIR_LONG_LINE_SIZE + 1];
    unsigned kind;
    size_t len, i;

    memset(text, '0', sizeof text);
    for (kind = 0; kind < 256; kind++) {
        text[0] = "0123456789ABCDEF"[kind / 16];
        text[1] = "0123456789ABCDEF"[kind % 16];
        for (len = 0; len <= HADULMIR_LONG_LINE_SIZE + 2; len++)
            if (kind <= 16 || len % 2 == 0)
                BOTH_BESIDE(text, len);
    }
    for (i = 0; i < LINES; i++) {
        memcpy(text, lines[i].longer, strlen(lines[i].longer));
        for (len = 256; len <= 65536; len *= 256) {
            BOTH_BESIDE(text, len + strlen(lines[i].shorter));
            BOTH_BESIDE(text, len + strlen(lines[i].longer));
            returns_at(hadulmir_lengthen, lines[i].shorter, strlen(lines[i].shorter), len, (int32_t)strlen(lines[i].longer), __LINE__);
            returns_at(hadulmir_shorten, lines[i].longer, strlen(lines[i].longer), len, (int32_t)strlen(lines[i].shorter), __LINE__);
        }
    }
}

/* Every place of a line with the bytes beside the digits, digits in lower case, line ends and others that are no digits of a frame. */
static void test_line_bytes(void)
{
    static const char bytes[] = "/09:@AFG`afg \n\r\t-+x\0\xB0\xC1\xFF";
    char text[HADULMIR_LONG_LINE_SIZE + 1];
    size_t i, at, b;

    for (i = 0; i < 2 * LINES; i++) {
        const char *line = i % 2 == 0 ? lines[i / 2].shorter : lines[i / 2].longer;

        for (at = 0; at < strlen(line); at++)
            for (b = 0; b < sizeof bytes; b++) {
                strcpy(text, line);
                text[at] = bytes[b];
                BOTH_BESIDE(text, strlen(line));
            }
    }
    BOTH_BESIDE("", 0);
    BOTH_BESIDE("051F\n", 5);
    BOTH_BESIDE("051F\r", 5);
    BOTH_BESIDE(" 051F", 5);
    BOTH_BESIDE("051F ", 5);
    BOTH_BESIDE("refused 1", 9);
}

/* A text that is mostly a line, of either kind; the upper half of an id is mostly 0. Gives its length. */
static size_t random_line(char *text)
{
    static const char bytes[] = "0123456789ABCDEFabcdefG:/@ \n";
    unsigned kind = 1 + next_random() % 7, length_of = next_random() % 4 == 0 ? 1 + next_random() % 7 : kind;
    size_t len = line_length(length_of, (int)(next_random() % 2)), at = next_random() % len, i;

    text[0] = '0';
    text[1] = (char)('0' + kind);
    for (i = 2; i < len; i++)
        text[i] = bytes[next_random() % 16];
    if (len >= 34 && next_random() % 3 != 0)
        memset(text + 2, '0', 16);
    if (next_random() % 6 == 0)
        text[at] = bytes[next_random() % (sizeof bytes - 1)];
    return len;
}

/* Random texts beside what is worked out for them; a turned line, turned back, is itself again. */
static void test_line_random(void)
{
    static turning *const ways[] = {hadulmir_lengthen, hadulmir_shorten};
    unsigned seen[16] = {0}, turned_back[2] = {0};
    char text[HADULMIR_LONG_LINE_SIZE + 1], back[HADULMIR_LONG_LINE_SIZE + 1];
    unsigned i;

    for (i = 0; i < 20000; i++) {
        size_t len = random_line(text), room = next_random() % 4 == 0 ? next_random() % 90 : HADULMIR_LONG_LINE_SIZE;
        int32_t returned = beside_at(ways[i % 2], text, len, room, __LINE__);

        if (returned < 0) {
            seen[-returned]++;
            continue;
        }
        turned_back[i % 2]++;
        memcpy(back, lent_bytes, (size_t)returned);
        CHECK(turn(ways[1 - i % 2], back, (size_t)returned, len) == (int32_t)len && memcmp(lent_bytes, text, len) == 0);
    }
    CHECK(seen[1] > 500 && seen[13] > 500 && seen[15] > 500 && turned_back[0] > 500 && turned_back[1] > 500);
}

/* THE HEADER */

static void test_names(void)
{
    char version[16];

    CHECK(HADULMIR_IMAGE_SIZE == 2697 && HADULMIR_ROW_SIZE == 25 && HADULMIR_ROWS_AT_MOST == 96 && HADULMIR_ROWS_SIZE == 2400);
    CHECK(HADULMIR_ENTRY_SIZE == 55 && HADULMIR_RECORD_SIZE == 63 && HADULMIR_EVENTS_AT_MOST == 48 && HADULMIR_RECORDS_SIZE == 3024);
    CHECK(HADULMIR_ID_SIZE == 16 && HADULMIR_ID_TEXT_SIZE == 33 && HADULMIR_PROGRAMS_AT_MOST == 8 && HADULMIR_CONTROLS_AT_MOST == 32);
    CHECK(HADULMIR_CLOCK_AT_MOST == UINT64_C(9000000000) && HADULMIR_LONG_LINE_SIZE == 84 && HADULMIR_SHORT_LINE_SIZE == 68);
    CHECK(HADULMIR_CLOCK_AT == 0 && HADULMIR_COUNT_AT == 8 && HADULMIR_PROGRAMS_AT == 9 && HADULMIR_PROGRAM_SIZE == 6);
    CHECK(HADULMIR_EVENTS_AT == 57 && HADULMIR_IMAGE_LAYOUT == 3);
    CHECK(HADULMIR_BAD_IMAGE == -2 && HADULMIR_PROGRAM_TOO_LARGE == -3 && HADULMIR_PROGRAM_ADDED == -4 && HADULMIR_PRIMACY_RESERVED == -5);
    CHECK(HADULMIR_PROGRAM_UNKNOWN == -6 && HADULMIR_EVENT_INVALID == -7 && HADULMIR_EVENT_DIFFERS == -8 && HADULMIR_EVENT_EXPIRED == -9);
    CHECK(HADULMIR_FULL == -10 && HADULMIR_NOT_HELD == -11 && HADULMIR_BAD_CLOCK == -12 && HADULMIR_TOO_SHORT == -13);
    CHECK(HADULMIR_CONTROL_TOO_LARGE == -14 && HADULMIR_NO_FRAME == -1 && HADULMIR_ID_TOO_LARGE == -15);
    CHECK(HADULMIR_RECEIVED == 1 && HADULMIR_STARTED == 2 && HADULMIR_COMPLETED == 3 && HADULMIR_OPTED_OUT == 4 && HADULMIR_OPTED_IN == 5);
    CHECK(HADULMIR_CANCELLED == 6 && HADULMIR_SUPERSEDED == 7 && HADULMIR_PARTLY_OPTED_OUT == 8 && HADULMIR_PARTLY_OPTED_IN == 9);
    CHECK(HADULMIR_NOT_PARTICIPATED == 10 && HADULMIR_REJECTED_INVALID == 253 && HADULMIR_REJECTED_EXPIRED == 254);
    snprintf(version, sizeof version, "%d.%d.%d", HADULMIR_VERSION / 10000, HADULMIR_VERSION / 100 % 100, HADULMIR_VERSION % 100);
    CHECK(strcmp(version, HADULMIR_VERSION_TEXT) == 0);
}

static void test_helpers(void)
{
    static const uint8_t row[2 * HADULMIR_ROW_SIZE] = {[25] = 1, [26] = 2, [32] = 9, [33] = 1, [40] = 3, [41] = 2, [48] = 5, [49] = 7};
    uint8_t entry[HADULMIR_ENTRY_SIZE] = {0};
    int32_t n, m;

    for (n = -40000; n <= 40000; n++) {
        uint8_t bytes[2];
        uint16_t bits = hadulmir_signed(n);

        bytes[0] = (uint8_t)(bits >> 8);
        bytes[1] = (uint8_t)bits;
        if (hadulmir_signed_at(bytes) != (n < -32768 || n > 32767 ? -32768 : n))
            break;
    }
    CHECK(n == 40001);
    CHECK(hadulmir_signed(-1) == 0xFFFF && hadulmir_signed(-3600) == 61936 && hadulmir_signed(3600) == 3600);
    CHECK(hadulmir_signed(INT32_MIN) == 0x8000 && hadulmir_signed(INT32_MAX) == 0x8000);
    for (n = -20; n <= 100; n++) {
        CHECK(hadulmir_is_refusal(n) == (n < 0));
        CHECK(hadulmir_response_for(n) == (n == -7 ? 253 : n == -9 ? 254 : 0));
    }
    /* a text of its own for each refusal, on one line; one text for all that is none */
    for (n = -17; n <= 2; n++)
        for (m = -17; m <= 2; m++) {
            int one = n == m || ((n < -15 || n > -1) && (m < -15 || m > -1));

            CHECK((strcmp(hadulmir_refusal_text(n), hadulmir_refusal_text(m)) == 0) == one);
            CHECK(strlen(hadulmir_refusal_text(n)) > 0 && strchr(hadulmir_refusal_text(n), '\n') == NULL);
        }
    CHECK(hadulmir_row_at(row, 1).time == UINT64_C(0x0102000000000009) && hadulmir_row_at(row, 1).id.high == UINT64_C(0x0100000000000003)
          && hadulmir_row_at(row, 1).id.low == UINT64_C(0x0200000000000005) && hadulmir_row_at(row, 1).code == 7);
    for (n = 0; n < 8; n++) {
        entry[CHOICE_AT] = (uint8_t)n;
        CHECK(hadulmir_entry_at(entry).out == (n & OUT) && hadulmir_entry_at(entry).was_in == (n & WAS_IN) / WAS_IN
              && hadulmir_entry_at(entry).was_out == (n & WAS_OUT) / WAS_OUT && hadulmir_entry_at(entry).cancelled == 0);
    }
}

/* Ids as bytes and beside each other. */
static void test_id_bytes(void)
{
    struct lent b = lend(HADULMIR_ID_SIZE);
    struct hadulmir_id id;
    size_t i, j;

    for (i = 0; i < IDS; i++) {
        hadulmir_id_put(ids[i], b.at);
        CHECK(hadulmir_number_at(b.at, 8) == ids[i].high && hadulmir_number_at(b.at + 8, 8) == ids[i].low && guards_whole(&b));
        id = hadulmir_id_at(b.at);
        CHECK(id.high == ids[i].high && id.low == ids[i].low);
        for (j = 0; j < IDS; j++) {
            int order = hadulmir_id_compare(ids[i], ids[j]);

            CHECK(i < j ? order < 0 : i > j ? order > 0 : order == 0);
        }
    }
    for (i = 0; i < HADULMIR_ID_SIZE; i++)
        b.at[i] = (uint8_t)(i + 1);
    id = hadulmir_id_at(b.at);
    CHECK(id.high == UINT64_C(0x0102030405060708) && id.low == UINT64_C(0x090A0B0C0D0E0F10));
    free(b.block);
}

/* Reads a text out of a buffer of its exact length; what is no mRID leaves the id as it was. */
static int reads(const char *text, size_t length, uint64_t high, uint64_t low)
{
    struct lent b = lend(length);
    struct hadulmir_id id = {77, 78};
    int read;

    memcpy(b.at, text, length);
    read = hadulmir_id_from_text((const char *)b.at, length, &id);
    free(b.block);
    return read ? read == 1 && id.high == high && id.low == low : id.high == 77 && id.low == 78 && high == 77 && low == 78;
}

#define READS(text, high, low) CHECK(reads((text), sizeof(text) - 1, (high), (low)))
#define NO_ID(text) READS((text), 77, 78)

static void test_id_reading(void)
{
    char text[] = "5B4FF9B708CF41BB83C49F6E00007ED9";
    size_t length, at;
    unsigned byte;

    NO_ID("");
    READS("0", 0, 0);
    READS("f", 0, 15);
    READS("0FB7", 0, 0xFB7);
    READS("0300007ed9", 0, UINT64_C(0x300007ED9));
    READS("FFFFFFFFFFFFFFFF", 0, UINT64_MAX);
    READS("10000000000000000", 1, 0);
    READS("FFFFFFFFFFFFFFFFFFFFFFFFFFFFFFF", UINT64_MAX >> 4, UINT64_MAX);
    READS("FFFFFFFFFFFFFFFFFFFFFFFFFFFFFFFF", UINT64_MAX, UINT64_MAX);
    READS("00000000000000000000000000000000", 0, 0);
    READS("0123456789abcdefFEDCBA9876543210", UINT64_C(0x0123456789ABCDEF), UINT64_C(0xFEDCBA9876543210));
    NO_ID("000000000000000000000000000000000");
    NO_ID("5B4FF9B708CF41BB83C49F6E00007ED9\0");
    NO_ID("0x0FB7");
    NO_ID(" 0FB7");
    NO_ID("0FB7\n");
    NO_ID("0F\0B7");
    NO_ID("-1");
    for (length = 33; length < 80; length++)
        CHECK(reads("0000000000000000000000000000000000000000000000000000000000000000000000000000000", length, 77, 78));

    /* every byte in the first, middle and last place; of them '/', ':', '@', 'G', '`' and 'g' stand beside the digits */
    for (at = 0; at < 32; at += at == 15 ? 1 : 15)
        for (byte = 0; byte < 256; byte++) {
            const char old = text[at];
            int digit = byte != 0 && strchr("0123456789ABCDEFabcdef", (int)byte) != NULL;
            struct hadulmir_id id;

            text[at] = (char)byte;
            CHECK(hadulmir_id_from_text(text, 32, &id) == digit && (digit || reads(text, 32, 77, 78)));
            text[at] = old;
        }
}

/* Every id as text, and back, in either case, with and without the zeros before it. */
static void test_id_writing(void)
{
    struct lent b = lend(HADULMIR_ID_TEXT_SIZE);
    char *text = (char *)b.at, wanted[40];
    size_t i, k;

    for (i = 0; i < IDS; i++) {
        hadulmir_id_to_text(ids[i], text);
        snprintf(wanted, sizeof wanted, "%016" PRIX64 "%016" PRIX64, ids[i].high, ids[i].low);
        CHECK(strcmp(text, wanted) == 0 && guards_whole(&b));
        CHECK(reads(text, 32, ids[i].high, ids[i].low));
        for (k = 0; k < 32; k++)
            text[k] = (char)('A' <= text[k] && text[k] <= 'F' ? text[k] - 'A' + 'a' : text[k]);
        for (k = 0; k < 31 && text[k] == '0'; k++)
            continue;
        CHECK(reads(text + k, 32 - k, ids[i].high, ids[i].low));
    }
    free(b.block);
}

/* Whether an entry has the fields of test_record's event, each of them different. */
static int has_fields(const struct hadulmir_entry *entry)
{
    const struct hadulmir_event *e = &entry->event;

    return e->id.high == UINT64_C(0x0102030405060708) && e->id.low == UINT64_C(0x090A0B0C0D0E0F10) && e->program == 7
           && e->controls == 0xA1B2C3D4u && e->created == 0x11223344 && e->start == 0x55667788 && e->duration == 0x99AABBCCu
           && e->randomize_start == -3600 && e->randomize_duration == 3599 && e->start_draw == -2 && e->duration_draw == 3
           && entry->effective_start == 0x55667786 && entry->held == 0 && entry->cancelled == 0 && entry->out == 1 && entry->was_in == 0
           && entry->was_out == 0;
}

/* A record with every field different, through the part and the helpers, and the image as its readers see it. It is listed behind another. */
static void test_record(void)
{
    static const uint8_t earliest[8] = {0, 0, 0, 0, 0x55, 0x66, 0x69, 0x78}; /* 0x55667788 less 3600 */
    uint8_t image[IMAGE], again[IMAGE];
    struct hadulmir_record r;
    struct hadulmir_entry e;
    struct hadulmir_program p;

    fresh(image);
    EXPECT(image, add(7, 191, 0xFF000001u), 0);
    EXPECT(image, event(1, 7, 1, 0, 5000, 600), HADULMIR_RECEIVED);
    CHECK(hadulmir_count_of(image) == 1);
    memcpy(again, image, IMAGE);
    EXPECT(image, wide(UINT64_C(0x0102030405060708), drawn(event(UINT64_C(0x090A0B0C0D0E0F10), 7, 0xA1B2C3D4u, 0x11223344, 0x55667788,
                                                                 0x99AABBCCu), -3600, -2, 3599, 3)), HADULMIR_RECEIVED);
    EXPECT(image, wide(UINT64_C(0x0102030405060708), opt_out(UINT64_C(0x090A0B0C0D0E0F10))), HADULMIR_OPTED_OUT);
    EXPECT(image, list(2 * HADULMIR_RECORD_SIZE), 2);
    r = hadulmir_record_at(lent_bytes, 1);
    CHECK(has_fields(&r.entry) && r.earliest_start == 0x55666978 && memcmp(lent_bytes + 2 * HADULMIR_RECORD_SIZE - 8, earliest, 8) == 0);
    CHECK(hadulmir_earliest_start_at(lent_bytes, 1) == 0x55666978 && hadulmir_earliest_start_at(lent_bytes, 0) == 5000);
    CHECK(hadulmir_effective_end(&r.entry.event) == UINT64_C(0x55667786) + 0x99AABBCCu + 3);
    CHECK(hadulmir_count_of(image) == 2);
    p = hadulmir_program_of(image, 7);
    CHECK(p.added == 1 && p.primacy == 191 && p.defaults == 0xFF000001u);
    p = hadulmir_program_of(image, 6);
    CHECK(p.added == 0 && p.primacy == 0 && p.defaults == 0);

    /* the same event by its struct, as it was read out of the image */
    e = hadulmir_entry_of(image, 1);
    CHECK(has_fields(&e));
    CHECK(hadulmir_deliver_event(again, IMAGE, &e.event) == HADULMIR_RECEIVED);
    CHECK(hadulmir_opt_out(again, IMAGE, e.event.id.high, e.event.id.low) == HADULMIR_OPTED_OUT && same(again, image));
    CHECK(hadulmir_deliver_event(again, IMAGE, &e.event) == 0 && same(again, image));
    e.event.start_draw = 65534; /* cut off to 16 bits this is -2 */
    CHECK(hadulmir_deliver_event(again, IMAGE, &e.event) == HADULMIR_EVENT_INVALID && same(again, image));
}

int main(void)
{
    test_names();
    test_helpers();
    test_id_bytes();
    test_id_reading();
    test_id_writing();
    test_record();
    test_fresh();
    test_add_program();
    test_deliver_answers();
    test_deliver_ended();
    test_deliver_refusals();
    test_cancel();
    test_set_clock();
    test_ask();
    test_full();
    test_rooms();
    test_marks();
    test_earliest();
    test_earliest_stays();
    test_example();
    test_choice_answers();
    test_choice_stays();
    test_choice_codes();
    test_choice_short();
    test_choice_order();
    test_choice_ask();
    test_choice_noted();
    test_choice_frozen();
    test_choice_full();
    test_id_ties();
    test_id_order();
    test_id_named();
    test_id_images();
    test_unreachable();
    test_choice_by_hand();
    test_broken();
    test_broken_choice();
    test_changed();
    test_power();
    test_fresh_again();
    test_choices_again();
    test_lines();
    test_line_halves();
    test_line_lengths();
    test_line_bytes();
    test_line_random();
    printf("face: %u passed, %u failed\n", passed, failed);
    return failed != 0;
}
