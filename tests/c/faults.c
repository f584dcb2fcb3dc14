/*
 * Faults for the tests to find. Linked with -Wl,--wrap=NAME for each function, so that face.c calls these in place of the archive's; FAULT
 * says which of them is in. With FAULT 0 nothing is changed and face.c passes. tests/c.sh sees to it that face.c fails with each other.
 */
#include <string.h>

#include "hadulmir.h"

int32_t __real_hadulmir_fresh(uint8_t *, uint64_t);
int32_t __real_hadulmir_add_program(uint8_t *, uint64_t, uint8_t, uint8_t, uint32_t);
int32_t __real_hadulmir_deliver(uint8_t *, uint64_t, uint64_t, uint64_t, uint8_t, uint32_t, uint32_t, uint32_t, uint32_t, uint16_t, uint16_t,
                                uint16_t, uint16_t);
int32_t __real_hadulmir_cancel(uint8_t *, uint64_t, uint64_t, uint64_t);
int32_t __real_hadulmir_opt_out(uint8_t *, uint64_t, uint64_t, uint64_t);
int32_t __real_hadulmir_opt_in(uint8_t *, uint64_t, uint64_t, uint64_t);
int32_t __real_hadulmir_set_clock(uint8_t *, uint64_t, uint64_t, uint8_t *, uint64_t);
int32_t __real_hadulmir_ask(const uint8_t *, uint64_t, uint8_t, uint8_t *, uint64_t);
int32_t __real_hadulmir_list(const uint8_t *, uint64_t, uint8_t *, uint64_t);
int32_t __real_hadulmir_lengthen(const uint8_t *, uint64_t, uint8_t *, uint64_t);
int32_t __real_hadulmir_shorten(const uint8_t *, uint64_t, uint8_t *, uint64_t);

/*
 * Ids. 1: an id is found by its lower half alone. 2: the halves of an id that is given are exchanged. 3: ids are ordered as signed numbers.
 * 4: ids are ordered by their lower halves first. For 3 and 4 the archive sees ids for which its own order is that one, and what it wrote is
 * turned back.
 */
static void turn(uint8_t *id)
{
    uint8_t half[8];

    if (FAULT == 3)
        id[0] ^= 0x80;
    if (FAULT == 4) {
        memcpy(half, id, 8);
        memcpy(id, id + 8, 8);
        memcpy(id + 8, half, 8);
    }
}

/* Turns ids that stand `step` bytes apart. */
static void turn_all(uint8_t *first, size_t count, size_t step)
{
    size_t i;

    for (i = 0; i < count; i++)
        turn(first + i * step);
}

static void turn_image(const uint8_t *image, uint64_t image_len)
{
    if (image_len == HADULMIR_IMAGE_SIZE && hadulmir_count_of(image) <= HADULMIR_EVENTS_AT_MOST)
        turn_all((uint8_t *)image + HADULMIR_EVENTS_AT, hadulmir_count_of(image), HADULMIR_ENTRY_SIZE);
}

/* The id that the archive is given in place of this one, for an image as the host has it. */
static struct hadulmir_id given(const uint8_t *image, uint64_t image_len, uint64_t id_high, uint64_t id_low)
{
    struct hadulmir_id id = {FAULT == 2 ? id_low : id_high, FAULT == 2 ? id_high : id_low};
    uint8_t bytes[HADULMIR_ID_SIZE];
    size_t i;

    for (i = 0; FAULT == 1 && image_len == HADULMIR_IMAGE_SIZE && i < hadulmir_count_of(image) && i < HADULMIR_EVENTS_AT_MOST; i++)
        if (hadulmir_entry_of(image, i).event.id.low == id_low)
            return hadulmir_entry_of(image, i).event.id;
    hadulmir_id_put(id, bytes);
    turn(bytes);
    return hadulmir_id_at(bytes);
}

/* 5: a longer buffer is accepted. */
int32_t __wrap_hadulmir_fresh(uint8_t *image, uint64_t image_len)
{
    if (FAULT == 5 && image_len == HADULMIR_IMAGE_SIZE + 1)
        image_len--;
    return __real_hadulmir_fresh(image, image_len);
}

/* 6: a refusal of the primacy changes the last byte of the image. */
int32_t __wrap_hadulmir_add_program(uint8_t *image, uint64_t image_len, uint8_t number, uint8_t primacy, uint32_t defaults)
{
    int32_t returned;

    turn_image(image, image_len);
    returned = __real_hadulmir_add_program(image, image_len, number, primacy, defaults);
    turn_image(image, image_len);
    if (FAULT == 6 && returned == HADULMIR_PRIMACY_RESERVED)
        image[image_len - 1] ^= 1;
    return returned;
}

/* 7: the draws are exchanged. 8: a refusal loses its sign. 9: a repeat is new. */
int32_t __wrap_hadulmir_deliver(uint8_t *image, uint64_t image_len, uint64_t id_high, uint64_t id_low, uint8_t program, uint32_t controls,
                                uint32_t created, uint32_t start, uint32_t duration, uint16_t randomize_start, uint16_t randomize_duration,
                                uint16_t start_draw, uint16_t duration_draw)
{
    struct hadulmir_id id = given(image, image_len, id_high, id_low);
    int32_t returned;

    turn_image(image, image_len);
    returned = __real_hadulmir_deliver(image, image_len, id.high, id.low, program, controls, created, start, duration, randomize_start,
                                       randomize_duration, FAULT == 7 ? duration_draw : start_draw,
                                       FAULT == 7 ? start_draw : duration_draw);
    turn_image(image, image_len);
    if (FAULT == 8 && returned == HADULMIR_FULL)
        return -returned;
    return FAULT == 9 && returned == 0 ? 1 : returned;
}

/* 10: the mark is set, and the last byte of the first event's mask is left. */
int32_t __wrap_hadulmir_cancel(uint8_t *image, uint64_t image_len, uint64_t id_high, uint64_t id_low)
{
    const size_t mask_at = HADULMIR_EVENTS_AT + 52;
    uint8_t held = image_len > mask_at ? image[mask_at] : 0;
    struct hadulmir_id id = given(image, image_len, id_high, id_low);
    int32_t returned;

    turn_image(image, image_len);
    returned = __real_hadulmir_cancel(image, image_len, id.high, id.low);
    turn_image(image, image_len);
    if (FAULT == 10 && returned == HADULMIR_CANCELLED)
        image[mask_at] = held;
    return returned;
}

/* The choice of a held event, or NULL. */
static uint8_t *choice_of(uint8_t *image, struct hadulmir_id id)
{
    size_t i;

    for (i = 0; i < hadulmir_count_of(image); i++)
        if (hadulmir_id_compare(hadulmir_entry_of(image, i).event.id, id) == 0)
            return image + HADULMIR_EVENTS_AT + (i + 1) * HADULMIR_ENTRY_SIZE - 1;
    return NULL;
}

/* 11: a repeat is a choice. 12: the second at which the choice is made counts as out. */
int32_t __wrap_hadulmir_opt_out(uint8_t *image, uint64_t image_len, uint64_t id_high, uint64_t id_low)
{
    struct hadulmir_id id = given(image, image_len, id_high, id_low);
    int32_t returned;

    turn_image(image, image_len);
    returned = __real_hadulmir_opt_out(image, image_len, id.high, id.low);
    turn_image(image, image_len);
    if (FAULT == 12 && returned == HADULMIR_OPTED_OUT && *choice_of(image, id) > 1)
        *choice_of(image, id) |= 4;
    return FAULT == 11 && returned == 0 ? HADULMIR_OPTED_OUT : returned;
}

/* 13: that the user was out is forgotten. 14: an id that is not held is taken for one that the user is in for. */
int32_t __wrap_hadulmir_opt_in(uint8_t *image, uint64_t image_len, uint64_t id_high, uint64_t id_low)
{
    struct hadulmir_id id = given(image, image_len, id_high, id_low);
    int32_t returned;

    turn_image(image, image_len);
    returned = __real_hadulmir_opt_in(image, image_len, id.high, id.low);
    turn_image(image, image_len);
    if (FAULT == 13 && returned == HADULMIR_OPTED_IN && *choice_of(image, id) == 6)
        *choice_of(image, id) = 2;
    return FAULT == 14 && returned == HADULMIR_NOT_HELD ? 0 : returned;
}

static int is_end(struct hadulmir_row row)
{
    return row.code == HADULMIR_COMPLETED || (HADULMIR_PARTLY_OPTED_OUT <= row.code && row.code <= HADULMIR_NOT_PARTICIPATED);
}

/* Puts the ends of one second into the order of their codes. */
static void sort_ends(uint8_t *rows, int32_t count)
{
    uint8_t row[HADULMIR_ROW_SIZE];
    int32_t i, j;

    for (i = 1; i < count; i++)
        for (j = i; j > 0; j--) {
            struct hadulmir_row before = hadulmir_row_at(rows, (size_t)j - 1), after = hadulmir_row_at(rows, (size_t)j);
            uint8_t *at = rows + (size_t)j * HADULMIR_ROW_SIZE;

            if (!is_end(before) || !is_end(after) || before.time != after.time || before.code <= after.code)
                break;
            memcpy(row, at, HADULMIR_ROW_SIZE);
            memmove(at, at - HADULMIR_ROW_SIZE, HADULMIR_ROW_SIZE);
            memcpy(at - HADULMIR_ROW_SIZE, row, HADULMIR_ROW_SIZE);
        }
}

/* 15: one byte is written behind the last row. 16: one byte is written behind the buffer. 17: the last row is dropped. 18: a refused call has
   written a row. 19: a buffer that fits is too short. 20: the ends of one second go by code. 21: after seconds in and out an end gives 8,
   whatever the choice is then. */
int32_t __wrap_hadulmir_set_clock(uint8_t *image, uint64_t image_len, uint64_t reading, uint8_t *rows, uint64_t rows_len)
{
    int32_t returned, i;

    if (FAULT == 19 && rows_len == HADULMIR_ROWS_SIZE && reading == 6000)
        rows_len--;
    turn_image(image, image_len);
    returned = __real_hadulmir_set_clock(image, image_len, reading, rows, rows_len);
    turn_image(image, image_len);
    if (returned > 0)
        turn_all(rows + 8, (size_t)returned, HADULMIR_ROW_SIZE);
    if (FAULT == 15 && returned >= 0 && rows_len > (uint64_t)returned * HADULMIR_ROW_SIZE)
        rows[(size_t)returned * HADULMIR_ROW_SIZE] ^= 1;
    if (FAULT == 16 && returned > 0)
        rows[rows_len] ^= 1;
    if (FAULT == 18 && returned == HADULMIR_TOO_SHORT && rows_len > 0)
        rows[0] ^= 1;
    if (FAULT == 20)
        sort_ends(rows, returned);
    for (i = 0; FAULT == 21 && i < returned; i++)
        if (hadulmir_row_at(rows, (size_t)i).code == HADULMIR_PARTLY_OPTED_IN)
            rows[(size_t)(i + 1) * HADULMIR_ROW_SIZE - 1] = HADULMIR_PARTLY_OPTED_OUT;
    return FAULT == 17 && returned == 2 ? 1 : returned;
}

/* 22: an id is written beside a default. 23: a held control is answered by its event, whatever the choice. 24: of an id the upper half alone
   is written. */
int32_t __wrap_hadulmir_ask(const uint8_t *image, uint64_t image_len, uint8_t control, uint8_t *id, uint64_t id_len)
{
    uint8_t lower[8] = {0};
    int32_t returned;
    size_t i;

    if (id_len >= HADULMIR_ID_SIZE)
        memcpy(lower, id + 8, 8);
    turn_image(image, image_len);
    returned = __real_hadulmir_ask(image, image_len, control, id, id_len);
    turn_image(image, image_len);
    if (returned == HADULMIR_EVENT)
        turn(id);
    if (FAULT == 24 && returned == HADULMIR_EVENT)
        memcpy(id + 8, lower, 8);
    if (FAULT == 22 && returned >= HADULMIR_DEFAULT && id_len >= HADULMIR_ID_SIZE)
        id[15] = 0;
    for (i = 0; FAULT == 23 && !hadulmir_is_refusal(returned) && id_len >= HADULMIR_ID_SIZE && i < hadulmir_count_of(image); i++)
        if ((hadulmir_entry_of(image, i).held >> control & 1) != 0) {
            memcpy(id, image + HADULMIR_EVENTS_AT + i * HADULMIR_ENTRY_SIZE, HADULMIR_ID_SIZE);
            return HADULMIR_EVENT;
        }
    return returned;
}

/* Puts another earliest start into a record. */
static void put_earliest(uint8_t *record, uint64_t time)
{
    size_t i;

    for (i = HADULMIR_RECORD_SIZE; i > HADULMIR_ENTRY_SIZE; i--) {
        record[i - 1] = (uint8_t)time;
        time >>= 8;
    }
}

/* 25: a byte of the image is changed. 26: the earliest start is the effective start. 27: it is start + randomizeStart, lesser or not. 28: a
   buffer that is long enough for the entries alone is accepted. 29: the choice is not listed. 44: a byte behind the image is read, which
   valgrind alone sees. */
int32_t __wrap_hadulmir_list(const uint8_t *image, uint64_t image_len, uint8_t *records, uint64_t records_len)
{
    int32_t returned, i;

    turn_image(image, image_len);
    returned = __real_hadulmir_list(image, image_len, records, records_len);
    turn_image(image, image_len);
    if (returned > 0)
        turn_all(records, (size_t)returned, HADULMIR_RECORD_SIZE);
    if (FAULT == 25 && returned == 48)
        ((uint8_t *)image)[0] ^= 1;
    for (i = 0; (FAULT == 26 || FAULT == 27) && i < returned; i++) {
        struct hadulmir_entry e = hadulmir_record_at(records, (size_t)i).entry;
        int64_t moved = (int64_t)e.event.start + e.event.randomize_start;

        put_earliest(records + (size_t)i * HADULMIR_RECORD_SIZE, FAULT == 26 ? e.effective_start : (uint64_t)moved);
    }
    if (FAULT == 28 && returned == HADULMIR_TOO_SHORT && records_len >= (uint64_t)HADULMIR_ENTRY_SIZE * hadulmir_count_of(image))
        return hadulmir_count_of(image);
    for (i = 0; FAULT == 29 && i < returned; i++)
        records[(size_t)i * HADULMIR_RECORD_SIZE + HADULMIR_ENTRY_SIZE - 1] = 0;
    if (FAULT == 44 && returned >= 0 && image[image_len] == 0x77 && image[image_len + 1] == 0x78)
        return returned + 1;
    return returned;
}

/* A copy of a line in upper case, if it is short enough to be one. */
static const uint8_t *in_upper_case(const uint8_t *line, uint64_t line_len)
{
    static uint8_t copy[HADULMIR_LONG_LINE_SIZE];
    size_t i;

    if (line_len > sizeof copy)
        return line;
    for (i = 0; i < line_len; i++)
        copy[i] = (uint8_t)('a' <= line[i] && line[i] <= 'f' ? line[i] - 'a' + 'A' : line[i]);
    return copy;
}

/* Answers with the line as it came. */
static int32_t passed(const uint8_t *line, uint64_t line_len, uint8_t *out, uint64_t out_len)
{
    if (out_len < line_len)
        return HADULMIR_TOO_SHORT;
    memcpy(out, line, (size_t)line_len);
    return (int32_t)line_len;
}

/* Whether the controls of a short event are 0. */
static int is_empty(const uint8_t *line, uint64_t line_len)
{
    return line_len == HADULMIR_SHORT_LINE_SIZE && memcmp(line, "01", 2) == 0 && memcmp(line + 20, "00000000", 8) == 0;
}

/* 30: digits in lower case are taken. 31: a line feed at the end is taken with the line. 32: a long line passes. 33: an event without controls
   is refused. 34: an opt-in passes as it is. 35: the zeros stand behind the id. 36: a buffer that fits is too short. 37: a line feed is written
   behind the line. 45: a byte behind the line is read, which valgrind alone sees. */
int32_t __wrap_hadulmir_lengthen(const uint8_t *line, uint64_t line_len, uint8_t *out, uint64_t out_len)
{
    int32_t returned;

    if (FAULT == 30)
        line = in_upper_case(line, line_len);
    if (FAULT == 31 && line_len > 0 && line[line_len - 1] == '\n')
        line_len--;
    if (FAULT == 33 && is_empty(line, line_len))
        return HADULMIR_NO_FRAME;
    if (FAULT == 34 && __real_hadulmir_lengthen(line, line_len, out, 0) == HADULMIR_TOO_SHORT && line[1] == '7')
        return passed(line, line_len, out, out_len);
    if (FAULT == 36 && out_len == HADULMIR_LONG_LINE_SIZE)
        out_len--;
    returned = __real_hadulmir_lengthen(line, line_len, out, out_len);
    if (FAULT == 32 && returned == HADULMIR_NO_FRAME && __real_hadulmir_shorten(line, line_len, out, 0) != HADULMIR_NO_FRAME)
        return passed(line, line_len, out, out_len);
    if (FAULT == 35 && returned > (int32_t)line_len) {
        memmove(out + 2, out + 18, 16);
        memset(out + 18, '0', 16);
    }
    if (FAULT == 37 && returned > 0 && out_len > (uint64_t)returned)
        out[returned] = '\n';
    if (FAULT == 45 && returned > 0 && line[line_len] == 0x77)
        return returned + 1;
    return returned;
}

/* 38: of the upper half the first digit does not count. 39: 13 comes before 15. 40: a line refused with 15 is written. 41: a short line
   passes. 42: the length of the long line is answered. 43: 15 comes before 1. */
int32_t __wrap_hadulmir_shorten(const uint8_t *line, uint64_t line_len, uint8_t *out, uint64_t out_len)
{
    uint8_t copy[HADULMIR_LONG_LINE_SIZE];
    int32_t returned;

    if (FAULT == 38 && line_len >= 34 && line_len <= sizeof copy) {
        memcpy(copy, line, (size_t)line_len);
        copy[2] = '0';
        line = copy;
    }
    if (FAULT == 43 && line_len == HADULMIR_LONG_LINE_SIZE && memcmp(line + 2, "0000000000000000", 16) != 0)
        return HADULMIR_ID_TOO_LARGE;
    returned = __real_hadulmir_shorten(line, line_len, out, out_len);
    if (FAULT == 39 && returned == HADULMIR_ID_TOO_LARGE && out_len < line_len - 16)
        return HADULMIR_TOO_SHORT;
    if (FAULT == 40 && returned == HADULMIR_ID_TOO_LARGE && out_len > 2)
        memcpy(out, line, 2);
    if (FAULT == 41 && returned == HADULMIR_NO_FRAME && __real_hadulmir_lengthen(line, line_len, out, 0) != HADULMIR_NO_FRAME)
        return passed(line, line_len, out, out_len);
    return FAULT == 42 && returned > 0 ? (int32_t)line_len : returned;
}
