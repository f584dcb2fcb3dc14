/*
 * A small host: two events that overlap, a randomised start, a loss of power, refusals, a user who opts out and in again. The lines "time mRID
 * code" are those of document 01's worked example, in its order; only those of event 3 and of the late event 4 are added. The number of an
 * event is the digit before the last eight of its mRID, which are the provider's.
 */
#include <inttypes.h>
#include <stdio.h>
#include <string.h>

#include "hadulmir.h"

/* All that has to outlive a loss of power. */
struct state {
    uint8_t image[HADULMIR_IMAGE_SIZE];
};

/*
 * Each call is made on a copy, `next`; its responses are posted; then the copy is stored and taken over. A cut before the store repeats what
 * was posted, a cut after it loses nothing. A store that can be torn needs a check sum, or two places and a mark.
 */
static struct state now, next, stored;

/* What a host would send to the response server. */
static void post(struct hadulmir_row row)
{
    char mrid[HADULMIR_ID_TEXT_SIZE];

    hadulmir_id_to_text(row.id, mrid);
    printf("%" PRIu64 " %s %u\n", row.time, mrid, (unsigned)row.code);
}

/* Whether a call was refused, which is printed. */
static int refused(const char *what, int32_t returned)
{
    if (hadulmir_is_refusal(returned))
        printf("%s refused with number %" PRId32 ": %s\n", what, -returned, hadulmir_refusal_text(returned));
    return hadulmir_is_refusal(returned);
}

/* After a call on `next` about one event: what it answered is the code to post, or 0 for none; some refusals have a code too. */
static void respond(const char *what, struct hadulmir_id id, int32_t returned)
{
    uint8_t code = refused(what, returned) ? hadulmir_response_for(returned) : (uint8_t)returned;

    if (code != 0)
        post((struct hadulmir_row){hadulmir_clock_of(next.image), id, code});
    if (!hadulmir_is_refusal(returned))
        stored = now = next;
}

/* Stirs the bits of a number, so that numbers side by side give such as look random (splitmix64). */
static uint64_t stirred(uint64_t number)
{
    number = (number ^ (number >> 30)) * UINT64_C(0xBF58476D1CE4E5B9);
    number = (number ^ (number >> 27)) * UINT64_C(0x94D049BB133111EB);
    return number ^ (number >> 31);
}

/*
 * Draw 1 or 2 of an event, between 0 and the bound, both included. It comes from the mRID and from a number that no two devices share, so that
 * an event has the same draws whenever it is delivered, also after its end, and none is stored. Beyond an hour the delivery is refused anyway.
 */
static int32_t draw(struct hadulmir_id id, uint64_t which, int32_t bound)
{
    const uint64_t device = 2030; /* in place of a random number of the device, so that the example always prints the same */
    uint32_t number = (uint32_t)(stirred(stirred(stirred(device ^ id.high) ^ id.low) + which) >> 32);

    if (bound < -3600 || bound > 3600)
        return 0;
    return bound < 0 ? -(int32_t)(number % (uint32_t)(1 - bound)) : (int32_t)(number % (uint32_t)(1 + bound));
}

/* An event as it was received, of program 0 for control 0; `bound` is that of its start. */
static void deliver(const char *mrid, uint32_t created, uint32_t start, uint32_t duration, int32_t bound)
{
    struct hadulmir_event event = {.controls = 0x1, .created = created, .start = start, .duration = duration, .randomize_start = bound};

    if (!hadulmir_id_from_text(mrid, strlen(mrid), &event.id)) {
        printf("event left out: \"%s\" is no mRID\n", mrid);
        return;
    }
    event.start_draw = draw(event.id, 1, event.randomize_start);
    event.duration_draw = draw(event.id, 2, event.randomize_duration);
    next = now;
    respond("event", event.id, hadulmir_deliver_event(next.image, sizeof next.image, &event));
}

/* The user presses the button beside a listed event: out of it, or in again. */
static void press(struct hadulmir_id id, int out)
{
    next = now;
    respond("choice", id, (out ? hadulmir_opt_out : hadulmir_opt_in)(next.image, sizeof next.image, id.high, id.low));
}

/* Set the clock and post every row that this gives. Rows go into a buffer that fits them all, so that only the reading can be refused. */
static void set_clock(uint64_t reading)
{
    static uint8_t rows[HADULMIR_ROWS_SIZE];
    int32_t count, i;

    next = now;
    count = hadulmir_set_clock(next.image, sizeof next.image, reading, rows, sizeof rows);
    if (refused("clock", count))
        return;
    for (i = 0; i < count; i++)
        post(hadulmir_row_at(rows, (size_t)i));
    stored = now = next;
}

/* What the control should do now. The value itself is found by the host, from the event or from the program. */
static void ask(uint8_t control)
{
    uint8_t id[HADULMIR_ID_SIZE];
    char mrid[HADULMIR_ID_TEXT_SIZE];
    int32_t asked = hadulmir_ask(now.image, sizeof now.image, control, id, sizeof id);

    if (asked == HADULMIR_EVENT) {
        hadulmir_id_to_text(hadulmir_id_at(id), mrid);
        printf("%u event %s\n", (unsigned)control, mrid);
    } else if (asked == HADULMIR_NOBODY)
        printf("%u none\n", (unsigned)control);
    else if (!refused("question", asked))
        printf("%u default %" PRId32 "\n", (unsigned)control, asked - HADULMIR_DEFAULT);
}

/* What is held, and for the user when each event might begin at the earliest. */
static void list(void)
{
    static uint8_t records[HADULMIR_RECORDS_SIZE];
    char mrid[HADULMIR_ID_TEXT_SIZE];
    int32_t count = hadulmir_list(now.image, sizeof now.image, records, sizeof records), i;

    if (refused("listing", count))
        return;
    printf("%" PRId32 " held at %" PRIu64 "\n", count, hadulmir_clock_of(now.image));
    for (i = 0; i < count; i++) {
        struct hadulmir_record record = hadulmir_record_at(records, (size_t)i);

        hadulmir_id_to_text(record.entry.event.id, mrid);
        printf("  event %s from %" PRIu64 " to %" PRIu64 ", at the earliest %" PRIu64 ", holds %08" PRIX32 "%s%s\n",
               mrid, record.entry.effective_start, hadulmir_effective_end(&record.entry.event), record.earliest_start, record.entry.held,
               record.entry.cancelled ? ", cancelled" : "", record.entry.out ? ", out" : "");
    }
}

/* Before the power goes. Of the last mRID something is wrong. */
static void before(void)
{
    set_clock(4000);
    deliver("5B4FF9B708CF41BB83C49F0100007ED9", 100, 5000, 600, 0);
    deliver("5b4ff9b708cf41bb83c49f0200007ed9", 200, 5300, 60, 0);
    deliver("0300007ED9", 300, 7000, 600, -300);
    deliver("urn:uuid:5B4F", 400, 7000, 600, 0);
    ask(0);
    set_clock(5000);
    ask(0);
}

/* The server sends events again, and one that is long over: nothing for those held, whose draws are the same, code 254 for the late one. */
static void after(void)
{
    deliver("5B4FF9B708CF41BB83C49F0100007ED9", 100, 5000, 600, 0);
    deliver("0300007ED9", 300, 7000, 600, -300);
    deliver("5B4FF9B708CF41BB83C49F0400007ED9", 50, 3600, 600, 0);
    set_clock(5300);
    ask(0);
    list();
    set_clock(4000);
    set_clock(6000);
    ask(0);
}

int main(void)
{
    if (refused("start", hadulmir_fresh(next.image, sizeof next.image))
        || refused("program", hadulmir_add_program(next.image, sizeof next.image, 0, 1, 0x1)))
        return 1;
    stored = now = next;
    before();

    /* The power goes: what is left in memory is junk, and is refused as such. The host goes on from what it stored. */
    memset(&now, 0xFF, sizeof now);
    list();
    now = stored;
    printf("power back, clock %" PRIu64 "\n", hadulmir_clock_of(now.image));
    list();
    after();

    /* While event 3 holds the control, the user opts out and later in again: the default in between, code 9 at the end. */
    set_clock(7000);
    press(hadulmir_entry_of(now.image, 0).event.id, 1);
    ask(0);
    list();
    set_clock(7200);
    press(hadulmir_entry_of(now.image, 0).event.id, 0);
    ask(0);
    set_clock(8000);
    return 0;
}
