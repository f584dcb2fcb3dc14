/*
 * Random calls through the C face, the same on every machine. After each call the returned number and every byte of the image, of the line
 * and of the lent buffer, with guard bytes on both sides, go into one digest; two machines on which the part does the same print the same
 * digest. The calls are mostly near what is accepted, so that events start, overlap, supersede each other, end, are cancelled, are opted out of
 * and in to, and that lines are turned. The counts at the end say what came; it ends with 1 if an answer or a refusal never came.
 */
#include <stdint.h>
#include <stdio.h>
#include <string.h>

#include "hadulmir.h"

#define CALLS 60000
#define IMAGE HADULMIR_IMAGE_SIZE
#define LENT HADULMIR_RECORDS_SIZE
#define GUARD 24
#define IDS 64
#define LINE_ROOM (HADULMIR_LONG_LINE_SIZE + 2)

/* NUMBERS AND DIGEST. No expression draws twice without a sequence point between, as compilers differ in the order of operands. */

static uint32_t next(void)
{
    static uint32_t state = 2030;

    state ^= state << 13;
    state ^= state >> 17;
    state ^= state << 5;
    return state;
}

static uint32_t below(uint32_t limit)
{
    return (next() >> 4) % limit;
}

/* True once in `times`. */
static int once_in(uint32_t times)
{
    return below(times) == 0;
}

/* FNV-1a, 64 bits. */
static uint64_t digest = UINT64_C(0xCBF29CE484222325);

static void take_in(const uint8_t *bytes, size_t size)
{
    size_t i;

    for (i = 0; i < size; i++)
        digest = (digest ^ bytes[i]) * UINT64_C(0x100000001B3);
}

/* BUFFERS. Each begins at any remainder by 8, whatever the compiler does with the space. */

static uint64_t image_space[(GUARD + 8 + IMAGE + GUARD) / 8 + 1], lent_space[(GUARD + 8 + LENT + GUARD) / 8 + 1];
static uint8_t *const image_block = (uint8_t *)image_space, *const lent_block = (uint8_t *)lent_space;
static uint8_t *image = (uint8_t *)image_space + GUARD;
static uint64_t line_space[(GUARD + 8 + LINE_ROOM + GUARD) / 8 + 1];
static uint8_t *const line_block = (uint8_t *)line_space;

static void move_image(void)
{
    uint8_t *to = image_block + GUARD + below(8);

    memmove(to, image, IMAGE);
    memset(image_block, 0xA5, (size_t)(to - image_block));
    memset(to + IMAGE, 0xA5, (size_t)(image_block + sizeof image_space - (to + IMAGE)));
    image = to;
}

/* CALLS, all made through `make`, which spoils now and then what the call is given, and counts. */

enum kind { FRESH, ADD, DELIVER, CANCEL, OPT_OUT, OPT_IN, CLOCK, ASK, LIST, LENGTHEN, SHORTEN, KINDS };

struct event {
    struct hadulmir_id id;
    uint8_t program;
    uint32_t controls, created, start, duration;
    int32_t randomize_start, randomize_duration, start_draw, duration_draw;
};

/* What is given to a call besides image and buffer: `number` is a program, a control, a reading or the length of `line`. */
struct call {
    enum kind kind;
    uint64_t number;
    struct hadulmir_id id;
    uint8_t primacy;
    uint32_t defaults;
    struct event event;
    const uint8_t *line;
    uint64_t room;
};

static uint32_t calls, answered[KINDS], refused[16], rows_of[HADULMIR_NOT_PARTICIPATED + 1], changed[KINDS], unchanged[KINDS];
static uint32_t held_by_event, by_default, by_nobody, kept_back, earlier, later, widened, narrowed, passed;

static int32_t act(const struct call *c, uint64_t len, uint8_t *lent)
{
    const struct event *e = &c->event;

    switch (c->kind) {
    case FRESH:
        return hadulmir_fresh(image, len);
    case ADD:
        return hadulmir_add_program(image, len, (uint8_t)c->number, c->primacy, c->defaults);
    case DELIVER:
        return hadulmir_deliver(image, len, e->id.high, e->id.low, e->program, e->controls, e->created, e->start, e->duration,
                                hadulmir_signed(e->randomize_start), hadulmir_signed(e->randomize_duration),
                                hadulmir_signed(e->start_draw), hadulmir_signed(e->duration_draw));
    case CANCEL:
        return hadulmir_cancel(image, len, c->id.high, c->id.low);
    case OPT_OUT:
        return hadulmir_opt_out(image, len, c->id.high, c->id.low);
    case OPT_IN:
        return hadulmir_opt_in(image, len, c->id.high, c->id.low);
    case CLOCK:
        return hadulmir_set_clock(image, len, c->number, lent, c->room);
    case ASK:
        return hadulmir_ask(image, len, (uint8_t)c->number, lent, c->room);
    case LIST:
        return hadulmir_list(image, len, lent, c->room);
    case LENGTHEN:
        return hadulmir_lengthen(c->line, c->number, lent, c->room);
    default:
        return hadulmir_shorten(c->line, c->number, lent, c->room);
    }
}

/* Whether the user is out of an event that holds the control. */
static int is_kept_back(uint64_t control)
{
    size_t i;

    for (i = 0; i < hadulmir_count_of(image); i++)
        if ((hadulmir_entry_of(image, i).held >> control & 1) != 0)
            return hadulmir_entry_of(image, i).out;
    return 0;
}

static void count(const struct call *c, int32_t returned, const uint8_t *lent)
{
    int32_t i;

    calls++;
    if (returned < 0) {
        if (returned >= -15)
            refused[-returned]++;
        return;
    }
    answered[c->kind]++;
    changed[c->kind] += returned != 0;
    unchanged[c->kind] += returned == 0;
    if (c->kind == ASK) {
        by_nobody += returned == HADULMIR_NOBODY;
        held_by_event += returned == HADULMIR_EVENT;
        by_default += returned >= HADULMIR_DEFAULT;
        kept_back += (uint32_t)is_kept_back(c->number);
    }
    for (i = 0; c->kind == CLOCK && i < returned; i++)
        if (hadulmir_row_at(lent, (size_t)i).code <= HADULMIR_NOT_PARTICIPATED)
            rows_of[hadulmir_row_at(lent, (size_t)i).code]++;
    for (i = 0; c->kind == LIST && i < returned; i++) {
        struct hadulmir_record record = hadulmir_record_at(lent, (size_t)i);

        earlier += record.earliest_start < record.entry.event.start;
        later += record.earliest_start == record.entry.event.start && record.entry.event.randomize_start > 0;
    }
    if (c->kind == LENGTHEN || c->kind == SHORTEN) {
        widened += (uint64_t)returned > c->number;
        narrowed += (uint64_t)returned < c->number;
        passed += (uint64_t)returned == c->number;
    }
}

/* Events that are held, also if the count is spoilt. */
static uint32_t held(void)
{
    return image[HADULMIR_COUNT_AT] % (HADULMIR_EVENTS_AT_MOST + 1);
}

/* Changes a bit of the image, mostly where something stands. */
static void spoil(void)
{
    size_t used = HADULMIR_EVENTS_AT + (size_t)HADULMIR_ENTRY_SIZE * held();
    size_t at = below((uint32_t)(once_in(4) ? IMAGE : used));

    image[at] ^= (uint8_t)(1u << below(8));
}

static int32_t make(const struct call *c)
{
    static const uint16_t other_lengths[] = {0, 1, IMAGE - 1, IMAGE + 1};
    static uint8_t before[IMAGE];
    uint64_t len = once_in(c->kind == FRESH ? 4 : 100) ? other_lengths[below(4)] : IMAGE;
    int spoilt = once_in(50);
    uint8_t *lent = lent_block + GUARD + below(8), number[4];
    int32_t returned;
    size_t i;

    for (i = 0; i < sizeof lent_space; i++)
        lent_block[i] = (uint8_t)(i * 7 + 0x5A);
    if (spoilt) {
        memcpy(before, image, IMAGE);
        spoil();
    }
    returned = act(c, len, lent);
    count(c, returned, lent);
    for (i = 0; i < 4; i++)
        number[i] = (uint8_t)((uint32_t)returned >> (8 * i));
    take_in(number, 4);
    take_in(image_block, sizeof image_space);
    if (c->kind >= CLOCK)
        take_in(lent_block, (size_t)(lent - lent_block) + (size_t)c->room + GUARD);
    if (c->kind >= LENGTHEN)
        take_in(line_block, sizeof line_space);
    if (spoilt && (returned == HADULMIR_BAD_IMAGE || once_in(2)))
        memcpy(image, before, IMAGE);
    return returned;
}

static struct call blank(enum kind kind)
{
    struct call c;

    memset(&c, 0, sizeof c);
    c.kind = kind;
    return c;
}

/* WHAT THE CALLS ARE GIVEN */

/* What the events of a run of calls are like: near the clock; long, so that 48 are held; across 2^32 seconds; at the last second there can be. */
enum times { NEAR, LONG, ACROSS, LAST, TIMES };

static enum times times;
static struct event events[IDS]; /* the last one that was delivered under each id */

/* Small ids, such ids with their halves exchanged, and ids at the upper end that agree in one half or in the other. */
static struct hadulmir_id id_of(uint32_t k)
{
    struct hadulmir_id id = {0, k / 4};

    if (k % 4 == 1) {
        id.high = id.low + 1;
        id.low = 0;
    } else if (k % 4 == 2) {
        id.high = 7;
        id.low = ~id.low;
    } else if (k % 4 == 3) {
        id.high = ~id.low;
        id.low = 7;
    }
    return id;
}

/* A randomisation, mostly none, and a draw that mostly fits it. */
static void randomise(int32_t *randomisation, int32_t *draw)
{
    *randomisation = once_in(3) ? (int32_t)below(121) - 60 : 0;
    if (once_in(20))
        *randomisation = (int32_t)below(7401) - 3700;
    *draw = *randomisation < 0 ? -(int32_t)below((uint32_t)-*randomisation + 1) : (int32_t)below((uint32_t)*randomisation + 1);
    if (once_in(60))
        *draw = (int32_t)below(40000) - 20000;
}

static struct event new_event(uint32_t k)
{
    uint64_t clock = hadulmir_clock_of(image), start = clock + below(150);
    struct event e;

    e.id = id_of(k);
    e.program = (uint8_t)(once_in(100) ? 8 + below(248) : below(20) == 0 ? 7 : below(4));
    e.controls = 1u << below(6);
    if (once_in(2))
        e.controls |= 1u << below(32);
    if (once_in(10))
        e.controls |= next();
    if (once_in(60))
        e.controls = 0;
    e.created = below(40);
    e.duration = times == LONG ? 5000 + below(2000) : once_in(100) ? 0 : 1 + below(150);
    if (times == LAST) {
        start = UINT32_MAX - below(300);
        e.duration = UINT32_MAX - below(300);
    }
    start = start > 60 ? start - 60 : 0;
    e.start = start > UINT32_MAX ? UINT32_MAX - below(100) : (uint32_t)start;
    randomise(&e.randomize_start, &e.start_draw);
    randomise(&e.randomize_duration, &e.duration_draw);
    return e;
}

/* A new event, the last one under its id once more, or that with one field changed. */
static void deliver(void)
{
    struct call c = blank(DELIVER);
    uint32_t k = below(IDS);

    if (hadulmir_id_compare(events[k].id, id_of(k)) != 0 || below(4) != 0)
        events[k] = new_event(k);
    c.event = events[k];
    switch (below(30)) {
    case 0:
        c.event.controls ^= 1;
        break;
    case 1:
        c.event.created++;
        break;
    case 2:
        c.event.duration++;
        break;
    case 3:
        c.event.randomize_duration = c.event.duration_draw;
        break;
    }
    make(&c);
}

static void add_program(uint8_t number)
{
    static const uint8_t primacies[] = {0, 1, 2, 65, 100, 191, 3, 64, 192, 255};
    struct call c = blank(ADD);

    c.number = once_in(30) ? 8 + below(248) : number;
    c.primacy = primacies[below(once_in(6) ? 10 : 6)];
    c.defaults = next();
    c.defaults &= next();
    make(&c);
}

static void set_clock(uint64_t reading, uint64_t room)
{
    struct call c = blank(CLOCK);

    c.number = reading;
    c.room = room;
    make(&c);
}

static void pass_time(void)
{
    static const uint16_t rooms[] = {0, 1, 24, 25, 49, 50, 75, 100};
    uint64_t clock = hadulmir_clock_of(image), reading = clock + (once_in(15) ? below(400) : below(12));

    if (once_in(40))
        reading = once_in(2) ? clock - 1 - below(10) : HADULMIR_CLOCK_AT_MOST + 1 + below(10);
    set_clock(reading, once_in(5) ? rooms[below(8)] : HADULMIR_ROWS_SIZE);
}

/* A call that names an event, mostly a held one. */
static void name_event(enum kind kind)
{
    struct call c = blank(kind);

    c.id = held() > 0 && below(5) != 0 ? hadulmir_entry_of(image, below(held())).event.id : id_of(below(IDS));
    make(&c);
}

static void ask(void)
{
    struct call c = blank(ASK);

    c.number = once_in(20) ? 32 + below(224) : once_in(2) ? below(6) : below(32);
    c.room = once_in(3) ? below(20) : HADULMIR_ID_SIZE;
    make(&c);
}

static void list(void)
{
    struct call c = blank(LIST);
    uint32_t need = HADULMIR_RECORD_SIZE * held(), entries = HADULMIR_ENTRY_SIZE * held();

    c.room = once_in(2) ? HADULMIR_RECORDS_SIZE : once_in(2) ? need : need > 0 && once_in(2) ? need - 1 - below(need - entries) : below(LENT + 1);
    make(&c);
}

/* A line, short or long, mostly of a kind that there is; the upper half of its id is mostly 0. Gives its length. */
static uint32_t write_line(uint8_t *line)
{
    static const uint8_t lengths[2][8] = {{2, 68, 18, 18, 14, 4, 18, 18}, {2, 84, 34, 18, 14, 4, 34, 34}};
    uint32_t kind = once_in(20) ? 0 : 1 + below(7), length = lengths[below(2)][kind], i;

    memset(line, '0', LINE_ROOM);
    line[1] = (uint8_t)('0' + kind);
    for (i = once_in(4) ? 2 : 2 + length - lengths[0][kind]; i < length; i++)
        line[i] = (uint8_t)"0123456789ABCDEF"[below(16)];
    return length;
}

/* Now and then another byte, the top bit of the id, an event without controls, a line end, another length. Gives the length. */
static uint32_t change_line(uint8_t *line, uint32_t length)
{
    uint32_t at = below(length);

    switch (below(20)) {
    case 0:
    case 1:
        line[at] = (uint8_t)"abcdefG:/@ \r"[below(12)];
        break;
    case 2:
        line[2] = '8';
        break;
    case 3:
        memset(line + 20, '0', 8);
        break;
    case 4:
        line[length] = '\n';
        return length + 1;
    case 5:
        return length + 1 + below(2);
    case 6:
        return length - 1;
    }
    return length;
}

static void turn_line(enum kind kind)
{
    struct call c = blank(kind);
    uint8_t *line = line_block + GUARD + below(8);

    memset(line_block, 0xA5, sizeof line_space);
    c.line = line;
    c.number = write_line(line);
    c.number = change_line(line, (uint32_t)c.number);
    c.room = once_in(3) ? below(LINE_ROOM) : once_in(2) ? HADULMIR_LONG_LINE_SIZE : HADULMIR_SHORT_LINE_SIZE;
    make(&c);
}

/* RUNS OF CALLS */

static void fresh(void)
{
    struct call c = blank(FRESH);

    while (make(&c) < 0)
        continue;
    memset(events, 0xFF, sizeof events);
}

/* A fresh image with some programs, at a clock where the events of this run will be. */
static void begin(void)
{
    static const uint64_t clocks[TIMES] = {3500, 3700, UINT64_C(4294967000), UINT64_C(8589934000)};
    uint8_t p;

    move_image();
    fresh();
    times = (enum times)below(TIMES);
    for (p = 0; p < 4; p++)
        add_program(p);
    set_clock(clocks[times] + below(200), HADULMIR_ROWS_SIZE);
}

/* 48 events, each over before the next begins, and one reading that gives the start and the end of each: as many rows as there can be. */
static void many_rows(void)
{
    struct call c = blank(DELIVER);
    uint32_t i;

    fresh();
    add_program(0);
    set_clock(4000, 0);
    for (i = 0; i < HADULMIR_EVENTS_AT_MOST; i++) {
        memset(&c.event, 0, sizeof c.event);
        c.event.id = id_of(i);
        c.event.controls = 1u << below(32);
        c.event.start = 5000 + 20 * i;
        c.event.duration = 1 + below(20);
        make(&c);
    }
    set_clock(6000, HADULMIR_ROWS_SIZE);
}

static void one_call(void)
{
    uint32_t which = below(110);

    if (which < 40)
        deliver();
    else if (which < 60)
        pass_time();
    else if (which < 66)
        name_event(CANCEL);
    else if (which < 72)
        name_event(OPT_OUT);
    else if (which < 78)
        name_event(OPT_IN);
    else if (which < 90)
        ask();
    else if (which < 96)
        list();
    else if (which >= 100)
        turn_line(which % 2 == 0 ? LENGTHEN : SHORTEN);
    else
        add_program((uint8_t)below(5));
}

/* WHAT CAME */

static int none;

static void say(const char *what, uint32_t times_seen)
{
    printf("%s %lu\n", what, (unsigned long)times_seen);
    none |= times_seen == 0;
}

int main(void)
{
    static const char *const names[KINDS] = {"fresh", "add_program", "deliver", "cancel", "opt_out", "opt_in", "set_clock", "ask", "list",
                                             "lengthen", "shorten"};
    static const uint8_t codes[] = {HADULMIR_STARTED, HADULMIR_COMPLETED, HADULMIR_SUPERSEDED, HADULMIR_PARTLY_OPTED_OUT,
                                    HADULMIR_PARTLY_OPTED_IN, HADULMIR_NOT_PARTICIPATED};
    char what[40];
    uint32_t i;

    while (calls < CALLS) {
        begin();
        for (i = 0; i < 300 && calls < CALLS; i++)
            one_call();
        if (once_in(4))
            many_rows();
    }
    for (i = 0; i < KINDS; i++) {
        snprintf(what, sizeof what, "%s answered", names[i]);
        say(what, answered[i]);
    }
    for (i = 1; i <= 15; i++) {
        snprintf(what, sizeof what, "refusal %lu", (unsigned long)i);
        say(what, refused[i]);
    }
    for (i = 0; i < sizeof codes / sizeof codes[0]; i++) {
        snprintf(what, sizeof what, "rows with %u", (unsigned)codes[i]);
        say(what, rows_of[codes[i]]);
    }
    for (i = DELIVER; i <= OPT_IN; i++) {
        snprintf(what, sizeof what, "%s with a code", names[i]);
        say(what, changed[i]);
        snprintf(what, sizeof what, "%s without change, 0", names[i]);
        say(what, unchanged[i]);
    }
    say("held by an event", held_by_event);
    say("by a default", by_default);
    say("by nobody", by_nobody);
    say("held by an event that the user is out of", kept_back);
    say("listed, may begin before its start", earlier);
    say("listed, may begin after its start", later);
    say("lengthened by sixteen digits", widened);
    say("shortened by sixteen digits", narrowed);
    say("passed without an id", passed);
    if (none)
        printf("random: something never came\n");
    printf("random: %lu calls, digest %08lx%08lx\n", (unsigned long)calls, (unsigned long)(digest >> 32), (unsigned long)(digest & 0xFFFFFFFFu));
    return none;
}
