/**
 * @file hadulmir.h
 * Hadulmir: the event schedule of an IEEE 2030.5 client.
 *
 * A host hands over programs, events, cancellations and clock readings as it received them, and what its user chooses: to opt out of an
 * event, or in again. The part says which event holds which control at each second, settles overlaps by primacy, falls back to a program's
 * default and gives the response codes to be posted. XML, transport, metering and the values of controls stay with the host.
 *
 * The whole state is an image: 2,697 plain bytes that the host owns. The part allocates nothing, keeps nothing between calls, calls
 * nothing of the host and returns from every call. An image has no pointer in it: it may be copied, stored, sent to another device and
 * taken up there.
 *
 * HOW IT IS USED
 *
 *     struct hadulmir_event event = {.program = 0, .controls = 0x1, .created = 100, .start = 5000, .duration = 600};
 *     uint8_t image[HADULMIR_IMAGE_SIZE], rows[HADULMIR_ROWS_SIZE];
 *     int32_t n, i;
 *
 *     hadulmir_fresh(image, sizeof image);
 *     hadulmir_add_program(image, sizeof image, 0, 1, 0x1);
 *     if (hadulmir_id_from_text(mrid, strlen(mrid), &event.id))
 *         hadulmir_deliver_event(image, sizeof image, &event);
 *     ...
 *     n = hadulmir_set_clock(image, sizeof image, now, rows, sizeof rows);
 *     for (i = 0; i < n; i++)
 *         post(hadulmir_row_at(rows, (size_t)i));
 *
 * RULES FOR THE HOST
 *
 * Every value of every number and every content of every buffer is allowed; what does not fit the rules is refused by number. What no
 * call can check is this:
 *
 *   1. Each pointer points to as many bytes as the length beside it says. It is not null, even at length 0.
 *   2. The buffers of one call do not overlap.
 *   3. One call at a time uses an image and a lent buffer. Different images may be used at the same time.
 *   4. An image is whole between calls. A copy that is to outlive a loss of power is made between calls, never during one.
 *   5. Rows are given once: the next clock call starts behind them. A host that must not lose any makes the call on a copy of the image, posts
 *      the rows, and then stores the copy.
 *   6. Where an id is two numbers, the upper half goes first. Exchanged halves are another id.
 *
 * HADULMIR_STACK_SIZE bytes of stack do for every call. Of the C library the archive needs memcpy, memmove and memset at most, by the names
 * that the target's convention has for them.
 *
 * A length is 64 bits wide on every target, whatever size_t is there. No struct of this header is handed to the archive, so the host's rules
 * for packing and for the size of an enum do not count.
 *
 * ANSWERS AND REFUSALS
 *
 * Every function returns an int32_t. An answer is 0 or more. A refusal is the negative of its number, and a refused call has changed no
 * byte: not the image, not a lent buffer. An accepted call writes the front of a lent buffer only; the bytes behind stay as they were.
 *
 * IDS
 *
 * The id of an event is its mRID: one unsigned number below 2^128, of which all bits count wherever ids are compared. A call is given it as
 * two numbers, the upper half first, and writes it as 16 bytes. hadulmir_id_from_text reads the mRID's text, hadulmir_id_at the 16 bytes.
 *
 * TIMES AND MASKS
 *
 * All times are whole seconds. Bit c of a mask is control c, 0 to 31. In buffers each number stands most significant byte first.
 */
#ifndef HADULMIR_H
#define HADULMIR_H

#include <limits.h>
#include <stddef.h>
#include <stdint.h>

#ifdef __cplusplus
extern "C" {
#endif

/** No archive fits a target that is refused here: bytes are 8 bits wide, an int 32, a pointer 32 or 64. */
typedef char hadulmir_fits_the_target[CHAR_BIT == 8 && sizeof(int) == 4 && (sizeof(void *) == 4 || sizeof(void *) == 8) ? 1 : -1];

/** This version as a number: 10,000 for the first part of its name, 100 for the second, 1 for the third. */
#define HADULMIR_VERSION 40100
/** This version as text. */
#define HADULMIR_VERSION_TEXT "4.1.0"

/**
 * The layout of the image. Versions with the same number here take up each other's images: a host stores it with the image. An image of an
 * earlier layout has another length and is refused with -2.
 */
#define HADULMIR_IMAGE_LAYOUT 3

/** Bytes of an image. */
#define HADULMIR_IMAGE_SIZE 2697

/* Where things stand in an image; see THE IMAGE below. */
#define HADULMIR_CLOCK_AT 0    /**< the clock */
#define HADULMIR_COUNT_AT 8    /**< the count of held events */
#define HADULMIR_PROGRAMS_AT 9 /**< the programs, from number 0 on */
#define HADULMIR_EVENTS_AT 57  /**< the events, by ascending id */

/** Bytes of a program in an image. */
#define HADULMIR_PROGRAM_SIZE 6

/** Bytes of a response row. */
#define HADULMIR_ROW_SIZE 25

/** Rows that one clock call gives at most: two for each held event. */
#define HADULMIR_ROWS_AT_MOST 96

/** Bytes of a row buffer that is long enough for every clock call. */
#define HADULMIR_ROWS_SIZE (HADULMIR_ROWS_AT_MOST * HADULMIR_ROW_SIZE)

/** Bytes of an event in an image. */
#define HADULMIR_ENTRY_SIZE 55

/** Bytes of a listed record: the event as it stands in the image, then its earliest start. */
#define HADULMIR_RECORD_SIZE (HADULMIR_ENTRY_SIZE + 8)

/** Events that a schedule holds at most. */
#define HADULMIR_EVENTS_AT_MOST 48

/** Bytes of a record buffer that is long enough for every listing. */
#define HADULMIR_RECORDS_SIZE (HADULMIR_EVENTS_AT_MOST * HADULMIR_RECORD_SIZE)

/** Bytes of an id in a buffer. */
#define HADULMIR_ID_SIZE 16

/** Bytes of an id as text: 32 hexadecimal digits and a zero byte. */
#define HADULMIR_ID_TEXT_SIZE 33

/** Bytes of a buffer that is long enough for every line that hadulmir_lengthen writes. */
#define HADULMIR_LONG_LINE_SIZE 84

/** Bytes of a buffer that is long enough for every line that hadulmir_shorten writes. */
#define HADULMIR_SHORT_LINE_SIZE 68

/** Programs have the numbers 0 to 7. */
#define HADULMIR_PROGRAMS_AT_MOST 8

/** Controls have the numbers 0 to 31. */
#define HADULMIR_CONTROLS_AT_MOST 32

/** The last reading that a clock call accepts. */
#define HADULMIR_CLOCK_AT_MOST UINT64_C(9000000000)

/** Bytes of stack that do for every call. Measured and rounded up, not proved; docs/HOST.md has what each call takes, and where. */
#define HADULMIR_STACK_SIZE 32768

/**
 * The refusals, as they are returned, in the order in which a call checks them, but -15 comes before -13. A call that several apply to
 * returns the first. -1 and -15 are returned by hadulmir_lengthen and hadulmir_shorten alone.
 */
enum hadulmir_refusal {
    /** The line is no frame of the kind that is to be turned (see RECORDED LINES below). */
    HADULMIR_NO_FRAME = -1,
    /** The image is not 2,697 bytes long, or breaks a rule of images (see THE IMAGE below). */
    HADULMIR_BAD_IMAGE = -2,
    /** The program number is above 7. */
    HADULMIR_PROGRAM_TOO_LARGE = -3,
    /** The program was added before. */
    HADULMIR_PROGRAM_ADDED = -4,
    /** The primacy is reserved: 3 to 64, or 192 to 255. */
    HADULMIR_PRIMACY_RESERVED = -5,
    /** The event's program was not added. */
    HADULMIR_PROGRAM_UNKNOWN = -6,
    /**
     * The event is invalid: its controls are 0, its start is below 3,600, its duration is 0, a randomisation is outside -3,600 to 3,600, a
     * draw does not lie between 0 and its randomisation, or duration + duration draw is below 1. The host posts response code 253.
     */
    HADULMIR_EVENT_INVALID = -7,
    /** The id is held, with some field different. */
    HADULMIR_EVENT_DIFFERS = -8,
    /**
     * The id is not held and the event comes too late: start + duration is at or before the clock, or its effective end is at or before the
     * second after the clock. The host posts response code 254.
     */
    HADULMIR_EVENT_EXPIRED = -9,
    /** The id is not held and 48 events are. */
    HADULMIR_FULL = -10,
    /** No event is held under the id that is to be cancelled, or that the user chose for. */
    HADULMIR_NOT_HELD = -11,
    /** The reading is before the clock, or above 9,000,000,000. */
    HADULMIR_BAD_CLOCK = -12,
    /** The lent buffer is shorter than what the call has to write. */
    HADULMIR_TOO_SHORT = -13,
    /** The control is above 31. */
    HADULMIR_CONTROL_TOO_LARGE = -14,
    /** The id of a long line has an upper half that is not 0, so a short line has no room for it. */
    HADULMIR_ID_TOO_LARGE = -15
};

/**
 * Response codes of IEEE 2030.5 that a host posts, with the names of its Table 31 and when this part gives them. 2 and 7 come in rows, and so
 * do the four codes of an end, 3, 8, 9 and 10; 'those seconds' are the ones in which the event held something. 1, 4, 5 and 6 are answers. 253
 * and 254 go with refusals.
 */
enum hadulmir_response {
    HADULMIR_RECEIVED = 1,           /**< Received: the event is new */
    HADULMIR_STARTED = 2,            /**< Started: it starts and holds a control */
    HADULMIR_COMPLETED = 3,          /**< Completed: it ends, and the user was in for all of those seconds */
    HADULMIR_OPTED_OUT = 4,          /**< Opt-Out: the user opts out */
    HADULMIR_OPTED_IN = 5,           /**< Opt-In: the user opts in again */
    HADULMIR_CANCELLED = 6,          /**< Cancelled: it is cancelled */
    HADULMIR_SUPERSEDED = 7,         /**< Superseded: it starts and holds no control, or a better event takes its last one */
    HADULMIR_PARTLY_OPTED_OUT = 8,   /**< Partial Complete, Opt-Out: it ends, the user was in for some of those seconds, is out at the end */
    HADULMIR_PARTLY_OPTED_IN = 9,    /**< Partial Complete, Opt-In: it ends, the user was in for some of those seconds, is in at the end */
    HADULMIR_NOT_PARTICIPATED = 10,  /**< Complete, No Participation: it ends, and the user was in for none of those seconds */
    HADULMIR_REJECTED_INVALID = 253, /**< Invalid: see refusal -7 */
    HADULMIR_REJECTED_EXPIRED = 254  /**< Expired: see refusal -9 */
};

/** What hadulmir_ask answers. Program p is answered as HADULMIR_DEFAULT + p. */
enum hadulmir_asked {
    HADULMIR_NOBODY = 0,
    HADULMIR_EVENT = 1,
    HADULMIR_DEFAULT = 2
};

/*
 * THE IMAGE
 *
 *        0   clock                                8 bytes
 *        8   count of held events                 1
 *        9   program 0 to program 7               6 each:  added (0 or 1) 1, primacy 1, defaults 4
 *       57   event entries, 48 of them           55 each:  as below, the held ones first
 *
 * An event entry:
 *
 *        0   id                                  16
 *       16   program number                       1
 *       17   controls                             4
 *       21   creation time                        4
 *       25   start                                4
 *       29   duration                             4
 *       33   randomizeStart                       2, two's complement
 *       35   randomizeDuration                    2, two's complement
 *       37   start draw                           2, two's complement
 *       39   duration draw                        2, two's complement
 *       41   effective start                      8
 *       49   held mask                            4
 *       53   cancelled (0 or 1)                   1
 *       54   the user's choice                    1, bit 0: out now; bit 1: was in, and bit 2: was out, for a second in which
 *                                                 the event held something; bits 3 to 7: 0
 *
 * A record, which a listing gives and no image has:
 *
 *        0   event entry, as in the image        55
 *       55   earliest start                       8
 *
 * A row:
 *
 *        0   time                                 8
 *        8   id                                  16
 *       24   response code                        1
 *
 * Drawn start is start + start draw; IEEE 2030.5 calls it Effective Start Time. Effective start is the later of drawn start and the second
 * after the clock at which the event was first accepted. Effective end is drawn start + duration + duration draw, of a late event too.
 *
 * Earliest start is the lesser of start and start + randomizeStart, which IEEE 2030.5 calls Earliest Effective Start Time. No draw and no
 * late receipt moves it, so it can lie before the clock. It is never after the effective start.
 *
 * An image is accepted if it keeps every one of these rules. Else each function that takes one, but hadulmir_fresh, returns -2.
 *   - The clock is at most 9,000,000,000, the count at most 48. Added and cancelled are 0 or 1.
 *   - A program that is not added has primacy and defaults 0. An added one has a primacy that is not reserved.
 *   - The entries from the count on are zero. The ids of the others ascend, no two are equal.
 *   - Each held event is of an added program and has fields that refusal 7 does not apply to.
 *   - Its effective start is not before its drawn start and is before its effective end. Its effective end is after the clock.
 *   - Its held mask lies within its controls, and is 0 if the clock is before the effective start or the event is cancelled.
 *   - Bits 3 to 7 of its choice are 0. Bits 1 and 2 are 0 if the clock is before the effective start, and are not both 0 if the held mask
 *     is not 0.
 *   - No two held masks share a bit.
 */

/*
 * WHEN A CHOICE COUNTS
 *
 * The user is in for a new event. A choice that is made at clock k counts for the seconds from k + 1 on, until another one does; a question
 * after the call goes by it at once. While the user is out, the event keeps its rank and goes on holding its controls, so that no lesser event
 * gets them, but a question about them is answered as though nobody held them.
 *
 * For each second in which the event holds something, its start too, the part notes whether the user was in or out: bits 1 and 2 of the
 * choice in its entry. At the effective end the event, if it is not cancelled and held something in the second before, gives
 *     3    if the user was in for all of these seconds;
 *     10   if for none of them;
 *     8    if for some of them, and the choice that counts for the end is out;
 *     9    if for some of them, and the choice that counts for the end is in.
 * A choice that is made at the last clock before the end counts for the end and for none of these seconds: it can turn 8 into 9 or 9 into 8,
 * and leaves 3 and 10.
 */

/*
 * RECORDED LINES
 *
 * A line is a frame as text, two hexadecimal digits for each byte, in upper case. The first byte is its kind; where there is an id, it comes
 * next. A line feed ends a line in a list; no call is given it, and none writes it. A short line has an id of 64 bits, as lists had it before
 * version 4.0.0. A long line has one of 128 bits. Lines without an id are short and long at once. The lengths are:
 *
 *        digits in front                  short   long
 *        01   event                          68     84
 *        02   cancellation                   18     34
 *        06   opt-out                        18     34
 *        07   opt-in                         18     34
 *        03   clock reading, no id           18     18
 *        04   program, no id                 14     14
 *        05   question, no id                 4      4
 *
 * What begins otherwise, is of another length or has a byte in it that is no such digit is no frame. Nothing else counts: an event that a
 * delivery would refuse is turned like any other.
 *
 * The id of a lengthened line is the number that it was, below 2^64. That is a handle of the host which recorded it, and no mRID: the low 32
 * bits of an mRID are its provider's number (PEN), those of a handle would be read as one. It is never posted as the subject of a response.
 */

/**
 * Makes the fresh image: clock 0, no program, no event, which is 2,697 zero bytes. What the buffer held before does not count.
 * Answers 0 and writes all 2,697 bytes.
 * Refuses with -2 if image_len is not 2,697.
 */
int32_t hadulmir_fresh(uint8_t *image, uint64_t image_len);

/**
 * Adds a program. `primacy`: less is better; 0, 1, 2 and 65 to 191 may be used. `defaults` is the mask of controls that it has a default
 * for, and may be 0. A program cannot be changed or taken away; to do so a host starts again from a fresh image.
 * Answers 0 and writes the image.
 * Refuses with -2, -3, -4, -5.
 */
int32_t hadulmir_add_program(uint8_t *image, uint64_t image_len, uint8_t number, uint8_t primacy, uint32_t defaults);

/**
 * Delivers an event. hadulmir_deliver_event below does the same without eleven numbers in a row. The id is the event's mRID. At equal primacy
 * and equal creation time the event with the larger id is better.
 * The last four numbers are signed, in two's complement: give them through hadulmir_signed. The host draws once for an event, at random,
 * between 0 and the randomisation, both included, and gives the same draws whenever it delivers that event again.
 * Answers 1 if the event is new and writes the image; the host posts code 1. Answers 0 if it is held with every field equal, cancelled or not,
 * and leaves the image as it was, with the user's choice. An event is held until the clock reaches its effective end. After that its id is
 * free: with other draws, an event that ended before its start + duration would be new once more.
 * Refuses with -2, -3, -6, -7, -8, -9, -10. The host posts 253 for -7 and 254 for -9; hadulmir_response_for says so.
 */
int32_t hadulmir_deliver(uint8_t *image, uint64_t image_len, uint64_t id_high, uint64_t id_low, uint8_t program, uint32_t controls,
                         uint32_t created, uint32_t start, uint32_t duration, uint16_t randomize_start, uint16_t randomize_duration,
                         uint16_t start_draw, uint16_t duration_draw);

/**
 * Cancels a held event. It holds nothing any more, as a question or a listing after the call shows; what it held at the present second still
 * counts for that second. It gives no more rows, and stays listed until its effective end. The user's choice stays as it is.
 * Answers 6 and writes the image; the host posts code 6. Answers 0 if it was cancelled before, and leaves the image as it was.
 * Refuses with -2, -11.
 */
int32_t hadulmir_cancel(uint8_t *image, uint64_t image_len, uint64_t id_high, uint64_t id_low);

/**
 * The user opts out of a held event, whether or not it has started, holds anything or is cancelled. WHEN A CHOICE COUNTS above says what comes
 * of it.
 * Answers 4 and writes the image, of which bit 0 of the event's choice alone changes; the host posts code 4. Answers 0 if the user is out
 * already, and leaves the image as it was.
 * Refuses with -2, -11.
 */
int32_t hadulmir_opt_out(uint8_t *image, uint64_t image_len, uint64_t id_high, uint64_t id_low);

/**
 * The user opts in to a held event again, whether or not it has started, holds anything or is cancelled.
 * Answers 5 and writes the image, of which bit 0 of the event's choice alone changes; the host posts code 5. Answers 0 if the user is in
 * already, as with every new event, and leaves the image as it was.
 * Refuses with -2, -11.
 */
int32_t hadulmir_opt_in(uint8_t *image, uint64_t image_len, uint64_t id_high, uint64_t id_low);

/**
 * Sets the clock to `reading` and writes the response rows of all moments after the old reading up to the new one, one behind the other from
 * the front of `rows`. Rows go by time, at one time first the ends (3, 8, 9, 10), then 7, then 2, and each of these three by id: of two ends
 * the smaller id comes first, whichever their codes. A jump over many moments gives the same rows as a call for every second. The same reading
 * again is allowed and gives none.
 * Answers the count of the rows, 0 to 96, and writes the image and 25 bytes of `rows` for each row; the bytes behind stay as they were.
 * Refuses with -2, -12, and with -13 if rows_len is below 25 times the count. HADULMIR_ROWS_SIZE bytes always suffice. After -13 the clock
 * stands where it stood: a host calls again with a longer buffer, or with an earlier reading first.
 */
int32_t hadulmir_set_clock(uint8_t *image, uint64_t image_len, uint64_t reading, uint8_t *rows, uint64_t rows_len);

/**
 * Asks what governs a control now. The image stays as it was.
 * Answers HADULMIR_EVENT (1) if an event holds it that the user is not out of, with its id in the first 16 bytes of `id` (hadulmir_id_at reads
 * it); the bytes behind stay as they were. Else, also if the user is out of the event that holds it, answers HADULMIR_DEFAULT + p (2 to 9) for
 * the program p of best primacy whose defaults have the control, the smaller number if two are equal; else HADULMIR_NOBODY (0). With these two
 * answers `id` stays as it was, and may be of any length.
 * Refuses with -2, -14, and with -13 if the answer is HADULMIR_EVENT and id_len is below 16.
 */
int32_t hadulmir_ask(const uint8_t *image, uint64_t image_len, uint8_t control, uint8_t *id, uint64_t id_len);

/**
 * Lists the held events by ascending id, one record of 63 bytes behind the other from the front of `records`: the entry of the image, then the
 * earliest start. An event that the user is out of is listed with the controls that it holds. The image stays as it was.
 * Answers their count, 0 to 48, and writes 63 bytes for each; the bytes behind stay as they were. records_len need be no multiple of 63.
 * Refuses with -2, and with -13 if records_len is below 63 times the count. HADULMIR_RECORDS_SIZE bytes always suffice.
 */
int32_t hadulmir_list(const uint8_t *image, uint64_t image_len, uint8_t *records, uint64_t records_len);

/**
 * Turns a short line into the long one: sixteen digits '0' come between the kind and the id. A line without an id passes unchanged. There is
 * no image in it, and `line` stays as it was.
 * Answers the length of the turned line, 4 to 84, and writes it over the front of `out`; the bytes behind stay as they were.
 * Refuses with -1 if `line` is no short line, so also if it is a long one with an id; and with -13 if out_len is below the length of the
 * turned line. HADULMIR_LONG_LINE_SIZE bytes always suffice.
 */
int32_t hadulmir_lengthen(const uint8_t *line, uint64_t line_len, uint8_t *out, uint64_t out_len);

/**
 * Turns a long line into the short one: the sixteen digits of the upper half of its id are taken out. A line without an id passes unchanged.
 * What hadulmir_lengthen wrote becomes the line that it was. There is no image in it, and `line` stays as it was.
 * Answers the length of the turned line, 4 to 68, and writes it over the front of `out`; the bytes behind stay as they were.
 * Refuses with -1 if `line` is no long line, so also if it is a short one with an id; with -15 if the upper half of its id is not 0; and with
 * -13 if out_len is below the length of the turned line. HADULMIR_SHORT_LINE_SIZE bytes always suffice.
 */
int32_t hadulmir_shorten(const uint8_t *line, uint64_t line_len, uint8_t *out, uint64_t out_len);

/* HELPERS. They are compiled into the host; the archive is called by hadulmir_deliver_event alone. */

/** Whether a returned number is a refusal. */
static inline int hadulmir_is_refusal(int32_t returned)
{
    return returned < 0;
}

/** A refusal as text, for a log. */
static inline const char *hadulmir_refusal_text(int32_t refusal)
{
    switch (refusal) {
    case HADULMIR_NO_FRAME:
        return "no frame of the kind that is to be turned";
    case HADULMIR_BAD_IMAGE:
        return "no image, or one that breaks a rule";
    case HADULMIR_PROGRAM_TOO_LARGE:
        return "program number above 7";
    case HADULMIR_PROGRAM_ADDED:
        return "program added before";
    case HADULMIR_PRIMACY_RESERVED:
        return "primacy reserved";
    case HADULMIR_PROGRAM_UNKNOWN:
        return "event of a program that was not added";
    case HADULMIR_EVENT_INVALID:
        return "event invalid";
    case HADULMIR_EVENT_DIFFERS:
        return "id held, with some field different";
    case HADULMIR_EVENT_EXPIRED:
        return "event expired";
    case HADULMIR_FULL:
        return "48 events are held";
    case HADULMIR_NOT_HELD:
        return "id not held";
    case HADULMIR_BAD_CLOCK:
        return "reading before the clock, or above 9000000000";
    case HADULMIR_TOO_SHORT:
        return "lent buffer too short";
    case HADULMIR_CONTROL_TOO_LARGE:
        return "control above 31";
    case HADULMIR_ID_TOO_LARGE:
        return "id with an upper half that is not 0";
    default:
        return "no refusal of this part";
    }
}

/**
 * The response code that a host posts after a refusal: 253 for -7, 254 for -9, else 0 for none, as after -1 and -15, which answer no server.
 * It takes refusals alone: an answer of hadulmir_deliver, hadulmir_cancel, hadulmir_opt_out or hadulmir_opt_in is the code itself, or 0 for
 * none; an answer of another function is no code.
 */
static inline uint8_t hadulmir_response_for(int32_t refusal)
{
    switch (refusal) {
    case HADULMIR_EVENT_INVALID:
        return HADULMIR_REJECTED_INVALID;
    case HADULMIR_EVENT_EXPIRED:
        return HADULMIR_REJECTED_EXPIRED;
    default:
        return 0;
    }
}

/**
 * A signed number as the 16 bits that hadulmir_deliver takes. One that does not fit into 16 bits becomes -32,768, which is outside every
 * range, so that the delivery is refused with -7; cut off to 16 bits it could have become a number that passes.
 */
static inline uint16_t hadulmir_signed(int32_t value)
{
    if (value < -32768 || value > 32767)
        return 0x8000u;
    return (uint16_t)((uint32_t)value & 0xFFFFu);
}

/** The number of `size` bytes, at most 8, most significant first. */
static inline uint64_t hadulmir_number_at(const uint8_t *bytes, size_t size)
{
    uint64_t number = 0;
    size_t i;

    for (i = 0; i < size; i++)
        number = (number << 8) | bytes[i];
    return number;
}

/** An id: the mRID as one unsigned number, high * 2^64 + low. The provider's number (PEN) is in the lowest 32 bits. */
struct hadulmir_id {
    uint64_t high; /**< the upper half, which calls take first */
    uint64_t low;  /**< the lower half */
};

/** The id of 16 bytes: of a row, of a record, or of hadulmir_ask where it answered HADULMIR_EVENT. */
static inline struct hadulmir_id hadulmir_id_at(const uint8_t *bytes)
{
    struct hadulmir_id id;

    id.high = hadulmir_number_at(bytes, 8);
    id.low = hadulmir_number_at(bytes + 8, 8);
    return id;
}

/** Writes the 16 bytes of an id, as they stand in an image. */
static inline void hadulmir_id_put(struct hadulmir_id id, uint8_t *bytes)
{
    size_t i;

    for (i = 0; i < 8; i++) {
        bytes[i] = (uint8_t)(id.high >> (56 - 8 * i) & 0xFFu);
        bytes[8 + i] = (uint8_t)(id.low >> (56 - 8 * i) & 0xFFu);
    }
}

/** Below 0, 0 or above 0, as the first id is less than the second, equal to it or larger. Images, listings, rows and ties go by this order. */
static inline int hadulmir_id_compare(struct hadulmir_id a, struct hadulmir_id b)
{
    if (a.high != b.high)
        return a.high < b.high ? -1 : 1;
    return a.low == b.low ? 0 : a.low < b.low ? -1 : 1;
}

/** What a hexadecimal digit of either case stands for; 16 if the byte is none. */
static inline unsigned hadulmir_digit_of(char byte)
{
    if ('0' <= byte && byte <= '9')
        return (unsigned)(byte - '0');
    if ('A' <= byte && byte <= 'F')
        return (unsigned)(byte - 'A') + 10u;
    if ('a' <= byte && byte <= 'f')
        return (unsigned)(byte - 'a') + 10u;
    return 16;
}

/**
 * Reads an mRID's text as IEEE 2030.5 writes it: at most 32 hexadecimal digits of either case, bit 0 on the right, so that a shorter text has
 * its zeros on the left. `length` counts the digits, and no zero byte is needed behind them. An odd number of digits is read too; the standard
 * wants a zero before it. White space is no digit: the host's XML reader drops it. The empty text is refused, as all events without an mRID
 * would be one event then, that of id 0.
 * Gives 1 and writes `id`; or gives 0 for a text that is none, and leaves `id` as it was.
 */
static inline int hadulmir_id_from_text(const char *text, size_t length, struct hadulmir_id *id)
{
    struct hadulmir_id read = {0, 0};
    size_t i;

    if (length < 1 || length > HADULMIR_ID_TEXT_SIZE - 1)
        return 0;
    for (i = 0; i < length; i++) {
        unsigned digit = hadulmir_digit_of(text[i]);

        if (digit > 15)
            return 0;
        read.high = (read.high << 4) | (read.low >> 60);
        read.low = (read.low << 4) | digit;
    }
    *id = read;
    return 1;
}

/** Writes HADULMIR_ID_TEXT_SIZE bytes, for a log or for the subject of a response: all 32 digits, in upper case, and a zero byte. */
static inline void hadulmir_id_to_text(struct hadulmir_id id, char *text)
{
    static const char digits[] = "0123456789ABCDEF";
    size_t i;

    for (i = 0; i < 16; i++) {
        text[i] = digits[id.high >> (60 - 4 * i) & 15u];
        text[16 + i] = digits[id.low >> (60 - 4 * i) & 15u];
    }
    text[32] = '\0';
}

/** An event as it is delivered. Fields that are left out of an initialiser are 0: no randomisation. */
struct hadulmir_event {
    struct hadulmir_id id;      /**< its mRID */
    uint8_t program;            /**< the number of its program */
    uint32_t controls;          /**< the mask of its controls, not 0 */
    uint32_t created;           /**< creation time; at equal primacy the later one wins */
    uint32_t start;             /**< at least 3,600 */
    uint32_t duration;          /**< in seconds, at least 1 */
    int32_t randomize_start;    /**< -3,600 to 3,600 */
    int32_t randomize_duration; /**< -3,600 to 3,600 */
    int32_t start_draw;         /**< between 0 and randomize_start, both included */
    int32_t duration_draw;      /**< between 0 and randomize_duration, both included */
};

/** hadulmir_deliver with the fields by name and the signed ones as signed numbers. */
static inline int32_t hadulmir_deliver_event(uint8_t *image, uint64_t image_len, const struct hadulmir_event *event)
{
    return hadulmir_deliver(image, image_len, event->id.high, event->id.low, event->program, event->controls, event->created, event->start,
                            event->duration, hadulmir_signed(event->randomize_start), hadulmir_signed(event->randomize_duration),
                            hadulmir_signed(event->start_draw), hadulmir_signed(event->duration_draw));
}

/** The signed number of 2 bytes. */
static inline int16_t hadulmir_signed_at(const uint8_t *bytes)
{
    int32_t number = (int32_t)hadulmir_number_at(bytes, 2);

    return (int16_t)(number < 32768 ? number : number - 65536);
}

/** A response row. */
struct hadulmir_row {
    uint64_t time;         /**< when */
    struct hadulmir_id id; /**< which event */
    uint8_t code;          /**< gives which response code: 2, 3, 7, 8, 9 or 10 */
};

/** Row i of a buffer that hadulmir_set_clock wrote; i is below the count that it answered. */
static inline struct hadulmir_row hadulmir_row_at(const uint8_t *rows, size_t i)
{
    const uint8_t *at = rows + i * HADULMIR_ROW_SIZE;
    struct hadulmir_row row;

    row.time = hadulmir_number_at(at, 8);
    row.id = hadulmir_id_at(at + 8);
    row.code = at[24];
    return row;
}

/** A held event as it stands in an image. */
struct hadulmir_entry {
    struct hadulmir_event event; /**< as it was delivered */
    uint64_t effective_start;    /**< see THE IMAGE above */
    uint32_t held;               /**< the mask of the controls that it holds now */
    uint8_t cancelled;           /**< 0 or 1 */
    uint8_t out;                 /**< 1 while the user is out of it, else 0 */
    uint8_t was_in;              /**< 1 if the user was in for a second in which it held something, else 0 */
    uint8_t was_out;             /**< 1 if the user was out for such a second, else 0 */
};

/** The entry of HADULMIR_ENTRY_SIZE bytes. */
static inline struct hadulmir_entry hadulmir_entry_at(const uint8_t *bytes)
{
    struct hadulmir_entry entry;

    entry.event.id = hadulmir_id_at(bytes);
    entry.event.program = bytes[16];
    entry.event.controls = (uint32_t)hadulmir_number_at(bytes + 17, 4);
    entry.event.created = (uint32_t)hadulmir_number_at(bytes + 21, 4);
    entry.event.start = (uint32_t)hadulmir_number_at(bytes + 25, 4);
    entry.event.duration = (uint32_t)hadulmir_number_at(bytes + 29, 4);
    entry.event.randomize_start = hadulmir_signed_at(bytes + 33);
    entry.event.randomize_duration = hadulmir_signed_at(bytes + 35);
    entry.event.start_draw = hadulmir_signed_at(bytes + 37);
    entry.event.duration_draw = hadulmir_signed_at(bytes + 39);
    entry.effective_start = hadulmir_number_at(bytes + 41, 8);
    entry.held = (uint32_t)hadulmir_number_at(bytes + 49, 4);
    entry.cancelled = bytes[53];
    entry.out = (uint8_t)(bytes[54] & 1u);
    entry.was_in = (uint8_t)(bytes[54] >> 1 & 1u);
    entry.was_out = (uint8_t)(bytes[54] >> 2 & 1u);
    return entry;
}

/** A held event as a listing gives it. */
struct hadulmir_record {
    struct hadulmir_entry entry; /**< as it stands in the image */
    uint64_t earliest_start;     /**< when it might begin at the earliest, see THE IMAGE above */
};

/** When the event of record i might begin at the earliest; buffer and i are those of hadulmir_record_at. */
static inline uint64_t hadulmir_earliest_start_at(const uint8_t *records, size_t i)
{
    return hadulmir_number_at(records + i * HADULMIR_RECORD_SIZE + HADULMIR_ENTRY_SIZE, 8);
}

/** Record i of a buffer that hadulmir_list wrote; i is below the count that it answered. */
static inline struct hadulmir_record hadulmir_record_at(const uint8_t *records, size_t i)
{
    struct hadulmir_record record;

    record.entry = hadulmir_entry_at(records + i * HADULMIR_RECORD_SIZE);
    record.earliest_start = hadulmir_earliest_start_at(records, i);
    return record;
}

/** The second at which an event ends, and from which on it is no longer held. */
static inline uint64_t hadulmir_effective_end(const struct hadulmir_event *event)
{
    return (uint64_t)((int64_t)event->start + event->start_draw + (int64_t)event->duration + event->duration_draw);
}

/* The readers below are for an image that a call accepted or wrote. They look at its bytes and check nothing. */

/** The clock. A host that took up an image goes on from there. */
static inline uint64_t hadulmir_clock_of(const uint8_t *image)
{
    return hadulmir_number_at(image + HADULMIR_CLOCK_AT, 8);
}

/** How many events are held. */
static inline uint8_t hadulmir_count_of(const uint8_t *image)
{
    return image[HADULMIR_COUNT_AT];
}

/** A program. */
struct hadulmir_program {
    uint8_t added;     /**< 0 or 1; if 0, so are the others */
    uint8_t primacy;   /**< less is better */
    uint32_t defaults; /**< the mask of the controls that it has a default for */
};

/** Program `number`, which is at most 7. */
static inline struct hadulmir_program hadulmir_program_of(const uint8_t *image, uint8_t number)
{
    const uint8_t *at = image + HADULMIR_PROGRAMS_AT + number * HADULMIR_PROGRAM_SIZE;
    struct hadulmir_program program;

    program.added = at[0];
    program.primacy = at[1];
    program.defaults = (uint32_t)hadulmir_number_at(at + 2, 4);
    return program;
}

/** Held event i, which is below the count; they stand by ascending id, as in a listing. */
static inline struct hadulmir_entry hadulmir_entry_of(const uint8_t *image, size_t i)
{
    return hadulmir_entry_at(image + HADULMIR_EVENTS_AT + i * HADULMIR_ENTRY_SIZE);
}

#ifdef __cplusplus
}
#endif

#endif
