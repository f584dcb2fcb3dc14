// The header from C++: it is included twice, each constant, name and helper is used, each function is called once.
#include "hadulmir.h"
#include "hadulmir.h"

#include <cstdio>
#include <cstring>
#include <type_traits>

static unsigned passed, failed;

static void check(bool ok, int line)
{
    if (ok) {
        passed++;
        return;
    }
    failed++;
    std::printf("header.cpp:%d: failed\n", line);
}

#define CHECK(ok) check((ok), __LINE__)

static_assert(HADULMIR_IMAGE_SIZE == 2697 && HADULMIR_ROW_SIZE == 25 && HADULMIR_ROWS_AT_MOST == 96, "sizes");
static_assert(HADULMIR_ROWS_SIZE == 2400 && HADULMIR_ENTRY_SIZE == 55 && HADULMIR_RECORD_SIZE == 63 && HADULMIR_EVENTS_AT_MOST == 48, "sizes");
static_assert(HADULMIR_RECORDS_SIZE == 3024 && HADULMIR_ID_SIZE == 16 && HADULMIR_ID_TEXT_SIZE == 33, "sizes");
static_assert(HADULMIR_PROGRAMS_AT_MOST == 8 && HADULMIR_CONTROLS_AT_MOST == 32, "sizes");
static_assert(HADULMIR_LONG_LINE_SIZE == 84 && HADULMIR_SHORT_LINE_SIZE == 68, "sizes");
static_assert(HADULMIR_CLOCK_AT_MOST == 9000000000u && HADULMIR_STACK_SIZE > 0, "limits");
static_assert(HADULMIR_VERSION >= 10000 && sizeof HADULMIR_VERSION_TEXT > 5 && HADULMIR_IMAGE_LAYOUT > 0, "version");
static_assert(HADULMIR_COUNT_AT == HADULMIR_CLOCK_AT + 8 && HADULMIR_PROGRAMS_AT == HADULMIR_COUNT_AT + 1, "image layout");
static_assert(HADULMIR_EVENTS_AT == HADULMIR_PROGRAMS_AT + HADULMIR_PROGRAMS_AT_MOST * HADULMIR_PROGRAM_SIZE, "image layout");
static_assert(HADULMIR_IMAGE_SIZE == HADULMIR_EVENTS_AT + HADULMIR_EVENTS_AT_MOST * HADULMIR_ENTRY_SIZE, "image layout");

// A length is a 64-bit number wherever the header is compiled, and what is only read is lent as such.
static_assert(std::is_same<decltype(&hadulmir_fresh), int32_t (*)(uint8_t *, uint64_t)>::value, "lengths");
static_assert(std::is_same<decltype(&hadulmir_opt_out), int32_t (*)(uint8_t *, uint64_t, uint64_t, uint64_t)>::value, "opt out");
static_assert(std::is_same<decltype(&hadulmir_opt_in), decltype(&hadulmir_opt_out)>::value, "opt in");
static_assert(std::is_same<decltype(&hadulmir_cancel), decltype(&hadulmir_opt_out)>::value, "cancel");
static_assert(std::is_same<decltype(&hadulmir_ask), int32_t (*)(const uint8_t *, uint64_t, uint8_t, uint8_t *, uint64_t)>::value, "ask");
static_assert(std::is_same<decltype(&hadulmir_list), int32_t (*)(const uint8_t *, uint64_t, uint8_t *, uint64_t)>::value, "list");
static_assert(std::is_same<decltype(&hadulmir_lengthen), decltype(&hadulmir_list)>::value, "lengthen");
static_assert(std::is_same<decltype(&hadulmir_shorten), decltype(&hadulmir_list)>::value, "shorten");

static bool is_ours(hadulmir_id id)
{
    return id.high == 5 && id.low == 7;
}

// Every refusal has a name.
static bool is_named(int32_t returned)
{
    switch (returned) {
    case HADULMIR_NO_FRAME:
    case HADULMIR_BAD_IMAGE:
    case HADULMIR_PROGRAM_TOO_LARGE:
    case HADULMIR_PROGRAM_ADDED:
    case HADULMIR_PRIMACY_RESERVED:
    case HADULMIR_PROGRAM_UNKNOWN:
    case HADULMIR_EVENT_INVALID:
    case HADULMIR_EVENT_DIFFERS:
    case HADULMIR_EVENT_EXPIRED:
    case HADULMIR_FULL:
    case HADULMIR_NOT_HELD:
    case HADULMIR_BAD_CLOCK:
    case HADULMIR_TOO_SHORT:
    case HADULMIR_CONTROL_TOO_LARGE:
    case HADULMIR_ID_TOO_LARGE:
        return true;
    default:
        return false;
    }
}

int main()
{
    uint8_t image[HADULMIR_IMAGE_SIZE], rows[HADULMIR_ROWS_SIZE], records[HADULMIR_RECORDS_SIZE], id[HADULMIR_ID_SIZE];
    char text[HADULMIR_ID_TEXT_SIZE];
    hadulmir_id ours;

    CHECK(hadulmir_id_from_text("50000000000000007", 17, &ours) == 1 && is_ours(ours) && hadulmir_id_from_text("g", 1, &ours) == 0);
    hadulmir_id_to_text(ours, text);
    CHECK(std::strcmp(text, "00000000000000050000000000000007") == 0 && hadulmir_digit_of('f') == 15);
    hadulmir_id_put(ours, id);
    CHECK(is_ours(hadulmir_id_at(id)) && hadulmir_id_compare(ours, hadulmir_id_at(id)) == 0);
    for (int32_t n = -20; n < 20; n++)
        CHECK(is_named(n) == (n <= -1 && n >= -15) && is_named(n) == (std::strcmp(hadulmir_refusal_text(n), hadulmir_refusal_text(0)) != 0));

    CHECK(hadulmir_fresh(image, sizeof image) == 0);
    CHECK(hadulmir_add_program(image, sizeof image, 0, 1, 0x2) == 0);
    int32_t returned = hadulmir_deliver(image, sizeof image, 5, 7, 0, 0x1, 100, 5000, 600, hadulmir_signed(-400), hadulmir_signed(0),
                                        hadulmir_signed(-300), hadulmir_signed(0));
    CHECK(returned == HADULMIR_RECEIVED && !hadulmir_is_refusal(returned) && hadulmir_response_for(returned) == 0);
    CHECK(hadulmir_set_clock(image, sizeof image, 4700, rows, sizeof rows) == 1);
    hadulmir_row row = hadulmir_row_at(rows, 0);
    CHECK(row.time == 4700 && is_ours(row.id) && row.code == HADULMIR_STARTED);
    CHECK(hadulmir_clock_of(image) == 4700);

    CHECK(hadulmir_ask(image, sizeof image, 0, id, sizeof id) == HADULMIR_EVENT && is_ours(hadulmir_id_at(id)));
    CHECK(hadulmir_number_at(id + 8, 8) == 7);
    CHECK(hadulmir_ask(image, sizeof image, 1, id, sizeof id) == HADULMIR_DEFAULT + 0);
    CHECK(hadulmir_ask(image, sizeof image, 2, id, sizeof id) == HADULMIR_NOBODY);

    CHECK(hadulmir_list(image, sizeof image, records, sizeof records) == 1);
    hadulmir_record record = hadulmir_record_at(records, 0);
    hadulmir_entry entry = record.entry;
    hadulmir_event event = entry.event;
    CHECK(is_ours(event.id) && event.program == 0 && event.controls == 1 && event.created == 100 && event.start == 5000);
    CHECK(event.duration == 600 && event.randomize_start == -400 && event.randomize_duration == 0);
    CHECK(event.start_draw == -300 && event.duration_draw == 0 && hadulmir_signed_at(records + 37) == -300);
    CHECK(entry.effective_start == 4700 && entry.held == 1 && entry.cancelled == 0);
    CHECK(entry.out == 0 && entry.was_in == 1 && entry.was_out == 0);
    CHECK(record.earliest_start == 4600 && hadulmir_earliest_start_at(records, 0) == 4600);
    CHECK(hadulmir_effective_end(&event) == 5300);
    CHECK(hadulmir_deliver_event(image, sizeof image, &event) == 0);
    CHECK(hadulmir_count_of(image) == 1 && is_ours(hadulmir_entry_of(image, 0).event.id) && hadulmir_entry_of(image, 0).held == 1);
    CHECK(is_ours(hadulmir_entry_at(records).event.id));
    hadulmir_program program = hadulmir_program_of(image, 0);
    CHECK(program.added == 1 && program.primacy == 1 && program.defaults == 0x2);

    CHECK(hadulmir_opt_out(image, sizeof image, 5, 7) == HADULMIR_OPTED_OUT && hadulmir_response_for(HADULMIR_OPTED_OUT) == 0);
    CHECK(hadulmir_ask(image, sizeof image, 0, id, sizeof id) == HADULMIR_NOBODY);
    entry = hadulmir_entry_of(image, 0);
    CHECK(entry.out == 1 && entry.was_in == 1 && entry.was_out == 0 && entry.held == 1);
    CHECK(hadulmir_opt_in(image, sizeof image, 5, 7) == HADULMIR_OPTED_IN);
    CHECK(hadulmir_opt_out(image, sizeof image, 7, 5) == HADULMIR_NOT_HELD && hadulmir_opt_in(image, sizeof image, 0, 7) == HADULMIR_NOT_HELD);
    CHECK(hadulmir_entry_of(image, 0).out == 0);
    returned = hadulmir_cancel(image, sizeof image, 5, 7);
    CHECK(returned == HADULMIR_CANCELLED && hadulmir_response_for(returned) == 0);
    CHECK(hadulmir_cancel(image, sizeof image, 5, 8) == HADULMIR_NOT_HELD && hadulmir_is_refusal(HADULMIR_NOT_HELD));
    CHECK(hadulmir_response_for(HADULMIR_EVENT_INVALID) == HADULMIR_REJECTED_INVALID);
    CHECK(hadulmir_response_for(HADULMIR_EVENT_EXPIRED) == HADULMIR_REJECTED_EXPIRED);
    CHECK(HADULMIR_COMPLETED == 3 && HADULMIR_SUPERSEDED == 7);
    CHECK(HADULMIR_PARTLY_OPTED_OUT == 8 && HADULMIR_PARTLY_OPTED_IN == 9 && HADULMIR_NOT_PARTICIPATED == 10);
    std::memset(image, 0xFF, sizeof image);
    CHECK(hadulmir_list(image, sizeof image, records, sizeof records) == HADULMIR_BAD_IMAGE);

    const uint8_t cancellation[] = {'0', '2', '0', '0', '0', '0', '0', '0', '0', '0', '0', '0', '0', '0', '0', '0', '0', '7'};
    uint8_t long_line[HADULMIR_LONG_LINE_SIZE], short_line[HADULMIR_SHORT_LINE_SIZE];
    CHECK(hadulmir_lengthen(cancellation, sizeof cancellation, long_line, sizeof long_line) == 34);
    CHECK(std::memcmp(long_line, "0200000000000000000000000000000007", 34) == 0);
    CHECK(hadulmir_shorten(long_line, 34, short_line, sizeof short_line) == 18);
    CHECK(std::memcmp(short_line, cancellation, sizeof cancellation) == 0);
    CHECK(hadulmir_lengthen(long_line, 34, long_line + 34, 50) == HADULMIR_NO_FRAME && hadulmir_response_for(HADULMIR_NO_FRAME) == 0);
    long_line[2] = '1';
    CHECK(hadulmir_shorten(long_line, 34, short_line, 0) == HADULMIR_ID_TOO_LARGE && hadulmir_response_for(HADULMIR_ID_TOO_LARGE) == 0);

    std::printf("header: %u passed, %u failed\n", passed, failed);
    return failed != 0;
}
