/*
 * A host that ends its days: asks for the reporting list, prints it, and then moves the day. The bookings are those of 002's table for transaction
 * 123456, over three days: the trade is separated, three of its parts are given up and one of these goes on to another account; the parts that are left
 * follow on the next days. It keeps a journal, and at the end reruns all three days from it.
 *
 *     cc -std=c11 -Iinclude examples/end_of_day.c build/libvelichundam.a -o end_of_day
 */
#include <inttypes.h>
#include <stdio.h>
#include <stdlib.h>
#include <string.h>

#include "velichundam.h"

enum { ROOM = 30, ID = 123456, MEMBER = 1, TAKER = 2, OTHER = 3, SERIES = 1 };

#define RECORDS_LEN VELICHUNDAM_RECORDS_LEN(ROOM)
#define POSITIONS_LEN VELICHUNDAM_POSITIONS_LEN(4)
#define PROCESSES_LEN VELICHUNDAM_PROCESSES_LEN(10)

static int64_t records[RECORDS_LEN];
static int64_t positions[POSITIONS_LEN];
static int64_t processes[PROCESSES_LEN];

static uint8_t journal[60 * VELICHUNDAM_GIVE_UP_LINE];
static size_t journal_len;

/* What is left of the journal's buffer: a pointer and a length, as the writing calls take it. */
#define JOURNAL_REST journal + journal_len, sizeof journal - journal_len

/* Every request of this example is booked, and every line finds room. */
static void expect(velichundam_reply r, int64_t kind)
{
    if (r.kind != kind) {
        fprintf(stderr, "an answer of kind %" PRId64 ": %s\n", r.kind, r.kind == VELICHUNDAM_REFUSED ? velichundam_why(r.first) : "not refused");
        exit(1);
    }
}

/* Takes the line that was written into the journal. */
static void keep(velichundam_reply written)
{
    expect(written, VELICHUNDAM_WRITTEN);
    journal_len += (size_t)written.first;
}

static void begin_day(int64_t day)
{
    expect(velichundam_day(records, RECORDS_LEN, day), VELICHUNDAM_BOOKED);
    keep(velichundam_write_day(JOURNAL_REST, day));
    printf("day %" PRId64 "\n", records[VELICHUNDAM_CURRENT_DAY]);
}

static void trade(int64_t quantity, int64_t price)
{
    expect(velichundam_trade(records, RECORDS_LEN, positions, POSITIONS_LEN, ID, MEMBER, SERIES, VELICHUNDAM_BUY_OPEN, quantity, price),
        VELICHUNDAM_BOOKED);
    keep(velichundam_write_trade(JOURNAL_REST, ID, MEMBER, SERIES, VELICHUNDAM_BUY_OPEN, quantity, price));
}

static void separate(int64_t suffix, const int64_t *parts, size_t parts_len)
{
    expect(velichundam_separate(records, RECORDS_LEN, positions, POSITIONS_LEN, ID, suffix, MEMBER, SERIES, parts, parts_len),
        VELICHUNDAM_BOOKED);
    keep(velichundam_write_separation(JOURNAL_REST, ID, suffix, MEMBER, SERIES, parts, parts_len));
}

static void transfer(int64_t suffix)
{
    expect(velichundam_transfer(records, RECORDS_LEN, positions, POSITIONS_LEN, ID, suffix, TAKER, OTHER, SERIES), VELICHUNDAM_BOOKED);
    keep(velichundam_write_transfer(JOURNAL_REST, ID, suffix, TAKER, OTHER, SERIES));
}

/* A step of a give-up, as the six calls have it. */
typedef velichundam_reply step(int64_t *records, size_t records_len, int64_t *positions, size_t positions_len,
    int64_t *processes, size_t processes_len,
    int64_t process, int64_t id, int64_t suffix, int64_t giving, int64_t taking, int64_t series);

static void take_step(step *call, int64_t letter, int64_t suffix)
{
    const int64_t process = 9000 + suffix;

    expect(call(records, RECORDS_LEN, positions, POSITIONS_LEN, processes, PROCESSES_LEN, process, ID, suffix, MEMBER, TAKER, SERIES),
        VELICHUNDAM_BOOKED);
    keep(velichundam_write_give_up(JOURNAL_REST, letter, process, ID, suffix, MEMBER, TAKER, SERIES));
}

/* From the opening to the booked rows, all on one day. */
static void give_up(int64_t suffix)
{
    take_step(velichundam_give_up_open, VELICHUNDAM_STEP_OPEN, suffix);
    take_step(velichundam_give_up_claim, VELICHUNDAM_STEP_CLAIM, suffix);
    take_step(velichundam_give_up_approve_giver, VELICHUNDAM_STEP_APPROVE_GIVER, suffix);
    take_step(velichundam_give_up_approve_taker, VELICHUNDAM_STEP_APPROVE_TAKER, suffix);
}

static const char *status_name(int64_t status)
{
    switch (status) {
    case VELICHUNDAM_ADJUSTABLE: return "adjustable";
    case VELICHUNDAM_ADJUSTED: return "adjusted";
    case VELICHUNDAM_INVERSE: return "inverse";
    default: return "under give-up";
    }
}

/* The rows of the current day as 002 has them, and which of them are reported. A pair of cells for each record of the table is always enough. */
static void end_day(void)
{
    int64_t pairs[VELICHUNDAM_PAIRS_LEN(ROOM)];
    int64_t next = 0;
    const velichundam_reply list = velichundam_reportable(records, RECORDS_LEN, pairs, VELICHUNDAM_PAIRS_LEN(ROOM));

    expect(list, VELICHUNDAM_LISTED);
    printf("    id      suffix  parent  type  status      reported\n");
    for (size_t row = 0; row < (size_t)records[0]; row++) {
        const int64_t *record = records + VELICHUNDAM_RECORDS_LEN(row);
        /* The list has the table's order, so that one look at its next pair is enough. */
        const int reported = next < list.first && pairs[2 * next] == record[0] && pairs[2 * next + 1] == record[1];

        next += reported;
        if (record[VELICHUNDAM_RECORD_DAY] == records[VELICHUNDAM_CURRENT_DAY])
            printf("    %" PRId64 "  %6" PRId64 "  %6" PRId64 "  %4" PRId64 "  %-10s  %s\n", record[0], record[1], record[2], record[3],
                status_name(record[4]), reported ? "yes" : "no");
    }
    printf("%" PRId64 " reported:", list.first);
    for (int64_t k = 0; k < list.first; k++)
        printf(" %" PRId64, pairs[2 * k + 1]);
    printf("\n\n");
}

/* All days from their journal, into empty tables of the same room; then a day that comes too late. */
static void rerun(void)
{
    static int64_t records_again[RECORDS_LEN];
    static int64_t positions_again[POSITIONS_LEN];
    static int64_t processes_again[PROCESSES_LEN];
    const velichundam_reply again = velichundam_replay(records_again, RECORDS_LEN, positions_again, POSITIONS_LEN,
        processes_again, PROCESSES_LEN, journal, journal_len);
    const velichundam_reply late = velichundam_day(records, RECORDS_LEN, 18);

    printf("replayed %" PRId64 " lines of %zu bytes: %s\n", again.first, journal_len,
        again.kind == VELICHUNDAM_REPLAYED && memcmp(records, records_again, sizeof records) == 0 ? "the same records and days" : "other records");
    if (late.kind == VELICHUNDAM_REFUSED)
        printf("day 18 once more: refused, %" PRId64 " (%s)\n", late.first, velichundam_why(late.first));
    else
        printf("day 18 once more: booked\n");
}

int main(void)
{
    const int64_t four[] = {40, 30, 20, 10};
    const int64_t the_first[] = {10, 10, 12, 8};

    begin_day(17);
    trade(100, 1250000000);
    separate(0, four, 4);
    give_up(3);
    give_up(5);
    give_up(4);
    transfer(11);
    end_day();

    begin_day(18);
    separate(2, the_first, 4);
    give_up(18);
    end_day();

    begin_day(19);
    give_up(15);
    give_up(17);
    give_up(16);
    end_day();

    rerun();
    return 0;
}
