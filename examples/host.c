/*
 * A host: lends its tables, books document 01's worked example P11, and prints the tables, a refusal, a list of trades that stops, the average entry of each
 * position, and a give-up from its opening to the booked rows. It keeps a journal of what is booked, and replays it into other tables.
 *
 *     cc -std=c11 -Iinclude examples/host.c build/libvelichundam.a -o host
 */
#include <inttypes.h>
#include <stdio.h>
#include <stdlib.h>
#include <string.h>

#include "velichundam.h"

#define RECORDS_LEN VELICHUNDAM_RECORDS_LEN(12)
#define POSITIONS_LEN VELICHUNDAM_POSITIONS_LEN(4)
#define PROCESSES_LEN VELICHUNDAM_PROCESSES_LEN(3)

static int64_t records[RECORDS_LEN];
static int64_t positions[POSITIONS_LEN];
static int64_t processes[PROCESSES_LEN];

static uint8_t journal[20 * VELICHUNDAM_TRADE_LINE];
static size_t journal_len;

/* What is left of the journal's buffer: a pointer and a length, as the writing calls take it. */
#define JOURNAL_REST journal + journal_len, sizeof journal - journal_len

static void print_reply(const char *request, velichundam_reply r)
{
    printf("%s: ", request);
    switch (r.kind) {
    case VELICHUNDAM_BOOKED:
        printf("booked, rows %" PRId64 ", residual %" PRId64 "\n", r.first, r.second);
        break;
    case VELICHUNDAM_CLOSING_ERROR:
        printf("booked with a closing error, excess %" PRId64 "\n", r.first);
        break;
    case VELICHUNDAM_LINEAGE:
        printf("price %" PRId64 ", links %" PRId64 "\n", r.first, r.second);
        break;
    case VELICHUNDAM_STOPPED:
        printf("stopped, booked %" PRId64 ", number %" PRId64 " (%s), place %" PRId64 "\n", r.first, r.second, velichundam_why(r.second), r.third);
        break;
    case VELICHUNDAM_REPLAYED:
        printf("replayed, lines %" PRId64 "\n", r.first);
        break;
    case VELICHUNDAM_BAD_LINE:
        printf("line %" PRId64 " is bad\n", r.first);
        break;
    case VELICHUNDAM_LINE_REFUSED:
        printf("line %" PRId64 " is refused, number %" PRId64 " (%s), place %" PRId64 "\n", r.first, r.second, velichundam_why(r.second), r.third);
        break;
    default:
        printf("refused, number %" PRId64 " (%s), place %" PRId64 "\n", r.first, velichundam_why(r.first), r.second);
    }
}

/* Prints the answer, and says whether the request was booked. */
static int booked(const char *request, velichundam_reply r)
{
    print_reply(request, r);
    return r.kind == VELICHUNDAM_BOOKED || r.kind == VELICHUNDAM_CLOSING_ERROR;
}

/* Takes what was written into the journal. A host would store it here, before it tells anyone that the request is booked. */
static void keep(velichundam_reply written)
{
    if (written.kind != VELICHUNDAM_WRITTEN) {
        fprintf(stderr, "the journal is full\n");
        exit(1);
    }
    journal_len += (size_t)written.first;
}

/* Prints the rows of a table, which follow so many cells. */
static void print_table(const char *title, const int64_t *table, size_t header, size_t width)
{
    printf("\n%s: %" PRId64 " rows\n", title, table[0]);
    for (size_t row = 0; row < (size_t)table[0]; row++) {
        for (size_t cell = 0; cell < width; cell++)
            printf("%s%" PRId64, cell == 0 ? "| " : " | ", table[header + row * width + cell]);
        printf(" |\n");
    }
}

/* The average entry of each position from its last two cells, in price units cut off to a whole number. Nothing is summed over the records. */
static void print_averages(void)
{
    printf("\n");
    for (size_t row = 0; row < (size_t)positions[0]; row++) {
        const int64_t *position = positions + VELICHUNDAM_POSITIONS_LEN(row);
        const int64_t quantity = position[VELICHUNDAM_POSITION_QUANTITY], value = position[VELICHUNDAM_POSITION_VALUE];
        printf("account %" PRId64 ", series %" PRId64 ": ", position[0], position[1]);
        if (quantity != 0)
            printf("%" PRId64 " at %" PRId64 "\n", quantity, value / quantity);
        else
            printf("nothing held net, margin %" PRId64 "\n", -value);
    }
}

/* A morning's trades. The third has an id that is taken, so the first two are booked and the fourth is not tried. */
static void book_a_morning(void)
{
    enum { TRADES = 4 };
    const int64_t trades[TRADES * VELICHUNDAM_TRADE_FIGURES] = {
        500002, 3, 1, VELICHUNDAM_BUY_OPEN, 40, 1250000000,
        500001, 3, 1, VELICHUNDAM_SELL_CLOSE, 60, 1260000000,
        456789, 3, 1, VELICHUNDAM_BUY_OPEN, 10, 1250000000,
        500003, 3, 1, VELICHUNDAM_BUY_OPEN, 10, 1250000000
    };
    int64_t excess[TRADES] = {-1, -1, -1, -1};

    velichundam_reply r = velichundam_trades(records, RECORDS_LEN, positions, POSITIONS_LEN,
        trades, TRADES * VELICHUNDAM_TRADE_FIGURES, excess, TRADES);
    print_reply("morning", r);
    /* The trades that it booked have their lines: all, or those before the stop. */
    if (r.kind == VELICHUNDAM_BOOKED || (r.kind == VELICHUNDAM_STOPPED && r.first > 0))
        keep(velichundam_write_trades(JOURNAL_REST, trades, (size_t)r.first * VELICHUNDAM_TRADE_FIGURES));
    printf("excess:");
    for (int k = 0; k < TRADES; k++)
        printf(" %" PRId64, excess[k]);
    printf("\n");
    print_table("records", records, VELICHUNDAM_RECORDS_HEADER, VELICHUNDAM_RECORD_CELLS);
    print_table("positions", positions, VELICHUNDAM_POSITIONS_HEADER, VELICHUNDAM_POSITION_CELLS);
    print_averages();
}

/* A step of a give-up, as the six calls have it. */
typedef velichundam_reply step(int64_t *records, size_t records_len, int64_t *positions, size_t positions_len,
    int64_t *processes, size_t processes_len,
    int64_t process, int64_t id, int64_t suffix, int64_t giving, int64_t taking, int64_t series);

/* Process 9001 gives one of the separated parts, suffix 4, up from account 2 to account 5. */
static void take_step(const char *who, step *call, int64_t letter)
{
    if (booked(who, call(records, RECORDS_LEN, positions, POSITIONS_LEN, processes, PROCESSES_LEN, 9001, 456789, 4, 2, 5, 1)))
        keep(velichundam_write_give_up(JOURNAL_REST, letter, 9001, 456789, 4, 2, 5, 1));
}

/* While the process runs, the part can't be adjusted; the taker's clearing member approves after the claim. The last step books two rows. */
static void give_up_a_part(void)
{
    const int64_t halves[] = {25, 25};

    take_step("give-up opened", velichundam_give_up_open, VELICHUNDAM_STEP_OPEN);
    print_reply("separation meanwhile", velichundam_separate(records, RECORDS_LEN, positions, POSITIONS_LEN,
        456789, 4, 2, 1, halves, sizeof halves / sizeof halves[0]));
    take_step("taker's approval, too early", velichundam_give_up_approve_taker, VELICHUNDAM_STEP_APPROVE_TAKER);
    take_step("claim", velichundam_give_up_claim, VELICHUNDAM_STEP_CLAIM);
    take_step("taker's approval", velichundam_give_up_approve_taker, VELICHUNDAM_STEP_APPROVE_TAKER);
    print_table("processes", processes, VELICHUNDAM_PROCESSES_HEADER, VELICHUNDAM_PROCESS_CELLS);

    printf("\n");
    take_step("giver's approval", velichundam_give_up_approve_giver, VELICHUNDAM_STEP_APPROVE_GIVER);
    print_table("records", records, VELICHUNDAM_RECORDS_HEADER, VELICHUNDAM_RECORD_CELLS);
    print_table("positions", positions, VELICHUNDAM_POSITIONS_HEADER, VELICHUNDAM_POSITION_CELLS);
    print_table("processes", processes, VELICHUNDAM_PROCESSES_HEADER, VELICHUNDAM_PROCESS_CELLS);
}

/* Whether two tables have the same header and rows; what lies past them may differ. */
static int same_rows(const int64_t *table, const int64_t *other, size_t header, size_t width)
{
    return memcmp(table, other, (header + (size_t)table[0] * width) * sizeof *table) == 0;
}

/* The day once more, from its journal: into empty tables of the same room, again into these, and with a byte that was lost. */
static void replay_the_day(void)
{
    static int64_t records_again[RECORDS_LEN];
    static int64_t positions_again[POSITIONS_LEN];
    static int64_t processes_again[PROCESSES_LEN];

    printf("journal: %zu bytes\n", journal_len);
    fwrite(journal, 1, journal_len, stdout);

    printf("\n");
    print_reply("replay", velichundam_replay(records_again, RECORDS_LEN, positions_again, POSITIONS_LEN, processes_again, PROCESSES_LEN,
        journal, journal_len));
    printf("records, positions and processes: %s\n",
        same_rows(records, records_again, VELICHUNDAM_RECORDS_HEADER, VELICHUNDAM_RECORD_CELLS)
        && same_rows(positions, positions_again, VELICHUNDAM_POSITIONS_HEADER, VELICHUNDAM_POSITION_CELLS)
        && same_rows(processes, processes_again, VELICHUNDAM_PROCESSES_HEADER, VELICHUNDAM_PROCESS_CELLS) ? "the same rows" : "other rows");

    print_reply("replay on top of it", velichundam_replay(records_again, RECORDS_LEN, positions_again, POSITIONS_LEN,
        processes_again, PROCESSES_LEN, journal, journal_len));

    records_again[0] = positions_again[0] = processes_again[0] = 0;
    print_reply("replay without the last newline", velichundam_replay(records_again, RECORDS_LEN, positions_again, POSITIONS_LEN,
        processes_again, PROCESSES_LEN, journal, journal_len - 1));
}

int main(void)
{
    const int64_t parts[] = {50, 25, 25};
    const int64_t again[] = {60, 41};
    enum { PARTS = sizeof parts / sizeof parts[0] };

    if (booked("trade", velichundam_trade(records, RECORDS_LEN, positions, POSITIONS_LEN,
            456789, 1, 1, VELICHUNDAM_BUY_OPEN, 100, 1250000000)))
        keep(velichundam_write_trade(JOURNAL_REST, 456789, 1, 1, VELICHUNDAM_BUY_OPEN, 100, 1250000000));
    if (booked("transfer", velichundam_transfer(records, RECORDS_LEN, positions, POSITIONS_LEN, 456789, 0, 1, 2, 1)))
        keep(velichundam_write_transfer(JOURNAL_REST, 456789, 0, 1, 2, 1));
    if (booked("separation", velichundam_separate(records, RECORDS_LEN, positions, POSITIONS_LEN, 456789, 2, 2, 1, parts, PARTS)))
        keep(velichundam_write_separation(JOURNAL_REST, 456789, 2, 2, 1, parts, PARTS));
    print_reply("lineage of suffix 6", velichundam_lineage(records, RECORDS_LEN, 456789, 6));

    print_table("records", records, VELICHUNDAM_RECORDS_HEADER, VELICHUNDAM_RECORD_CELLS);
    print_table("positions", positions, VELICHUNDAM_POSITIONS_HEADER, VELICHUNDAM_POSITION_CELLS);

    printf("\n");
    print_reply("separation again", velichundam_separate(records, RECORDS_LEN, positions, POSITIONS_LEN,
        456789, 2, 2, 1, again, sizeof again / sizeof again[0]));

    printf("\n");
    book_a_morning();

    printf("\n");
    give_up_a_part();

    printf("\n");
    replay_the_day();
    return 0;
}
