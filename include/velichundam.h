/*
 * velichundam.h - a transaction book for clearing back offices
 *
 * The book lives in tables that the host owns and lends for the length of a call: plain arrays of signed 64-bit numbers. Nothing is
 * allocated, nothing is kept between calls, and no call does input or output. Four requests book: trade, separation, account transfer and
 * average-price merge; a list of trades may be handed in by one call. Six more are the steps by which a record is given up to another member's
 * account; they and a replay alone are lent the third table, the processes. One more moves the current day forward. Two questions only read: lineage,
 * and the list of the records that are reported at the end of a day.
 *
 * A host may keep a journal: seven calls write a request as a line of text, and one replays such a text.
 *
 * Every call takes any tables of any length with any contents, any figures and any text, and answers. A request that is refused changes nothing; a
 * list of trades stops at the first that is refused, a replay at the first line that is bad or refused, and what came before stays booked. What each
 * call answers and what it leaves in every cell and byte is proved of the code behind these functions (see crates/velichundam/src/lib.rt, and
 * text_calls.rt beside it).
 *
 * docs/RULES.md has the rules of the book for a host's author: what each request writes, row by row with every cell, and the refusals in order.
 *
 * A first program:
 *
 *     int64_t records[VELICHUNDAM_RECORDS_LEN(100)] = {0};         // room for 100 records, none yet
 *     int64_t positions[VELICHUNDAM_POSITIONS_LEN(20)] = {0};      // room for 20 positions, none yet
 *     velichundam_reply r = velichundam_trade(records, VELICHUNDAM_RECORDS_LEN(100), positions, VELICHUNDAM_POSITIONS_LEN(20),
 *                                             456789, 1, 1, VELICHUNDAM_BUY_OPEN, 100, 1250000000);
 *     if (r.kind == VELICHUNDAM_REFUSED) puts(velichundam_why(r.first));
 *
 * THE TABLES
 *
 * Records. A header of two cells, then the rows. Cell 0 is the row count, cell 1 the current day (see DAYS AND THE REPORTING LIST). Row k (from 0) has
 * the 14 cells from 2 + 14 * k on, the last of them the day on which it was booked:
 *
 *     +0 id      +1 suffix  +2 parent  +3 type     +4 status  +5 account  +6 series
 *     +7 side    +8 quantity           +9 price    +10 long booked        +11 short booked      +12 into      +13 day
 *
 * Here is a trade of day 17, and its transfer to account 2 on day 18, the current one:
 *
 *     cell  0  |      3 |  18 |                                                                                       count, current day
 *              | id     | suffix | parent | type | status | account | series | side | qty  | price | long | short | into | day |
 *     cell  2  | 456789 |      0 |      0 |    0 |      1 |       1 |      1 |    1 |  100 |     5 |  100 |     0 |    0 |  17 |
 *     cell 16  | 456789 |      1 |      0 |    4 |      2 |       1 |      1 |    1 | -100 |     5 | -100 |     0 |    0 |  18 |
 *     cell 30  | 456789 |      2 |      0 |    4 |      0 |       2 |      1 |    1 |  100 |     5 |  100 |     0 |    0 |  18 |
 *     cell 44  room, as the host left it
 *
 * Positions. Cell 0 is the row count. Row k has the 7 cells from 1 + 7 * k on, the last two of them totals over the position's records (see AVERAGE
 * ENTRY):
 *
 *     +0 account  +1 series  +2 long  +3 short  +4 cash  +5 quantity  +6 value
 *
 * Processes, of give-ups. Cell 0 is the row count. Row k has the 9 cells from 1 + 9 * k on:
 *
 *     +0 process id  +1 id  +2 suffix  +3 giving account  +4 taking account  +5 series
 *     +6 giver's approval   +7 taker's approval           +8 stage
 *
 * The room of a table is the number of whole rows that fit after cell 0, of records after cell 1, at most 4,096 records, 1,024 positions and 1,024
 * processes. A longer array is fine: what lies past the room is never touched, and neither is a part of a row at the end. Cells past the last row are
 * neither read nor changed. An empty table is a 0 in cell 0; a book that begins has another 0 in cell 1 of its records. The other cells may hold
 * anything.
 *
 * Rows strictly rise, records by id and then suffix, positions by account and then series, processes by process id. The book keeps them so. A new row
 * goes where its key belongs, and the rows above that place move up by one. A process row, once made, stays, whatever becomes of the process.
 *
 * RANGES
 *
 *     id, process id  1 to 999,999,999                        suffix, parent   0 to 65,535
 *     account         1 to 9,999                              series           1 to 999,999
 *     quantity        1 to 1,000,000, in a request            side             1 to 4
 *     price           -1,000,000,000,000 to 1,000,000,000,000, in units of 0.0000001
 *     long, short     0 to 1,000,000,000,000, in a position   cash             magnitude at most 1,000,000,000,000,000
 *     quantity, value of a position                           magnitude at most 4,000,000,000,000,000,000
 *     day             1 to 99,999, in a request               current day      0 to 99,999, in the records' header
 *     parts of a separation, sources of a merge               2 to 1,000
 *     trades in one call                                      1 to 1,000
 *
 * In a record the type is 0, 4, 6, 10, 20, 30 or 901; the status 0 to 3; the quantity is not 0, has magnitude at most 1,000,000 and is negative
 * exactly where the status is 2; the two booked cells have magnitude at most 1,000,000; into is 0 or an id; the parent is below the suffix, or both
 * are 0; the day is from 0 to the current one. In a process the approvals are 0 or 1 and the stage is 0, 6, 9, 10 or 12. A table that breaks one of
 * these rules, or whose count is not between 0 and the room, or that lacks a cell of its header, is not sound: refusals 1, 2 and 19. (Account and
 * series of a position row are not tested; only that the rows rise by them. Of its quantity and value only the range is tested. Nor is it tested that a
 * process names a record under give-up, or two accounts that differ: a step of such a process is refused.)
 *
 * AVERAGE ENTRY
 *
 * Two cells of a position keep sums over its records of status 0 or 3, those of its account and series:
 *
 *     quantity    signed quantities: buys plus, sells minus, to open or to close
 *     value       signed quantities times the records' prices
 *
 * Here are account 2's parts of 50, 25 and 25, bought at 125.0, in the units that the cells have:
 *
 *     | account | series | long | short | cash | quantity |        value |
 *     |       2 |      1 |  100 |     0 |    0 |      100 | 125000000000 |
 *
 * Each request adds to these two cells what it changes in the sums. A trade, a transfer and the step that completes a give-up move both; a merge adds
 * its residual to the value; the other requests move neither. So on tables that began empty they are the sums at any time, and
 *
 *     average entry  =  value / quantity        in units of 0.0000001, where the quantity is not 0
 *
 * Where the records are all buys or all sells, that is the average of their prices by quantity. Where there are both, it is the break-even price: at
 * settlement price s the records' margin is quantity * s - value, which is 0 there. Where the quantity is 0, nothing is held net and there is no
 * average entry: the margin is -value at every price, what the sells brought less what the buys cost. (value / quantity can't overflow; in C it is
 * cut off towards zero. quantity * s may need more than 64 bits.)
 *
 * No call tests whether the two are true. On tables that were made otherwise they may be any numbers in their range, and they stay as untrue as they
 * were: a host that fills in such a table sums over its records first.
 *
 * DAYS AND THE REPORTING LIST
 *
 * The current day is cell 1 of the records. It begins at 0 and moves forward by velichundam_day, and by a line of a day in a replay, alone; a host
 * chooses what its numbers stand for, and may leave some out. Each new row takes the current day, whatever request adds it, and keeps it: a record
 * that is adjusted, or given up, later has the day on which it was booked.
 *
 * At the end of a day velichundam_reportable lists what is reported: the state that the day leaves behind, not each change on the way. Of the records
 * of the current day (the others are never on the list) those are reported that are
 *
 *     status 0 or 3   adjustable, or under give-up: what came of the day's bookings
 *     status 2        inverse, where the parent, the record of the same id whose suffix is the cell parent, was booked on an earlier day: that
 *                     record was reported then, and the inverse takes it back
 *
 * and not those that were adjusted later that day (status 1), nor inverses whose parent is of the same day (an inverse with suffix 0 is its own
 * parent). In the picture above the list of day 18 is 456789, 1 and 456789, 2. An inverse of the current day whose parent row is not in the table
 * can't be decided: the list is refused 5. Tables that these calls made have no such row.
 *
 * A host's end of day, with room for ROOM records: list first, then move the day, since the list is of the current day.
 *
 *     int64_t pairs[VELICHUNDAM_PAIRS_LEN(ROOM)];                  // a pair for each record is always enough
 *     velichundam_reply r = velichundam_reportable(records, VELICHUNDAM_RECORDS_LEN(ROOM), pairs, VELICHUNDAM_PAIRS_LEN(ROOM));
 *     if (r.kind == VELICHUNDAM_LISTED)
 *         for (int64_t k = 0; k < r.first; k++)
 *             report(pairs[2 * k], pairs[2 * k + 1]);              // id, suffix
 *     r = velichundam_day(records, VELICHUNDAM_RECORDS_LEN(ROOM), records[VELICHUNDAM_CURRENT_DAY] + 1);
 *
 * examples/end_of_day.c is a whole program. Tables from before this release, with one cell before rows of 13, are none of these: a host that has some
 * writes them anew, with a current day after the count and a day at the end of each row.
 *
 * GIVE-UP AND TAKE-UP
 *
 * A record to open passes from one member's account to another's after the taker has claimed it and both clearing members have approved. The stages,
 * with their numbers:
 *
 *                                   cancel (initiator)
 *                               +----------------------> 12 CANCELLED    the record is adjustable again
 *     open (initiator)          |
 *    ------------------> 6 PENDING
 *     the record's status       | |  refuse (taker)
 *     becomes 3                 | +--------------------> 10 REFUSED      the record is adjustable again
 *                               |
 *                               |  claim (taker)
 *                               v
 *                        9 CLAIMED ---------------------> 0 DONE         the record is adjusted, two rows are booked
 *                                   both have approved
 *
 * Who may do what, at which stage (anything else is refused 18):
 *
 *                                                 pending      claimed      cancelled, refused, done
 *     cancel     the initiator                    yes          -            -
 *     claim      the taker                        yes          -            -
 *     refuse     the taker                        yes          -            -
 *     approve    the giver's clearing member      once         once         -
 *     approve    the taker's clearing member      -            once         -
 *
 * The step after which the process is claimed and both have approved completes the give-up, whichever step it is. It books what a transfer books, but
 * for the types: an inverse row of type 20 in the giving account and an adjustable row of type 30 in the taking account, and both positions move,
 * with their totals. If one of 12 to 16 applies, it changes nothing, and may be tried again. While the status is 3 the record can't be separated,
 * transferred, merged or opened on: refusal 17. After a cancellation or a refusal it can, and a new give-up takes a new process id. The host sees to
 * it that a step comes from the one who may make it: the book knows accounts, not persons. (A table that these calls did not make may hold a claimed
 * process with both approvals: it is sound, and no step ends it.)
 *
 * THE JOURNAL
 *
 * A journal has a line for each request that was accepted and changed a table, in the order in which they were booked. Its fields are parted by tabs
 * (byte 9) and it is ended by a newline (byte 10):
 *
 *     T  id  account  series  side  quantity  price                   a trade; a list of trades has a line for each that it booked
 *     S  id  suffix  account  series  part  part  ..                  a separation
 *     A  id  suffix  from  to  series                                 an account transfer
 *     M  id  account  series  id  suffix  id  suffix  ..              a merge
 *     G  step  process  id  suffix  giving  taking  series            a step of a give-up, by its letter: O open, C claim, X cancel, R refuse,
 *                                                                     G the giver's approval, T the taker's
 *     D  day                                                          a new day
 *
 * Figures are decimal, without leading zeros, with a minus for negatives only. Nothing else stands in a line: no space, no plus, no carriage return.
 * The line of document 01's first trade, each tab shown as |:
 *
 *     T|456789|1|1|1|100|1250000000
 *
 * A host writes the line once the request is booked; the line says nothing of the answer. A replay into empty tables of the same room ends with the
 * rows that a day begun on empty tables ended with. The command velichundam replays a file, and shows the rows.
 *
 * WHAT THE HOST GUARANTEES
 *
 * For the length of a call:
 *   - a pointer points to as many int64_t as its length says, aligned as int64_t is, a text to as many bytes, and is not NULL even where the length
 *     is 0;
 *   - that memory may be read, and written for the tables, the excesses, the pairs and a text that is written to (not for a parameter that is const);
 *   - records, positions, processes, the list, the excesses, the pairs and the text share no cell with each other;
 *   - nobody else writes any of them, nor reads what the call may write: where threads share a book, hold a lock.
 *
 * Different tables may be used from different threads at the same time: the functions have no state of their own.
 *
 * STACK
 *
 * A call needs stack, and nothing sees to it that there is enough: a thread with a small stack should allow for the call it makes. Lineage calls
 * itself on the parent, once for each link, and a table of 4,096 records has chains of up to 4,095 links. A merge keeps of each source its row and
 * the greatest suffix of its id, in an array of 1,000 pairs of numbers of 16 bits; a replay keeps the figures of a line, 2,003 numbers. In bytes, from the
 * host's call down, rounded up:
 *
 *     lineage                                330,000 at the longest chain: 80 for each link, and 300
 *     merge                                    5,000
 *     trade, trades, separation                1,000
 *     transfer, the steps of a give-up         2,000
 *     replay                                  22,000
 *     day, the reporting list                  1,000
 *     the calls that write                     1,000
 *
 * These were measured with this archive on x86-64, on full tables, the longest chain, lists of 1,000 and the longest lines. They are no part of what
 * is proved. The C library's memmove and memset are in them, but not the dynamic linker: where it looks these two up at the first call (lazy binding),
 * that call took another 3,200.
 */
#ifndef VELICHUNDAM_H
#define VELICHUNDAM_H

#include <stddef.h>
#include <stdint.h>

#ifdef __cplusplus
extern "C" {
#endif

/* Cells before the first row, cells of a row, and the greatest room of a table. */
#define VELICHUNDAM_RECORDS_HEADER 2
#define VELICHUNDAM_RECORD_CELLS 14
#define VELICHUNDAM_POSITIONS_HEADER 1
#define VELICHUNDAM_POSITION_CELLS 7
#define VELICHUNDAM_PROCESSES_HEADER 1
#define VELICHUNDAM_PROCESS_CELLS 9
#define VELICHUNDAM_MOST_RECORDS 4096
#define VELICHUNDAM_MOST_POSITIONS 1024
#define VELICHUNDAM_MOST_PROCESSES 1024

/* The cell of the records that holds the current day, the cell of a record that holds its day of booking, and the greatest day. */
#define VELICHUNDAM_CURRENT_DAY 1
#define VELICHUNDAM_RECORD_DAY 13
#define VELICHUNDAM_LAST_DAY 99999

/* Cells of a record on the reporting list: id, suffix. */
#define VELICHUNDAM_PAIR_CELLS 2

/* The cells of a position that keep its totals. */
#define VELICHUNDAM_POSITION_QUANTITY 5
#define VELICHUNDAM_POSITION_VALUE 6

/* Figures of a trade in a list, and the most trades that one call takes. */
#define VELICHUNDAM_TRADE_FIGURES 6
#define VELICHUNDAM_MOST_TRADES 1000

/* The most bytes that a line of a journal takes, its newline included: of each trade of a list, of a separation into so many parts, of a merge of so
 * many sources. */
#define VELICHUNDAM_TRADE_LINE 49
#define VELICHUNDAM_SEPARATION_LINE(parts) (30 + (size_t)8 * (parts))
#define VELICHUNDAM_TRANSFER_LINE 35
#define VELICHUNDAM_MERGE_LINE(sources) (24 + (size_t)16 * (sources))
#define VELICHUNDAM_GIVE_UP_LINE 47
#define VELICHUNDAM_DAY_LINE 8

/* How many cells a table takes that has room for so many rows. */
#define VELICHUNDAM_RECORDS_LEN(rows) (VELICHUNDAM_RECORDS_HEADER + (size_t)VELICHUNDAM_RECORD_CELLS * (rows))
#define VELICHUNDAM_POSITIONS_LEN(rows) (VELICHUNDAM_POSITIONS_HEADER + (size_t)VELICHUNDAM_POSITION_CELLS * (rows))
#define VELICHUNDAM_PROCESSES_LEN(rows) (VELICHUNDAM_PROCESSES_HEADER + (size_t)VELICHUNDAM_PROCESS_CELLS * (rows))

/* How many cells the pairs of so many records take. */
#define VELICHUNDAM_PAIRS_LEN(records) ((size_t)VELICHUNDAM_PAIR_CELLS * (records))

/* Side codes. */
enum {
    VELICHUNDAM_BUY_OPEN = 1,
    VELICHUNDAM_SELL_OPEN = 2,
    VELICHUNDAM_BUY_CLOSE = 3,
    VELICHUNDAM_SELL_CLOSE = 4
};

/* Status of a record. It is under give-up from the opening of a process to its end. */
enum {
    VELICHUNDAM_ADJUSTABLE = 0,
    VELICHUNDAM_ADJUSTED = 1,
    VELICHUNDAM_INVERSE = 2,
    VELICHUNDAM_UNDER_GIVE_UP = 3
};

/* Type of a record. A completed give-up adds an inverse row of type 20 in the giving account and a row of type 30 in the taking account. */
enum {
    VELICHUNDAM_TYPE_ORIGINAL = 0,
    VELICHUNDAM_TYPE_TRANSFER = 4,
    VELICHUNDAM_TYPE_SEPARATION = 6,
    VELICHUNDAM_TYPE_CLOSING_ERROR = 10,
    VELICHUNDAM_TYPE_GIVE_UP = 20,
    VELICHUNDAM_TYPE_TAKE_UP = 30,
    VELICHUNDAM_TYPE_MERGE = 901
};

/* Stage of a process. */
enum {
    VELICHUNDAM_STAGE_DONE = 0,
    VELICHUNDAM_STAGE_PENDING = 6,
    VELICHUNDAM_STAGE_CLAIMED = 9,
    VELICHUNDAM_STAGE_REFUSED = 10,
    VELICHUNDAM_STAGE_CANCELLED = 12
};

/* The letter of a step in a journal, by its number in ASCII. */
enum {
    VELICHUNDAM_STEP_OPEN = 79,          /* O */
    VELICHUNDAM_STEP_CLAIM = 67,         /* C */
    VELICHUNDAM_STEP_CANCEL = 88,        /* X */
    VELICHUNDAM_STEP_REFUSE = 82,        /* R */
    VELICHUNDAM_STEP_APPROVE_GIVER = 71, /* G */
    VELICHUNDAM_STEP_APPROVE_TAKER = 84  /* T */
};

/*
 * An answer: which of ten it is, and up to three numbers. A number that an answer lacks is 0.
 *
 *     kind                            first                            second                          third
 *     0 VELICHUNDAM_BOOKED            rows added to the records table  residual (0 but for a merge)
 *     1 VELICHUNDAM_CLOSING_ERROR     excess (the trade is booked)
 *     2 VELICHUNDAM_LINEAGE           price of the original            links followed
 *     3 VELICHUNDAM_REFUSED           number, 1 to 19 or 23            place
 *     4 VELICHUNDAM_STOPPED           trades booked                    number                          place
 *     5 VELICHUNDAM_WRITTEN           bytes written
 *     6 VELICHUNDAM_REPLAYED          lines booked, all of them
 *     7 VELICHUNDAM_BAD_LINE          line, from 1
 *     8 VELICHUNDAM_LINE_REFUSED      line, from 1                     number                          place
 *     9 VELICHUNDAM_LISTED            records listed
 */
typedef struct velichundam_reply {
    int64_t kind;
    int64_t first;
    int64_t second;
    int64_t third;
} velichundam_reply;

enum {
    VELICHUNDAM_BOOKED = 0,
    VELICHUNDAM_CLOSING_ERROR = 1,
    VELICHUNDAM_LINEAGE = 2,
    VELICHUNDAM_REFUSED = 3,
    VELICHUNDAM_STOPPED = 4,
    VELICHUNDAM_WRITTEN = 5,
    VELICHUNDAM_REPLAYED = 6,
    VELICHUNDAM_BAD_LINE = 7,
    VELICHUNDAM_LINE_REFUSED = 8,
    VELICHUNDAM_LISTED = 9
};

/*
 * Why a request is refused, or why a list of trades or a replay stops: the first that applies, in the order of the tests. They go by number, but for
 * those of give-ups: 1, 2, 19, 3, 18, 4, 5, 6, 7 or 17, 8, .. 16, 23. What a request is not said to refuse by, it does not test.
 *
 * The place is the position in the list, from 0, of the first source that fails, for 5 to 10 and 17 in a merge; otherwise 0. In a merge each test
 * runs over the whole list before the next number is tried; 7 and 17 are one test, and the first source whose status is not 0 gives number and
 * place.
 */
enum {
    /* The records table is not sound. */
    VELICHUNDAM_RECORDS_NOT_SOUND = 1,
    /* The positions table is not sound. Not for lineage, a new day and the reporting list, which are not lent it. */
    VELICHUNDAM_POSITIONS_NOT_SOUND = 2,
    /* A figure of the request, an element of its list or the list's count is out of range; the list of pairs has an odd length; from equals to,
     * or giving taking; the list of trades has no multiple of six figures, or fewer cells for the excesses than trades; a step to be written is no
     * step's letter. A new day: it is the current one, or an earlier one, too. */
    VELICHUNDAM_OUT_OF_RANGE = 3,
    /* Trade, merge: the new id has a record already, under whatever suffix. */
    VELICHUNDAM_ID_TAKEN = 4,
    /* There is no such record. For lineage also: a parent row is missing. The reporting list: an inverse of the current day lacks its parent row. */
    VELICHUNDAM_NO_RECORD = 5,
    /* The record's account or series is not the one named. */
    VELICHUNDAM_ELSEWHERE = 6,
    /* The record's status is not 0: it is adjusted, or an inverse. A step after the opening of a give-up: its status is not 3. */
    VELICHUNDAM_NOT_ADJUSTABLE = 7,
    /* Transfer, merge, each step of a give-up: the record is to close. */
    VELICHUNDAM_TO_CLOSE = 8,
    /* Merge: this pair stood earlier in the list. */
    VELICHUNDAM_TWICE = 9,
    /* Merge: the side differs from the first source's. */
    VELICHUNDAM_OTHER_SIDE = 10,
    /* Separation: the parts don't sum to the quantity. Merge: the quantities sum to more than 1,000,000. */
    VELICHUNDAM_WRONG_SUM = 11,
    /* Transfer, the step that completes a give-up: the old account holds less than the quantity, long for a buy and short for a sell. */
    VELICHUNDAM_NOT_HELD = 12,
    /* An id would need a suffix above 65,535. */
    VELICHUNDAM_NO_SUFFIX = 13,
    /* The new rows don't fit into the records table's room. A call that writes: the line doesn't fit into the text. The reporting list: the pairs
     * don't fit into the cells lent for them, two for each record. */
    VELICHUNDAM_RECORDS_FULL = 14,
    /* The rows that are needed and absent don't fit into the positions table's room. */
    VELICHUNDAM_POSITIONS_FULL = 15,
    /* Long, short, cash, quantity or value of a position would leave its range: as it would stand after the whole request, in a list of trades
     * after each trade, in a replay after each line. */
    VELICHUNDAM_BEYOND_LIMIT = 16,
    /* Separation, transfer, merge, the opening of a give-up: the record's status is 3, it is under give-up. */
    VELICHUNDAM_BEING_GIVEN_UP = 17,
    /* The opening of a give-up: there is a process with this id, whatever its stage. A later step: there is none, or its id, suffix, accounts or
     * series are not those named, or it is not this step's turn, or this approval was given before. Tested after 3. */
    VELICHUNDAM_OUT_OF_TURN = 18,
    /* A step of a give-up: the process table is not sound. Tested after 2. */
    VELICHUNDAM_PROCESSES_NOT_SOUND = 19,
    /* The opening of a give-up: the process doesn't fit into the process table's room. Tested last. */
    VELICHUNDAM_PROCESSES_FULL = 23
};

/*
 * What the number of a refusal means, in words for a person. They are the same whatever the request was; the comments above say more. Any other
 * number is an unknown refusal.
 */
static inline const char *velichundam_why(int64_t number)
{
    switch (number) {
    case VELICHUNDAM_RECORDS_NOT_SOUND: return "the records table is not sound";
    case VELICHUNDAM_POSITIONS_NOT_SOUND: return "the positions table is not sound";
    case VELICHUNDAM_OUT_OF_RANGE: return "a figure or a count is out of range";
    case VELICHUNDAM_ID_TAKEN: return "the new id has a record";
    case VELICHUNDAM_NO_RECORD: return "no such record";
    case VELICHUNDAM_ELSEWHERE: return "the record is of another account or series";
    case VELICHUNDAM_NOT_ADJUSTABLE: return "the record's status does not allow it";
    case VELICHUNDAM_TO_CLOSE: return "the record is to close";
    case VELICHUNDAM_TWICE: return "this pair stood earlier in the list";
    case VELICHUNDAM_OTHER_SIDE: return "the side differs from the first source's";
    case VELICHUNDAM_WRONG_SUM: return "the sum of the quantities does not fit";
    case VELICHUNDAM_NOT_HELD: return "the account holds less than the quantity";
    case VELICHUNDAM_NO_SUFFIX: return "no suffix is left";
    case VELICHUNDAM_RECORDS_FULL: return "no room for the records or the text";
    case VELICHUNDAM_POSITIONS_FULL: return "no room for the new positions";
    case VELICHUNDAM_BEYOND_LIMIT: return "a position would leave its range";
    case VELICHUNDAM_BEING_GIVEN_UP: return "the record is under give-up";
    case VELICHUNDAM_OUT_OF_TURN: return "the process is taken, unknown or not at this step";
    case VELICHUNDAM_PROCESSES_NOT_SOUND: return "the process table is not sound";
    case VELICHUNDAM_PROCESSES_FULL: return "no room for the new process";
    default: return "unknown refusal";
    }
}

/*
 * Books a trade under a new id: one record with suffix 0.
 *
 * Buy open adds the quantity to the position's long, sell open to its short. Buy close takes it off the open short, sell close off the open long;
 * what is not open is booked on the other side, the record's type is 10, and the answer is a closing error with that excess. The position's totals
 * move by the whole signed quantity, opened and closed, and by that times the price.
 *
 * Answers booked (1 row), or a closing error. Refuses by 1, 2, 3, 4, 14, 15, 16.
 */
velichundam_reply velichundam_trade(int64_t *records, size_t records_len, int64_t *positions, size_t positions_len,
    int64_t id, int64_t account, int64_t series, int64_t side, int64_t quantity, int64_t price);

/*
 * Books a list of trades, each as velichundam_trade does, one by one up to the first that is refused. trades holds id, account, series, side,
 * quantity, price, id, ..: trades_len is six times the number of trades, 1 to 1,000. A trade sees what those before it in the list have booked.
 * excess has a cell for each listed trade, or more. The cell of a booked trade gets the excess of its closing error, 0 if it has none; the cells of
 * trades that are not booked, and those past the trades, stay as they were.
 *
 * Answers booked (a row for each trade) where all are booked. Otherwise stopped: how many were booked, which is also the refused trade's place in
 * the list from 0, and that trade's refusal, by 3, 4, 14, 15 or 16 with place 0. It and those after it change nothing. A figure out of range in a
 * trade is that trade's refusal, so the list stops there.
 *
 * Refuses by 1, 2, and by 3 for the list as a whole: its length, the number of trades, or fewer cells of excess than trades. Nothing is written then.
 */
velichundam_reply velichundam_trades(int64_t *records, size_t records_len, int64_t *positions, size_t positions_len,
    const int64_t *trades, size_t trades_len, int64_t *excess, size_t excess_len);

/*
 * Separates a record into parts, which use up its whole quantity. The record becomes adjusted; an inverse row and a row for each part follow, with
 * the id's next suffixes. The position does not move, nor do its totals.
 *
 * Answers booked (1 + parts_len rows). Refuses by 1, 2, 3, 5, 6, 7 or 17, 11, 13, 14.
 */
velichundam_reply velichundam_separate(int64_t *records, size_t records_len, int64_t *positions, size_t positions_len,
    int64_t id, int64_t suffix, int64_t account, int64_t series, const int64_t *parts, size_t parts_len);

/*
 * Moves a record to open, and its quantity, to another account. The record becomes adjusted; an inverse row in the old account and a row in the new
 * one follow, with the id's next suffixes. Both positions move, with their totals.
 *
 * Answers booked (2 rows). Refuses by 1, 2, 3, 5, 6, 7 or 17, 8, 12, 13, 14, 15, 16.
 */
velichundam_reply velichundam_transfer(int64_t *records, size_t records_len, int64_t *positions, size_t positions_len,
    int64_t id, int64_t suffix, int64_t from, int64_t to, int64_t series);

/*
 * Merges records to open of one account, series and side into one under a new id, at their average price, a half going away from zero.
 * pairs holds id, suffix, id, suffix, ..: pairs_len is twice the number of sources. Each source becomes adjusted and gets an inverse row whose
 * cell into is the new id. What the rounding leaves, the residual, goes to the position's cash and to its value, in price units times quantity.
 * A record that an earlier release merged, a half going to the greater number, keeps its price and is handled like any other.
 *
 * Answers booked (a row for each source and one more, and the residual). Refuses by 1, 2, 3, 4, 5 to 10 and 17 with their place, 11, 13,
 * 14, 15, 16.
 */
velichundam_reply velichundam_merge(int64_t *records, size_t records_len, int64_t *positions, size_t positions_len,
    int64_t id, int64_t account, int64_t series, const int64_t *pairs, size_t pairs_len);

/*
 * The six steps of a give-up. Each names the process, the record, the giving and the taking account and the series; the steps after the opening
 * name what the opening did. See GIVE-UP AND TAKE-UP above for who may do what, and when.
 */

/*
 * Opens a give-up of a record to open: the giving account's member offers it to another account. The process id is new. The record's status becomes
 * 3, and a pending process without approvals goes where its process id belongs.
 *
 * Answers booked (0 rows). Refuses by 1, 2, 19, 3, 18, 5, 6, 7 or 17, 8, 23. Whether the account holds the quantity (12) is tested when the give-up
 * is completed.
 */
velichundam_reply velichundam_give_up_open(int64_t *records, size_t records_len, int64_t *positions, size_t positions_len,
    int64_t *processes, size_t processes_len,
    int64_t process, int64_t id, int64_t suffix, int64_t giving, int64_t taking, int64_t series);

/*
 * The taker claims: a pending process becomes claimed. (On a table that these calls did not make, a pending process may have both approvals; then
 * the claim completes the give-up, and answers and refuses as an approval does that completes it.)
 *
 * Answers booked (0 rows). Refuses by 1, 2, 19, 3, 18, 5, 6, 7, 8.
 */
velichundam_reply velichundam_give_up_claim(int64_t *records, size_t records_len, int64_t *positions, size_t positions_len,
    int64_t *processes, size_t processes_len,
    int64_t process, int64_t id, int64_t suffix, int64_t giving, int64_t taking, int64_t series);

/*
 * The initiator takes the give-up back: a pending process becomes cancelled, and the record's status 0 again.
 *
 * Answers booked (0 rows). Refuses by 1, 2, 19, 3, 18, 5, 6, 7, 8.
 */
velichundam_reply velichundam_give_up_cancel(int64_t *records, size_t records_len, int64_t *positions, size_t positions_len,
    int64_t *processes, size_t processes_len,
    int64_t process, int64_t id, int64_t suffix, int64_t giving, int64_t taking, int64_t series);

/*
 * The taker refuses: a pending process becomes refused, and the record's status 0 again.
 *
 * Answers booked (0 rows). Refuses by 1, 2, 19, 3, 18, 5, 6, 7, 8.
 */
velichundam_reply velichundam_give_up_refuse(int64_t *records, size_t records_len, int64_t *positions, size_t positions_len,
    int64_t *processes, size_t processes_len,
    int64_t process, int64_t id, int64_t suffix, int64_t giving, int64_t taking, int64_t series);

/*
 * The giver's clearing member approves, once, while the process is pending or claimed. Where it is claimed and the taker's clearing member has
 * approved, this completes the give-up.
 *
 * Answers booked (0 rows, or 2 where it completes). Refuses by 1, 2, 19, 3, 18, 5, 6, 7, 8, and where it would complete by 12, 13, 14, 15, 16.
 */
velichundam_reply velichundam_give_up_approve_giver(int64_t *records, size_t records_len, int64_t *positions, size_t positions_len,
    int64_t *processes, size_t processes_len,
    int64_t process, int64_t id, int64_t suffix, int64_t giving, int64_t taking, int64_t series);

/*
 * The taker's clearing member approves, once, while the process is claimed. Where the giver's clearing member has approved, this completes the
 * give-up.
 *
 * Answers booked (0 rows, or 2 where it completes). Refuses by 1, 2, 19, 3, 18, 5, 6, 7, 8, and where it would complete by 12, 13, 14, 15, 16.
 */
velichundam_reply velichundam_give_up_approve_taker(int64_t *records, size_t records_len, int64_t *positions, size_t positions_len,
    int64_t *processes, size_t processes_len,
    int64_t process, int64_t id, int64_t suffix, int64_t giving, int64_t taking, int64_t series);

/*
 * Follows a record from parent to parent to suffix 0, the original. Writes nothing.
 *
 * Answers lineage: the original's price, and the number of links. Refuses by 1, 3, 5.
 */
velichundam_reply velichundam_lineage(const int64_t *records, size_t records_len, int64_t id, int64_t suffix);

/*
 * Moves the current day forward, to a later one. No cell but the current day changes: rows keep the day on which they were booked. It is not lent the
 * positions, so they may be unsound. See DAYS AND THE REPORTING LIST above.
 *
 * Answers booked (0 rows). Refuses by 1, and by 3 where the day is out of range or not after the current one.
 */
velichundam_reply velichundam_day(int64_t *records, size_t records_len, int64_t day);

/*
 * Lists the records of the current day that are reported at its end, in table order: pairs gets id, suffix, id, suffix, .. from its first cell on. The
 * cells past the last pair stay as they were. See DAYS AND THE REPORTING LIST above for which records these are.
 *
 * Answers listed (the records, each of which has two cells). Refuses by 1, 5, 14, and writes no cell then; 14 where pairs_len is below two cells for
 * each record. The call may be made again at any time of the day: it changes nothing but the pairs.
 */
velichundam_reply velichundam_reportable(const int64_t *records, size_t records_len, int64_t *pairs, size_t pairs_len);

/*
 * The seven calls that write a request as a line of a journal. See THE JOURNAL above. They are lent no table, and don't know whether the request was
 * accepted: the host writes those that were.
 *
 * Each writes from the first byte of text on, at most VELICHUNDAM_TRADE_LINE bytes and so on; a host that appends lends the rest of its buffer. The
 * bytes past what is written stay as they were.
 *
 * Answers written (the bytes). Refuses by 3 what its own call would refuse by 3, of a day its range alone, then by 14 where text is too short; the text
 * is left as it was.
 */

/* Writes the line of a trade. */
velichundam_reply velichundam_write_trade(uint8_t *text, size_t text_len,
    int64_t id, int64_t account, int64_t series, int64_t side, int64_t quantity, int64_t price);

/*
 * Writes a line for each of 1 to 1,000 trades, six figures each: of a list that stopped, those that it booked. Refuses by 3 also where one of the
 * trades has a figure out of range.
 */
velichundam_reply velichundam_write_trades(uint8_t *text, size_t text_len, const int64_t *trades, size_t trades_len);

/* Writes the line of a separation. */
velichundam_reply velichundam_write_separation(uint8_t *text, size_t text_len,
    int64_t id, int64_t suffix, int64_t account, int64_t series, const int64_t *parts, size_t parts_len);

/* Writes the line of an account transfer. */
velichundam_reply velichundam_write_transfer(uint8_t *text, size_t text_len,
    int64_t id, int64_t suffix, int64_t from, int64_t to, int64_t series);

/* Writes the line of a merge. */
velichundam_reply velichundam_write_merge(uint8_t *text, size_t text_len,
    int64_t id, int64_t account, int64_t series, const int64_t *pairs, size_t pairs_len);

/* Writes the line of a step of a give-up; step is one of VELICHUNDAM_STEP_OPEN and so on, another number is refused 3. */
velichundam_reply velichundam_write_give_up(uint8_t *text, size_t text_len,
    int64_t step, int64_t process, int64_t id, int64_t suffix, int64_t giving, int64_t taking, int64_t series);

/* Writes the line of a new day, from 1 to 99,999, whatever the current day is. */
velichundam_reply velichundam_write_day(uint8_t *text, size_t text_len, int64_t day);

/*
 * Replays a journal: each line's request is handled as by its own call, line by line up to the first that is bad or refused. A line is bad where it is
 * none that the calls above write; so one whose figures fail test 3 is bad, and so are an empty line, a line of another letter and a last line without
 * its newline. The lines before the one that is named stay booked; it and those after it change nothing.
 *
 * Answers replayed (the lines) where all are booked, which an empty text is, whatever the tables hold. Otherwise a bad line (its place from 1), or a
 * refused line (its place from 1, and its request's refusal; by 3 only a day that is not after the current one). Tables that are not sound refuse the
 * first line, by 1 or 2, but days are booked beside unsound positions up to the first line of another kind; a process table that is not sound refuses
 * only the lines of give-ups, by 19.
 */
velichundam_reply velichundam_replay(int64_t *records, size_t records_len, int64_t *positions, size_t positions_len,
    int64_t *processes, size_t processes_len, const uint8_t *text, size_t text_len);

#ifdef __cplusplus
}
#endif

#endif
