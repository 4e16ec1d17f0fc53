/* The calls of crates/exports/out/libexports.a (`rt lib` in crates/exports), for C and C++. Their promises are in crates/exports.
 * Server is station, request is scan, transfer is send, cost is bill in the printed page's words.
 *
 * A call whose name ends in _with takes the bytes of a price file, first of its arguments, and judges them each time: 37 and 38 come before all other
 * refusals. A caller without a price file uses the other names, for which the built-in table of eight classes holds. Of these class 7 is no longer
 * sold: caching_write and caching_start refuse it with 43, right after 3, and every other call takes its logs. With a price file there is no 43.
 *
 * A call whose name has uploads in it takes an upload price, from 1 to 1,000,000, right before the log: there every server can have a copy uploaded at
 * any second for that price. Any other price, 0 too, is refused with 44, right after 13. The calls without uploads in their names know none; nor do the
 * cache and the quote.
 *
 * A cache serves one file: its state carries the id that its start was given, and each scan brings the id of the file that was asked for. A scan of
 * another file is refused with 39: the gate read another pass, the state is as it was, and nothing is charged. 39 comes after 11, 12, 32 and 33, and
 * before 34 and 35.
 *
 * What the caller has to see to; of what is handed in nothing else is asked:
 * - each pointer has as many elements behind it as the length after it says; with length 0 it may be null;
 * - an output that is lent overlaps nothing else that the call is given: where it does, a wrong answer can come back as accepted;
 * - `closed` is 0 or 1: any other byte is not a bool;
 * - the stack has room: a plan takes 101 KB of it and least costs 50 KB, with a price file or an upload price or without, a week page 175 KB; any
 *   other call takes less than 3 KB (measured on x86-64).
 *
 * A refused call gives the refusal's number and place, and values 0. What it was lent is left as it was; a read gives a header of zeros, a scan
 * and a close give the state back as it was handed in, a start gives a state of zeros. An accepted call gives number 0, place 0 and its values; what
 * it was lent has the answer at its front, and zeros after it. */
#ifndef CACHING_H
#define CACHING_H

#include <stdbool.h>
#include <stddef.h>
#include <stdint.h>

#ifdef __cplusplus
extern "C" {
#endif

/* number 0 and up to two values, or a refusal's number and place */
struct caching_answer {
    uint32_t number;
    uint64_t place;
    uint64_t value;
    uint64_t more;
};

/* the id of a file: any sixteen bytes */
struct caching_id {
    uint8_t bytes[16];
};

/* what a log says of its file, and a start is given */
struct caching_header {
    uint8_t file_class;
    uint8_t server_count;
    uint8_t home;
    struct caching_id id;
};

struct caching_read_answer {
    struct caching_header header;
    struct caching_answer answer;
};

/* the hold price of a copy and second, and the transfer price */
struct caching_prices {
    uint32_t hold;
    uint32_t transfer;
};

/* the online cache: every field may be read, and a state that no call gave back is refused (32) or served as it stands; its prices need not be of
 * any table */
struct caching_cache {
    struct caching_prices prices;
    struct caching_id id;
    uint8_t server_count;
    uint16_t last;
    uint32_t second;
    uint32_t last_use[64];
    uint64_t holders;
    uint32_t requests;
    uint32_t transfers;
    uint32_t held;
    bool closed;
};

struct caching_cache_answer {
    struct caching_cache cache;
    struct caching_answer answer;
};

/* running: the running cost after the scan, 0 where it is refused */
struct caching_scan_answer {
    struct caching_cache cache;
    struct caching_answer answer;
    uint64_t running;
};

/* a game: how many servers, home is 0, and how many requests, the largest gap in seconds, the prices, and the limit p over q */
struct caching_game {
    uint32_t servers;
    uint32_t requests;
    uint32_t largest;
    struct caching_prices prices;
    uint32_t p;
    uint32_t q;
};

/* the sum of a log's bytes */
uint32_t caching_sum(const uint8_t *log, size_t log_length);

/* value: the number of requests */
struct caching_read_answer caching_read(const uint8_t *log, size_t log_length, uint32_t *seconds, size_t seconds_length,
                                        uint16_t *servers, size_t servers_length);

struct caching_read_answer caching_read_with(const uint8_t *prices, size_t prices_length, const uint8_t *log, size_t log_length,
                                             uint32_t *seconds, size_t seconds_length, uint16_t *servers, size_t servers_length);

/* value: the number of bytes written; 43 for class 7 */
struct caching_answer caching_write(struct caching_header header, const uint32_t *seconds, size_t seconds_length,
                                    const uint16_t *servers, size_t servers_length, uint8_t *log, size_t log_length);

struct caching_answer caching_write_with(const uint8_t *prices, size_t prices_length, struct caching_header header, const uint32_t *seconds,
                                         size_t seconds_length, const uint16_t *servers, size_t servers_length, uint8_t *log,
                                         size_t log_length);

/* rows_length counts numbers, four for each row: 0, server, from, to; 1, source, target, second; with an upload price also 2, target, second, 0.
 * value: the cost of the rows */
struct caching_answer caching_check(const uint8_t *log, size_t log_length, const uint32_t *rows, size_t rows_length);

struct caching_answer caching_check_with(const uint8_t *prices, size_t prices_length, const uint8_t *log, size_t log_length,
                                         const uint32_t *rows, size_t rows_length);

struct caching_answer caching_check_uploads(uint32_t upload, const uint8_t *log, size_t log_length, const uint32_t *rows, size_t rows_length);

struct caching_answer caching_check_uploads_with(const uint8_t *prices, size_t prices_length, uint32_t upload, const uint8_t *log,
                                                 size_t log_length, const uint32_t *rows, size_t rows_length);

/* marks are the letters K and S, with an upload price also U; a transfer leaves the server nearest its target of those that hold the file, the lower of two.
 * rows_length counts numbers, four for each row, and so does the place of 31 where rows are too short.
 * value: the least cost; more: how many rows, not numbers */
struct caching_answer caching_plan(const uint8_t *log, size_t log_length, uint8_t *marks, size_t marks_length,
                                   uint32_t *rows, size_t rows_length);

struct caching_answer caching_plan_with(const uint8_t *prices, size_t prices_length, const uint8_t *log, size_t log_length, uint8_t *marks,
                                        size_t marks_length, uint32_t *rows, size_t rows_length);

struct caching_answer caching_plan_uploads(uint32_t upload, const uint8_t *log, size_t log_length, uint8_t *marks, size_t marks_length,
                                           uint32_t *rows, size_t rows_length);

struct caching_answer caching_plan_uploads_with(const uint8_t *prices, size_t prices_length, uint32_t upload, const uint8_t *log,
                                                size_t log_length, uint8_t *marks, size_t marks_length, uint32_t *rows, size_t rows_length);

/* value: how many costs, one for each number of first requests, from none to all */
struct caching_answer caching_least(const uint8_t *log, size_t log_length, uint64_t *costs, size_t costs_length);

struct caching_answer caching_least_with(const uint8_t *prices, size_t prices_length, const uint8_t *log, size_t log_length,
                                         uint64_t *costs, size_t costs_length);

struct caching_answer caching_least_uploads(uint32_t upload, const uint8_t *log, size_t log_length, uint64_t *costs, size_t costs_length);

struct caching_answer caching_least_uploads_with(const uint8_t *prices, size_t prices_length, uint32_t upload, const uint8_t *log,
                                                 size_t log_length, uint64_t *costs, size_t costs_length);

/* value: the quote, which is at least the least cost and at most twice that. It is a sum: for each request the smaller of the transfer price and the hold
 * price times the seconds since its server's previous request (home has one at second 0), or the transfer price if there was none; and the hold price
 * times the last request's second. 0 for an empty log */
struct caching_answer caching_quote(const uint8_t *log, size_t log_length);

struct caching_answer caching_quote_with(const uint8_t *prices, size_t prices_length, const uint8_t *log, size_t log_length);

/* text is the week page, in ASCII: how many seconds each server holds the file under the plan on each of seven days, with sums. A day has 86,400 seconds, the
 * first from second 0. A line has the server in 2 columns, seven days of 8 and their sum of 9, and a newline, so 68 bytes; there is one for each server, then
 * one of column sums: servers + 1 lines, at most 4,420 bytes. 36, after 13 and before 31: the last request is after second 604,800. There is no page with a
 * price file or an upload price.
 * value: the length of the page */
struct caching_answer caching_page(const uint8_t *log, size_t log_length, uint8_t *text, size_t text_length);

/* the state has the prices of the class and the file's id; 43 for class 7 */
struct caching_cache_answer caching_start(struct caching_header header);

struct caching_cache_answer caching_start_with(const uint8_t *prices, size_t prices_length, struct caching_header header);

/* value 0: kept; value 1: sent, more: from which server; 39 for an id that is not the state's */
struct caching_scan_answer caching_scan(struct caching_cache cache, struct caching_id id, uint32_t second, uint16_t server);

/* value: the running cost, of a closed state too */
struct caching_answer caching_running(struct caching_cache cache);

/* value: the closing cost, which is the running cost and the holding of each standing copy from the last scan's second to the end of its window */
struct caching_cache_answer caching_close(struct caching_cache cache);

/* value: 1 where the keeper can force a win against a contrary guest, 0 where the guest can; 46 where a size is not from 1 to 3, a price not from 1 to
 * 1,000,000, or p or q not from 1 to 1,000 (docs/GAME.md) */
struct caching_answer caching_play(struct caching_game game);

#ifdef __cplusplus
}
#endif

#endif
