/* Every call of include/caching.h once, on the week of document 01's case C, as C links it, those with an upload price out of range too, a scan of
 * another file, a write and a start of the class that is no longer sold, then those with a price file; and some games; prints what each gives. */
#include "../../include/caching.h"
#include <stdio.h>
#include <string.h>

static void say(const char *name, struct caching_answer a)
{
    printf("%s: %u %llu %llu %llu\n", name, (unsigned)a.number, (unsigned long long)a.place, (unsigned long long)a.value,
           (unsigned long long)a.more);
}

int main(void)
{
    const uint32_t seconds[4] = {1, 2, 11, 12};
    const uint16_t servers[4] = {1, 2, 1, 0};
    struct caching_header header = {0, 3, 0, {{0}}};
    memcpy(header.id.bytes, "0123456789abcdef", 16);
    struct caching_id other = header.id;
    other.bytes[15] = 'g';

    uint8_t log[64];
    say("write", caching_write(header, seconds, 4, servers, 4, log, 64));
    say("write short", caching_write(header, seconds, 4, servers, 4, log, 63));
    printf("sum as written: %d\n", caching_sum(log, 64) == (log[20] | log[21] << 8 | log[22] << 16 | (uint32_t)log[23] << 24));

    uint32_t seconds_read[5] = {9, 9, 9, 9, 9};
    uint16_t servers_read[5] = {9, 9, 9, 9, 9};
    struct caching_read_answer read = caching_read(log, 64, seconds_read, 5, servers_read, 5);
    say("read", read.answer);
    printf("read back: %d %d %d\n", memcmp(&read.header, &header, sizeof header) == 0,
           memcmp(seconds_read, seconds, sizeof seconds) == 0 && seconds_read[4] == 0,
           memcmp(servers_read, servers, sizeof servers) == 0 && servers_read[4] == 0);
    say("read nothing", caching_read(NULL, 0, NULL, 0, NULL, 0).answer);

    uint8_t marks[4];
    uint32_t rows[32];
    struct caching_answer plan = caching_plan(log, 64, marks, 4, rows, 32);
    say("plan", plan);
    printf("marks: %.4s\n", (const char *)marks);
    say("check", caching_check(log, 64, rows, 4 * plan.more));
    say("check nothing", caching_check(log, 64, NULL, 0));

    uint64_t costs[5];
    say("least", caching_least(log, 64, costs, 5));
    for (int k = 0; k < 5; k++)
        printf("least %d: %llu\n", k, (unsigned long long)costs[k]);

    plan = caching_plan_uploads(10, log, 64, marks, 4, rows, 32);
    say("plan uploads", plan);
    printf("marks: %.4s\n", (const char *)marks);
    say("check uploads", caching_check_uploads(10, log, 64, rows, 4 * plan.more));
    say("check uploads dearer", caching_check_uploads(1000000, log, 64, rows, 4 * plan.more));
    say("check no uploads", caching_check(log, 64, rows, 4 * plan.more));
    say("least uploads", caching_least_uploads(10, log, 64, costs, 5));
    for (int k = 0; k < 5; k++)
        printf("least %d: %llu\n", k, (unsigned long long)costs[k]);
    say("plan uploads for 0", caching_plan_uploads(0, log, 64, marks, 4, rows, 32));
    say("check uploads for 0", caching_check_uploads(0, log, 64, rows, 3));
    say("least uploads for too much", caching_least_uploads(1000001, log, 64, costs, 5));
    printf("as it was: %.4s %llu\n", (const char *)marks, (unsigned long long)costs[4]);
    say("plan uploads nothing", caching_plan_uploads(0, NULL, 0, NULL, 0, NULL, 0));
    say("check uploads nothing", caching_check_uploads(10, log, 64, NULL, 0));
    say("least uploads short", caching_least_uploads(10, log, 64, NULL, 0));

    say("quote", caching_quote(log, 64));
    say("quote nothing", caching_quote(NULL, 0));

    uint8_t page[300];
    memset(page, '.', 300);
    say("page short", caching_page(log, 64, page, 271));
    printf("as it was: %.3s %.3s\n", (const char *)page, (const char *)page + 268);
    say("page", caching_page(log, 64, page, 272));
    printf("%.274s\n", (const char *)page);
    say("page with more", caching_page(log, 64, page, 300));
    printf("zeros after it: %d\n", page[271] == '\n' && page[272] == 0 && page[299] == 0);
    say("page nothing", caching_page(NULL, 0, NULL, 0));
    uint8_t late[46];
    uint32_t second = 604800;
    caching_write(header, &second, 1, servers, 1, late, 46);
    say("page of the last second", caching_page(late, 46, page, 300));
    printf("%.272s", (const char *)page);
    second++;
    caching_write(header, &second, 1, servers, 1, late, 46);
    say("page of one more", caching_page(late, 46, page, 300));
    say("page of one more, short", caching_page(late, 46, NULL, 0));

    struct caching_cache_answer live = caching_start(header);
    say("start", live.answer);
    printf("id: %d\n", memcmp(&live.cache.id, &header.id, sizeof header.id) == 0);
    struct caching_scan_answer scan = caching_scan(live.cache, other, seconds[0], servers[0]);
    say("scan of another id", scan.answer);
    for (int k = 0; k < 4; k++) {
        scan = caching_scan(scan.cache, header.id, seconds[k], servers[k]);
        say("scan", scan.answer);
        printf("running: %llu\n", (unsigned long long)scan.running);
    }
    live.cache = scan.cache;
    say("scan of another id", caching_scan(live.cache, other, 12, 0).answer);
    say("running", caching_running(live.cache));
    live = caching_close(live.cache);
    say("close", live.answer);
    say("close again", caching_close(live.cache).answer);
    say("scan of another id after it", caching_scan(live.cache, other, 13, 0).answer);
    say("running still", caching_running(live.cache));

    uint8_t same[64];
    memcpy(same, log, 64);
    header.file_class = 7;
    say("write class 7", caching_write(header, seconds, 4, servers, 4, log, 64));
    printf("as it was: %d\n", memcmp(same, log, 64) == 0);
    live = caching_start(header);
    say("start class 7", live.answer);
    say("scan of zeros", caching_scan(live.cache, header.id, 1, 1).answer);

    /* two classes, 5 and 3, 2 and 20; the same with one byte less, and with a price of 0 */
    const uint8_t prices[20] = {2, 0, 4, 0, 5, 0, 0, 0, 3, 0, 0, 0, 2, 0, 0, 0, 20, 0, 0, 0};
    uint8_t wrong[20];
    memcpy(wrong, prices, 20);
    wrong[12] = 0;
    header.file_class = 1;
    say("write with", caching_write_with(prices, 20, header, seconds, 4, servers, 4, log, 64));
    say("write with wrong", caching_write_with(wrong, 20, header, seconds, 4, servers, 4, log, 64));
    read = caching_read_with(prices, 20, log, 64, seconds_read, 5, servers_read, 5);
    say("read with", read.answer);
    printf("read back: %d\n", memcmp(&read.header, &header, sizeof header) == 0);
    say("read with short", caching_read_with(prices, 19, NULL, 0, NULL, 0, NULL, 0).answer);
    plan = caching_plan_with(prices, 20, log, 64, marks, 4, rows, 32);
    say("plan with", plan);
    printf("marks: %.4s\n", (const char *)marks);
    say("plan with wrong", caching_plan_with(wrong, 20, log, 64, marks, 4, rows, 32));
    say("check with", caching_check_with(prices, 20, log, 64, rows, 4 * plan.more));
    say("check with nothing", caching_check_with(NULL, 0, log, 64, rows, 4 * plan.more));
    say("least with", caching_least_with(prices, 20, log, 64, costs, 5));
    for (int k = 0; k < 5; k++)
        printf("least %d: %llu\n", k, (unsigned long long)costs[k]);
    say("least with wrong", caching_least_with(wrong, 20, log, 64, costs, 5));
    plan = caching_plan_uploads_with(prices, 20, 21, log, 64, marks, 4, rows, 32);
    say("plan uploads with", plan);
    printf("marks: %.4s\n", (const char *)marks);
    say("plan uploads with wrong", caching_plan_uploads_with(wrong, 20, 0, log, 64, marks, 4, rows, 32));
    say("check uploads with", caching_check_uploads_with(prices, 20, 21, log, 64, rows, 4 * plan.more));
    say("check uploads with for 0", caching_check_uploads_with(prices, 20, 0, log, 64, rows, 4 * plan.more));
    say("check uploads with nothing", caching_check_uploads_with(NULL, 0, 21, log, 64, rows, 4 * plan.more));
    say("least uploads with", caching_least_uploads_with(prices, 20, 21, log, 64, costs, 5));
    for (int k = 0; k < 5; k++)
        printf("least %d: %llu\n", k, (unsigned long long)costs[k]);
    say("least uploads with wrong", caching_least_uploads_with(wrong, 20, 21, log, 64, costs, 5));
    say("quote with", caching_quote_with(prices, 20, log, 64));
    say("quote with wrong", caching_quote_with(wrong, 20, log, 64));
    say("quote with nothing", caching_quote_with(NULL, 0, log, 64));

    header.file_class = 2;
    say("start with no such class", caching_start_with(prices, 20, header).answer);
    header.file_class = 1;
    live = caching_start_with(prices, 20, header);
    say("start with", live.answer);
    printf("prices: %u %u\n", (unsigned)live.cache.prices.hold, (unsigned)live.cache.prices.transfer);
    scan = caching_scan(live.cache, header.id, 1, 1);
    say("scan", scan.answer);
    printf("running: %llu\n", (unsigned long long)scan.running);
    say("close", caching_close(scan.cache).answer);
    scan.cache.prices.hold = 1000001;
    say("close with a price above the highest", caching_close(scan.cache).answer);

    /* servers, requests, largest gap, prices, p and q */
    struct caching_game game = {2, 2, 1, {1, 1}, 4, 3};
    say("play at 4/3", caching_play(game));
    game.p = 133;
    game.q = 100;
    say("play at 133/100", caching_play(game));
    game.prices.transfer = 10;
    say("play with a dearer transfer", caching_play(game));
    /* a game, and the same with each of its seven numbers out of range */
    const struct caching_game games[8] = {
        {3, 3, 3, {3, 7}, 45, 29}, {4, 3, 3, {3, 7}, 45, 29},       {3, 0, 3, {3, 7}, 45, 29},   {3, 3, 4, {3, 7}, 45, 29},
        {3, 3, 3, {0, 7}, 45, 29}, {3, 3, 3, {3, 1000001}, 45, 29}, {3, 3, 3, {3, 7}, 1001, 29}, {3, 3, 3, {3, 7}, 45, 0},
    };
    for (int k = 0; k < 8; k++)
        say("play", caching_play(games[k]));
    return 0;
}
