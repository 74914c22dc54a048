/* Calls each function of liq.h as a C program would, and looks at all that comes back.
 *
 *     cc -std=c11 -O2 -Wall -Wextra -Werror test.c libliq.a -o test -pthread \
 *        -Wl,--wrap=malloc,--wrap=realloc,--wrap=free && ./test
 *
 * The library's memory is counted on the way to malloc, and is refused there at a chosen call. It
 * ends with "ok", or says at which line something is not as it should be, and ends with 1. */
#include "liq.h"

#include <malloc.h>
#include <pthread.h>
#include <stdatomic.h>
#include <stdio.h>
#include <stdlib.h>
#include <string.h>

_Static_assert(sizeof(liq_done) == 16, "as the library has it: a count, a status, a gap");
_Static_assert(sizeof(liq_text_done) == 24, "as the library has it: two counts, a status, a gap");

#define CHECK(holds)                                                                               \
    do {                                                                                           \
        if (!(holds)) {                                                                            \
            fprintf(stderr, "%s:%d: not so: %s\n", __FILE__, __LINE__, #holds);                    \
            exit(1);                                                                               \
        }                                                                                          \
    } while (0)

/* ---- memory, counted and refused */

void *__real_malloc(size_t n);
void *__real_realloc(void *p, size_t n);
void __real_free(void *p);

static atomic_long in_use;              /* bytes */
static atomic_long calls;               /* to malloc and realloc */
static _Thread_local long refused = -1; /* the call that is refused, counted from 0; -1: none */

static int refuses(void) {
    calls++;
    return refused >= 0 && refused-- == 0;
}

void *__wrap_malloc(size_t n) {
    if (refuses())
        return NULL;
    void *p = __real_malloc(n);
    if (p)
        in_use += (long)malloc_usable_size(p);
    return p;
}

void *__wrap_realloc(void *p, size_t n) {
    if (refuses())
        return NULL;
    long had = p ? (long)malloc_usable_size(p) : 0;
    void *q = __real_realloc(p, n);
    if (q)
        in_use += (long)malloc_usable_size(q) - had;
    return q;
}

void __wrap_free(void *p) {
    if (p)
        in_use -= (long)malloc_usable_size(p);
    __real_free(p);
}

/* An array of exactly so many bytes, each of them 0xA5, so that valgrind sees what is written
 * behind it, and the test what is written where nothing should be. */
static void *exact(size_t bytes) {
    void *p = __real_malloc(bytes ? bytes : 1);
    CHECK(p);
    memset(p, 0xA5, bytes);
    return p;
}

static int is_blank(const void *at, size_t bytes) {
    const uint8_t *b = at;
    for (size_t i = 0; i < bytes; i++)
        if (b[i] != 0xA5)
            return 0;
    return 1;
}

/* ---- markets */

static void opens(liq_market *m) { CHECK(liq_open(m) == LIQ_OK); }

/* One command under its client's next number, which has to be accepted. */
static void accepted_at(int line, liq_market *m, liq_command c) {
    liq_reply r;
    liq_done d = liq_next(m, &c, 1, &r, 1);
    if (d.done == 1 && d.status == LIQ_OK && r.kind == LIQ_ACCEPTED)
        return;
    fprintf(stderr, "%s:%d: not accepted: kind %d, %d\n", __FILE__, line, r.kind, r.which);
    exit(1);
}
#define accepted(m, c) accepted_at(__LINE__, m, c)

/* Three troves, a deposit, a price that falls. */
static void fill(liq_market *m) {
    for (uint32_t a = 1; a <= 3; a++) {
        accepted(m, liq_fund(1, 0, a, 20000000000u));
        accepted(m, liq_open_trove(1, 0, a, 10000000000u, 2000000000u + (uint64_t)a * 1000000000u,
                                   LIQ_ANY_FEE));
    }
    accepted(m, liq_provide(2, 0, 1, 1000000000u));
    accepted(m, liq_fund(3, 0, 9, 5));
}

struct bytes {
    uint8_t *at;
    size_t n;
};

static struct bytes saved(liq_market *m) {
    struct bytes s = {NULL, liq_save_size(m)};
    CHECK(s.n > 48);
    s.at = exact(s.n);
    CHECK(liq_save(m, s.at, s.n) == LIQ_OK);
    return s;
}

static int same(struct bytes a, struct bytes b) {
    return a.n == b.n && memcmp(a.at, b.at, a.n) == 0;
}

/* The market is as it was when it was saved. */
static void is_still(liq_market *m, struct bytes was) {
    struct bytes now = saved(m);
    CHECK(same(now, was));
    __real_free(now.at);
}

static int is_empty(const liq_market *m) {
    static const liq_market none;
    return m->state == 0 && memcmp(m->reserved, none.reserved, sizeof none.reserved) == 0;
}

static uint64_t told(liq_market *m, uint32_t topic, uint32_t account, unsigned i) {
    liq_query q = {topic, account};
    liq_reply r;
    liq_done d = liq_ask(m, &q, 1, &r, 1);
    CHECK(d.done == 1 && d.status == LIQ_OK && r.kind == LIQ_TOLD && r.which == topic &&
          i < r.count);
    return liq_low(&r, i);
}

/* ---- the cases */

static void an_empty_place(void) {
    liq_market m = {0};
    liq_market other = {0};
    liq_command c = liq_fund(1, 1, 1, 1), before = c;
    liq_query q = {LIQ_POOLS, 0};
    liq_reply r;
    uint8_t out[300];
    uint32_t accounts[2];
    memset(&r, 0xA5, sizeof r);
    memset(out, 0xA5, sizeof out);
    memset(accounts, 0xA5, sizeof accounts);
    liq_done d = liq_do(&m, &c, 1, &r, 1);
    CHECK(d.done == 0 && d.status == LIQ_NO_MARKET);
    d = liq_next(&m, &c, 1, &r, 1);
    CHECK(d.done == 0 && d.status == LIQ_NO_MARKET);
    d = liq_ask(&m, &q, 1, &r, 1);
    CHECK(d.done == 0 && d.status == LIQ_NO_MARKET);
    d = liq_preview(&m, &c, 1, &r, 1);
    CHECK(d.done == 0 && d.status == LIQ_NO_MARKET);
    d = liq_accounts(&m, LIQ_TROVES, 0, accounts, 2);
    CHECK(d.done == 0 && d.status == LIQ_NO_MARKET);
    liq_text_done t = liq_lines(&m, (const uint8_t *)"? pools\n", 8, out, sizeof out);
    CHECK(t.taken == 0 && t.written == 0 && t.status == LIQ_NO_MARKET);
    CHECK(liq_save_size(&m) == 0);
    CHECK(liq_save(&m, out, sizeof out) == LIQ_NO_MARKET);
    CHECK(liq_fork(&m, &other) == LIQ_NO_MARKET);
    CHECK(is_blank(&r, sizeof r) && is_blank(out, sizeof out) &&
          is_blank(accounts, sizeof accounts));
    CHECK(memcmp(&c, &before, sizeof c) == 0);
    CHECK(is_empty(&m) && is_empty(&other));
    liq_close(&m);
    liq_close(&m);
    CHECK(is_empty(&m));
    /* An array of nothing may be nowhere. */
    d = liq_do(&m, NULL, 0, NULL, 0);
    CHECK(d.done == 0 && d.status == LIQ_NO_MARKET);
    /* A place that nobody cleared is taken for an empty one. */
    memset(&m, 0xA5, sizeof m);
    CHECK(liq_save_size(&m) == 0);
}

static void commands(void) {
    liq_market m = {0};
    opens(&m);
    CHECK(m.state != 0);
    liq_command *c = exact(6 * sizeof *c);
    c[0] = liq_fund(1, 1, 7, 20000000000u);
    c[1] = liq_take(1, 2, 7, 30000000000u); /* more than there is */
    c[2] = liq_fund(1, 2, 8, 1);
    c[3] = liq_fund(1, 2, 8, 1); /* once more under the same number */
    c[4] = liq_open_trove(1, 3, 7, 10000000000u, 4000000000u, LIQ_ANY_FEE);
    c[5] = liq_call(17, 1, 4); /* no verb */
    liq_reply *r = exact(6 * sizeof *r);
    liq_done d = liq_do(&m, c, 6, r, 6);
    CHECK(d.done == 5 && d.status == LIQ_BAD);
    CHECK(r[0].kind == LIQ_ACCEPTED && r[0].which == LIQ_FUND && r[0].count == 0);
    CHECK(r[1].kind == LIQ_REFUSED && r[1].which == LIQ_SHORT_COLLATERAL && r[1].count == 2);
    CHECK(liq_low(&r[1], 0) == 30000000000u && liq_high(&r[1], 0) == 0 &&
          liq_low(&r[1], 1) == 20000000000u);
    CHECK(r[2].kind == LIQ_ACCEPTED && memcmp(&r[2], &r[3], sizeof *r) == 0);
    CHECK(r[4].kind == LIQ_ACCEPTED && r[4].which == LIQ_OPEN && r[4].count == 2 &&
          r[4].values[1] == 20000000);
    CHECK(r[5].kind == LIQ_NO_COMMAND && r[5].which == 0 && r[5].count == 1 && r[5].values[0] == 0);
    for (int i = 0; i < 6; i++) {
        uint8_t none[5] = {0};
        CHECK(memcmp(r[i].zero, none, 5) == 0);
        for (unsigned k = r[i].kind == LIQ_REFUSED ? 2u * r[i].count : r[i].count; k < 11; k++)
            CHECK(r[i].values[k] == 0);
    }
    CHECK(told(&m, LIQ_WALLET, 8, 0) == 1 && told(&m, LIQ_NEXT_NUMBER, 1, 0) == 4);
    CHECK(told(&m, LIQ_TROVE, 7, 0) == 10000000000u);
    /* Fewer places than commands, and none at all. */
    liq_command more[3] = {liq_fund(1, 4, 8, 1), liq_fund(1, 5, 8, 1), liq_fund(1, 6, 8, 1)};
    liq_reply *two = exact(2 * sizeof *two);
    d = liq_do(&m, more, 3, two, 2);
    CHECK(d.done == 2 && d.status == LIQ_SHORT && told(&m, LIQ_WALLET, 8, 0) == 3);
    d = liq_do(&m, more + 2, 1, two, 0);
    CHECK(d.done == 0 && d.status == LIQ_SHORT && told(&m, LIQ_WALLET, 8, 0) == 3);
    d = liq_do(&m, NULL, 0, NULL, 0);
    CHECK(d.done == 0 && d.status == LIQ_OK);
    /* More places than commands: the others stay. */
    memset(r, 0xA5, 6 * sizeof *r);
    d = liq_do(&m, more + 2, 1, r, 6);
    CHECK(d.done == 1 && d.status == LIQ_OK && is_blank(r + 1, 5 * sizeof *r));
    /* Bytes that the verb has none of. */
    c[0] = liq_fund(1, 7, 8, 1);
    c[0].bytes[95] = 1;
    c[1] = liq_fund(1, 7, 8, 1);
    memset(r, 0xA5, 6 * sizeof *r);
    d = liq_do(&m, c, 2, r, 2);
    CHECK(d.done == 0 && d.status == LIQ_BAD && r[0].values[0] == 72 &&
          is_blank(r + 1, 5 * sizeof *r));
    CHECK(told(&m, LIQ_NEXT_NUMBER, 1, 0) == 7);
    __real_free(c);
    __real_free(r);
    __real_free(two);
    liq_close(&m);
}

static void numbers(void) {
    liq_market m = {0}, again = {0};
    opens(&m);
    opens(&again);
    liq_command *c = exact(4 * sizeof *c);
    c[0] = liq_fund(1, 0, 7, 5);
    c[1] = liq_take(1, 0, 7, 6); /* refused: leaves its number */
    c[2] = liq_fund(2, 0, 7, 5);
    c[3] = liq_fund(1, 0, 7, 5);
    liq_reply *r = exact(4 * sizeof *r), *s = exact(4 * sizeof *s);
    liq_done d = liq_next(&m, c, 4, r, 4);
    CHECK(d.done == 4 && d.status == LIQ_OK);
    CHECK(liq_number_of(&c[0]) == 1 && liq_number_of(&c[1]) == 2 && liq_number_of(&c[2]) == 1 &&
          liq_number_of(&c[3]) == 2);
    liq_command plain = liq_fund(1, 2, 7, 5);
    CHECK(memcmp(&c[3], &plain, sizeof plain) == 0);
    d = liq_do(&again, c, 4, s, 4); /* what they are now brings another market to the same */
    CHECK(d.done == 4 && memcmp(r, s, 4 * sizeof *r) == 0);
    struct bytes a = saved(&m), b = saved(&again);
    CHECK(same(a, b));
    /* A number that is there already. */
    liq_command two[2] = {liq_fund(1, 0, 7, 5), liq_fund(1, 9, 7, 5)}, was = two[1];
    memset(r, 0xA5, 4 * sizeof *r);
    d = liq_next(&m, two, 2, r, 4);
    CHECK(d.done == 1 && d.status == LIQ_BAD && r[1].kind == LIQ_NO_COMMAND && r[1].values[0] == 8);
    CHECK(memcmp(&two[1], &was, sizeof was) == 0 && is_blank(r + 2, 2 * sizeof *r));
    __real_free(a.at);
    __real_free(b.at);
    __real_free(c);
    __real_free(r);
    __real_free(s);
    liq_close(&m);
    liq_close(&again);
}

static void queries(void) {
    liq_market m = {0};
    opens(&m);
    fill(&m);
    struct bytes was = saved(&m);
    liq_query q[9] = {{LIQ_WALLET, 1}, {LIQ_TROVE, 2},    {LIQ_DEPOSIT, 1},
                      {LIQ_POOLS, 0},  {LIQ_SYSTEM, 0},   {LIQ_NEXT_NUMBER, 1},
                      {LIQ_TROVE, 99}, {LIQ_DEPOSIT, 99}, {7, 0}};
    static const uint8_t counts[8] = {2, 3, 2, 10, 10, 1, 0, 0};
    liq_reply *r = exact(9 * sizeof *r);
    liq_done d = liq_ask(&m, q, 9, r, 9);
    CHECK(d.done == 8 && d.status == LIQ_BAD);
    for (int i = 0; i < 8; i++)
        CHECK(r[i].kind == LIQ_TOLD && r[i].which == q[i].topic && r[i].count == counts[i]);
    CHECK(r[8].kind == LIQ_NO_COMMAND && r[8].count == 1 && r[8].values[0] == 0);
    CHECK(r[5].values[0] == 7 && r[4].values[5] == 3 && r[4].values[9] == 8);
    liq_query over = {LIQ_POOLS, 3}, far = {LIQ_WALLET, LIQ_ACCOUNTS};
    d = liq_ask(&m, &over, 1, r, 1);
    CHECK(d.done == 0 && d.status == LIQ_BAD && r[0].values[0] == 4);
    d = liq_ask(&m, &far, 1, r, 1);
    CHECK(d.done == 1 && r[0].kind == LIQ_REFUSED && r[0].which == LIQ_ACCOUNT_RANGE &&
          liq_low(r, 0) == LIQ_ACCOUNTS);
    d = liq_ask(&m, q, 2, r, 1);
    CHECK(d.done == 1 && d.status == LIQ_SHORT);
    is_still(&m, was);
    __real_free(was.at);
    __real_free(r);
    liq_close(&m);
}

static void previews(void) {
    liq_market m = {0}, fork = {0};
    opens(&m);
    fill(&m);
    struct bytes was = saved(&m);
    liq_command c[5] = {
        liq_price(5, 1, 400000000u),
        liq_open_trove(5, 1, 3, 1, 1, 1),
        liq_redeem(5, 1, 1, 500000000u, LIQ_ANY_FEE),
        liq_withdraw(5, 1, 1, 400000000u),
        liq_call(0, 1, 1),
    };
    liq_reply *r = exact(5 * sizeof *r);
    liq_done d = liq_preview(&m, c, 5, r, 5);
    CHECK(d.done == 4 && d.status == LIQ_BAD && r[4].kind == LIQ_NO_COMMAND && r[4].values[0] == 0);
    is_still(&m, was);
    for (int i = 0; i < 4; i++) { /* each is what the command itself is answered */
        liq_reply one;
        CHECK(liq_fork(&m, &fork) == LIQ_OK);
        d = liq_do(&fork, c + i, 1, &one, 1);
        CHECK(d.done == 1 && memcmp(&one, r + i, sizeof one) == 0);
    }
    CHECK(r[0].kind == LIQ_ACCEPTED && r[1].kind == LIQ_REFUSED && r[3].kind == LIQ_ACCEPTED &&
          r[3].count == 2);
    __real_free(was.at);
    __real_free(r);
    liq_close(&m);
    liq_close(&fork);
}

static liq_text_done lines(liq_market *m, const char *text, uint8_t *out, size_t room) {
    return liq_lines(m, (const uint8_t *)text, strlen(text), out, room);
}

static void texts(void) {
    liq_market m = {0};
    opens(&m);
    uint8_t *out = exact(1000);
    liq_text_done t = lines(
        &m, "1 1 fund 7 50\n? wallet 7\n1 1 fund 7 50\n1 2 take 7 60\n? trove 7\n? wal", out, 1000);
    const char *want = "ok\n50 0\nok\nno 14 60 50\nnone\n";
    CHECK(t.status == LIQ_OK &&
          t.taken ==
              strlen("1 1 fund 7 50\n? wallet 7\n1 1 fund 7 50\n1 2 take 7 60\n? trove 7\n"));
    CHECK(t.written == strlen(want) && memcmp(out, want, t.written) == 0 &&
          is_blank(out + t.written, 1000 - t.written));
    /* Lines that are none: behind them nothing is read. */
    memset(out, 0xA5, 1000);
    t = lines(&m, "? wallet 7\n\n1 2 fund 7 1\n", out, 1000);
    CHECK(t.status == LIQ_BAD && t.taken == 11 && t.written == 5 && is_blank(out + 5, 995));
    t = lines(&m, "nonsense\n", out, 1000);
    CHECK(t.status == LIQ_BAD && t.taken == 0 && t.written == 0);
    /* Room for one longest line is wanted in front of each. */
    memset(out, 0xA5, 1000);
    t = lines(&m, "1 2 fund 7 1\n1 3 fund 7 1\n", out, LIQ_LINE_MOST);
    CHECK(t.status == LIQ_SHORT && t.taken == 13 && t.written == 3 && is_blank(out + 3, 997));
    t = lines(&m, "1 3 fund 7 1\n", out, LIQ_LINE_MOST - 1);
    CHECK(t.status == LIQ_SHORT && t.taken == 0 && t.written == 0 &&
          told(&m, LIQ_WALLET, 7, 0) == 51);
    t = lines(&m, "1 3 fund 7 1", out, 0);
    CHECK(t.status == LIQ_OK && t.taken == 0 && t.written == 0);
    t = liq_lines(&m, NULL, 0, NULL, 0);
    CHECK(t.status == LIQ_OK && t.taken == 0 && t.written == 0);
    __real_free(out);
    liq_close(&m);
}

static void forks(void) {
    liq_market m = {0}, fork = {0}, none = {0};
    opens(&m);
    fill(&m);
    struct bytes was = saved(&m);
    CHECK(liq_fork(&m, &fork) == LIQ_OK);
    is_still(&m, was);
    is_still(&fork, was);
    accepted(&fork, liq_advance(8, 0, 5));
    is_still(&m, was);
    CHECK(told(&fork, LIQ_SYSTEM, 0, 1) == 5 && told(&fork, LIQ_SYSTEM, 0, 9) == 9);
    CHECK(liq_fork(&m, &fork) == LIQ_OK); /* into a full place */
    is_still(&fork, was);
    CHECK(liq_fork(&m, &m) == LIQ_BAD);
    is_still(&m, was);
    CHECK(liq_fork(&none, &fork) == LIQ_NO_MARKET);
    is_still(&fork, was);
    __real_free(was.at);
    liq_close(&m);
    liq_close(&fork);
}

static void saves(void) {
    liq_market m = {0}, again = {0};
    opens(&m);
    fill(&m);
    struct bytes was = saved(&m);
    uint8_t *room = exact(was.n + 9);
    CHECK(liq_save(&m, room, was.n - 1) == LIQ_SHORT && is_blank(room, was.n + 9));
    CHECK(liq_save(&m, NULL, 0) == LIQ_SHORT);
    CHECK(liq_save(&m, room, was.n + 9) == LIQ_OK && memcmp(room, was.at, was.n) == 0 &&
          is_blank(room + was.n, 9));
    CHECK(liq_load(&again, was.at, was.n) == LIQ_OK);
    is_still(&again, was);
    for (size_t i = 0; i < was.n; i++) { /* each byte damaged, and each length cut off */
        was.at[i] ^= 1;
        CHECK(liq_load(&again, was.at, was.n) == LIQ_BAD);
        was.at[i] ^= 1;
        CHECK(liq_load(&again, was.at, i) == LIQ_BAD);
    }
    CHECK(liq_load(&again, room, was.n + 1) == LIQ_BAD);
    is_still(&again, was);
    accepted(&again, liq_advance(8, 0, 5));
    CHECK(liq_load(&again, was.at, was.n) == LIQ_OK); /* into a full place */
    is_still(&again, was);
    __real_free(was.at);
    __real_free(room);
    liq_close(&m);
    liq_close(&again);
}

static void accounts(void) {
    liq_market m = {0};
    opens(&m);
    fill(&m);
    uint32_t *a = exact(4 * sizeof *a);
    liq_done d = liq_accounts(&m, LIQ_TROVES, 0, a, 4);
    CHECK(d.done == 3 && d.status == LIQ_OK && a[0] == 3 && a[1] == 2 && a[2] == 1 &&
          is_blank(a + 3, sizeof *a));
    memset(a, 0xA5, 4 * sizeof *a);
    d = liq_accounts(&m, LIQ_TROVES, 1, a, 1);
    CHECK(d.done == 1 && d.status == LIQ_SHORT && a[0] == 2 && is_blank(a + 1, 3 * sizeof *a));
    d = liq_accounts(&m, LIQ_TROVES, 3, a, 4);
    CHECK(d.done == 0 && d.status == LIQ_OK);
    d = liq_accounts(&m, LIQ_TROVES, SIZE_MAX, a, 4);
    CHECK(d.done == 0 && d.status == LIQ_OK);
    d = liq_accounts(&m, LIQ_TROVES, 0, NULL, 0);
    CHECK(d.done == 0 && d.status == LIQ_SHORT);
    d = liq_accounts(&m, LIQ_DEPOSITS, 0, a, 4);
    CHECK(d.done == 1 && d.status == LIQ_OK && a[0] == 1);
    d = liq_accounts(&m, LIQ_WALLETS, 0, a, 4);
    CHECK(d.done == 4 && d.status == LIQ_OK && a[0] == 1 && a[1] == 2 && a[2] == 3 && a[3] == 9);
    d = liq_accounts(&m, LIQ_TOUCHED, 0, a, 4);
    CHECK(d.done == 1 && d.status == LIQ_OK && a[0] == 9);
    accepted(&m, liq_send(1, 0, 2, 5, 1));
    d = liq_accounts(&m, LIQ_TOUCHED, 0, a, 4);
    CHECK(d.done == 2 && a[0] == 2 && a[1] == 5);
    memset(a, 0xA5, 4 * sizeof *a);
    d = liq_accounts(&m, 0, 0, a, 4);
    CHECK(d.done == 0 && d.status == LIQ_BAD && is_blank(a, 4 * sizeof *a));
    d = liq_accounts(&m, 5, 0, a, 4);
    CHECK(d.done == 0 && d.status == LIQ_BAD);
    __real_free(a);
    liq_close(&m);
}

/* Each allocation of a call is refused in turn. Then the call says so, all is as it was, and once
 * more it is done. */
static void memory(void) {
    liq_market m = {0}, other = {0}, full = {0};
    for (long k = 0;; k++) {
        refused = k;
        uint32_t status = liq_open(&m);
        refused = -1;
        if (status == LIQ_OK)
            break;
        CHECK(status == LIQ_NO_MEMORY && is_empty(&m));
    }
    fill(&m);
    opens(&full);
    struct bytes was = saved(&m), fresh = saved(&full);
    uint8_t *room = exact(was.n);
    long fails = 0;
    for (long k = 0;; k++, fails++) {
        refused = k;
        uint32_t status = liq_fork(&m, &full);
        refused = -1;
        is_still(&m, was);
        if (status == LIQ_OK)
            break;
        CHECK(status == LIQ_NO_MEMORY);
        is_still(&full, fresh);
    }
    CHECK(fails > 2);
    is_still(&full, was);
    for (long k = 0;; k++) {
        refused = k;
        uint32_t status = liq_save(&m, room, was.n);
        refused = -1;
        if (status == LIQ_OK)
            break;
        CHECK(status == LIQ_NO_MEMORY && is_blank(room, was.n));
    }
    for (long k = 0;; k++) {
        refused = k;
        uint32_t status = liq_load(&other, was.at, was.n);
        refused = -1;
        if (status == LIQ_OK)
            break;
        CHECK(status == LIQ_NO_MEMORY && is_empty(&other));
    }
    is_still(&other, was);
    liq_command c[3] = {liq_fund(4, 1, 500, 20000000000u),
                        liq_open_trove(4, 2, 500, 10000000000u, 3000000000u, LIQ_ANY_FEE),
                        liq_provide(4, 3, 500, 1000000000u)};
    liq_reply r[3];
    fails = 0;
    for (int i = 0; i < 3; i++) {
        struct bytes before = saved(&m);
        for (long k = 0;; k++, fails++) {
            memset(r, 0xA5, sizeof r);
            refused = k;
            liq_done d = liq_do(&m, c + i, 3 - i, r, 1);
            refused = -1;
            if (d.done == 1)
                break;
            CHECK(d.done == 0 && d.status == LIQ_NO_MEMORY && r[0].kind == LIQ_OUT_OF_MEMORY &&
                  r[0].count == 0 && is_blank(r + 1, 2 * sizeof *r));
            is_still(&m, before);
        }
        CHECK(r[0].kind == LIQ_ACCEPTED);
        __real_free(before.at);
    }
    CHECK(fails > 0);
    uint8_t out[256];
    memset(out, 0xA5, sizeof out);
    for (long k = 0;; k++) {
        refused = k;
        liq_text_done t = lines(&m, "4 4 fund 600 5\n", out, sizeof out);
        refused = -1;
        if (t.status == LIQ_OK)
            break;
        CHECK(t.status == LIQ_NO_MEMORY && t.taken == 0 && t.written == 0 &&
              is_blank(out, sizeof out));
    }
    CHECK(memcmp(out, "ok\n", 3) == 0);
    uint32_t a[3];
    for (uint32_t which = LIQ_TROVES; which <= LIQ_TOUCHED; which++)
        for (long k = 0;; k++) {
            memset(a, 0xA5, sizeof a);
            refused = k;
            liq_done d = liq_accounts(&m, which, 0, a, 3);
            refused = -1;
            if (d.status != LIQ_NO_MEMORY)
                break;
            CHECK(d.done == 0 && is_blank(a, sizeof a));
        }
    __real_free(was.at);
    __real_free(fresh.at);
    __real_free(room);
    liq_close(&m);
    liq_close(&other);
    liq_close(&full);
}

/* A thousand rounds in which each call works and fails: no byte more is in use behind them. */
static void leaks(void) {
    liq_market m = {0}, other = {0};
    long before = in_use;
    for (int round = 0; round < 1000; round++) {
        opens(&m);
        opens(&m); /* over a full place */
        if (round % 8 == 0)
            fill(&m);
        CHECK(liq_fork(&m, &other) == LIQ_OK);
        struct bytes s = saved(&m);
        CHECK(liq_load(&other, s.at, s.n) == LIQ_OK);
        refused = round % 7;
        (void)liq_load(&other, s.at, s.n);
        refused = round % 5;
        (void)liq_fork(&m, &other);
        refused = round % 3;
        (void)liq_open(&other);
        refused = -1;
        s.at[round % (int)s.n] ^= 0x10;
        CHECK(liq_load(&other, s.at, s.n) == LIQ_BAD);
        __real_free(s.at);
        liq_close(&m);
        liq_close(&other);
        CHECK(in_use == before);
    }
}

/* A market for each thread: all do the same, and all come to the same. */
static void *run(void *at) {
    liq_market m = {0};
    opens(&m);
    fill(&m);
    for (int i = 0; i < 2000; i++) {
        accepted(&m, liq_fund(1, 0, (uint32_t)(i % 50), 1));
        if (i % 100 == 0)
            accepted(&m, liq_advance(2, 0, 1));
    }
    *(liq_market *)at = m;
    return NULL;
}

static void threads(void) {
    enum { COUNT = 8 };
    pthread_t t[COUNT];
    liq_market m[COUNT];
    for (int i = 0; i < COUNT; i++)
        CHECK(pthread_create(&t[i], NULL, run, &m[i]) == 0);
    for (int i = 0; i < COUNT; i++)
        CHECK(pthread_join(t[i], NULL) == 0);
    struct bytes was = saved(&m[0]);
    for (int i = 0; i < COUNT; i++) { /* closed on another thread than the one that opened it */
        is_still(&m[i], was);
        liq_close(&m[i]);
    }
    __real_free(was.at);
}

int main(void) {
    CHECK(liq_abi() == LIQ_ABI);
    an_empty_place();
    commands();
    numbers();
    queries();
    previews();
    texts();
    forks();
    saves();
    accounts();
    memory();
    leaks();
    threads();
    puts("ok");
    return 0;
}
