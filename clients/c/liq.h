/* liq: the proved lending engine in the process of whoever calls it. No files, no threads, no
 * output; its memory comes from malloc.
 *
 *     liq_market m = {0};                              a place that is all zero has no market
 *     if (liq_abi() != LIQ_ABI || liq_open(&m) != LIQ_OK) return 1;
 *     liq_command c = liq_fund(1, 0, 7, 10000000000);  client 1 brings 10 ether into wallet 7;
 *     liq_reply r;                                     number 0 is for liq_next, which gives one
 *     liq_done d = liq_next(&m, &c, 1, &r, 1);         d.status LIQ_OK, r.kind LIQ_ACCEPTED
 *     liq_close(&m);
 *
 * WHO OWNS WHAT. The caller owns all memory but the market itself: places, commands, replies,
 * texts, saved bytes. liq_open, liq_fork and liq_load put a market into a place, and what was in
 * it is freed; liq_close empties a place. Nothing else frees. A call that puts a market in and fails
 * leaves each place as it was; what a batch or a text did not come to changes nothing.
 *
 * WHO MAY CALL. A market is for one call at a time, and goes from one thread to another only where
 * a lock, a join or a start lies between the calls. Different markets have nothing in common: one
 * for each thread is fine. No call is read-only: each takes the market out of its place and puts
 * it back, so no place is const, and two readers at once are a race like any other.
 *
 * WHAT THE CALLER OWES, for nothing checks it:
 *   - a place is all zero, or as the last call left it. It may be moved, but of two copies one is
 *     used from then on, and the other is not even closed;
 *   - each pointer is to as many items as its count says, aligned as C aligns them, and no two
 *     arguments overlap;
 *   - a call has room on its stack: the least that a thread can have is too little;
 *   - malloc, realloc and free are of one allocator;
 *   - no call from a signal handler, nor in the forked child of a process that has threads.
 * (NULL, 0) is a fine array of nothing, and liq_fork into the same place is LIQ_BAD: see the end.
 *
 * WHAT IS PROVED of these calls is said in docs/PROMISES.md; nothing is of this file's inline
 * functions. Ether is in gwei (10^9 for one ether), LUSD and prices in millionths of a LUSD, rates
 * and fee bounds are over 10^18. docs/REFERENCE.md has verbs and queries, docs/REFUSALS.md the
 * codes.
 */
#ifndef LIQ_H
#define LIQ_H
#include <stddef.h>
#include <stdint.h>
#ifdef __cplusplus
extern "C" {
#define LIQ_ZERO {}
#define LIQ_IS_OF_SIZE(type, size) static_assert(sizeof(type) == (size), #type)
#else
#define LIQ_ZERO {0}
#define LIQ_IS_OF_SIZE(type, size) _Static_assert(sizeof(type) == (size), #type)
#endif

/* The number of this interface: compare it with what liq_abi() gives before any other call. */
#define LIQ_ABI 1u
/* The most bytes of a line that liq_lines writes, with its end. */
#define LIQ_LINE_MOST 256u
/* Accounts and clients are numbers below it. */
#define LIQ_ACCOUNTS 1048576u
/* The most accepted commands of a generation; behind them each gets 81, until a rotate. */
#define LIQ_RECORDS_MOST 1000000u
/* A hint that is none, and a fee bound that allows any fee. */
#define LIQ_NO_HINT 4294967295u
#define LIQ_ANY_FEE 1000000000000000000u

/* ---- what is passed */

/* A place for a market. Its words are the library's own. */
typedef struct {
    void *inside;
    uint64_t state, reserved[2];
} liq_market;

/* A command: 96 bytes as a journal keeps them, most significant byte first (docs/FORMATS.md).
 * liq_fund and its kin make one. */
typedef struct {
    uint8_t bytes[96];
} liq_command;

/* A query: one of liq_topic, and the account or client that it is about, or 0. */
typedef struct {
    uint32_t topic, account;
} liq_query;

/* A reply. `which` is the verb of what was accepted, the topic of what was told, the code of a
 * refusal; `count` says how many numbers there are. In a refusal each takes two values, its low
 * word first: liq_low and liq_high read number i of any reply. A trove or a deposit that there is
 * not is told with count 0. In LIQ_NO_COMMAND values[0] is the place of the byte at which the field
 * begins that fits no command. What is behind the numbers is 0. */
typedef struct {
    uint8_t kind, which, count, zero[5];
    uint64_t values[11];
} liq_reply;

LIQ_IS_OF_SIZE(liq_market, 32);
LIQ_IS_OF_SIZE(liq_command, 96);
LIQ_IS_OF_SIZE(liq_query, 8);
LIQ_IS_OF_SIZE(liq_reply, 96);

typedef enum {
    LIQ_OK = 0,        /* all of it */
    LIQ_NO_MARKET = 1, /* the place is empty; nothing was written */
    LIQ_NO_MEMORY = 2, /* there was no memory; what was not done changed nothing */
    LIQ_BAD = 3,       /* what is none: a command, a query, a line, a saved market, a list */
    LIQ_SHORT = 4      /* fewer places, or less room, than it takes */
} liq_status;

typedef enum {
    LIQ_ACCEPTED = 1,
    LIQ_TOLD = 2,
    LIQ_REFUSED = 3,
    LIQ_NO_COMMAND = 4,
    LIQ_OUT_OF_MEMORY = 5
} liq_kind;

typedef enum {
    LIQ_PRICE = 1,
    LIQ_ADVANCE = 2,
    LIQ_FUND = 3,
    LIQ_TAKE = 4,
    LIQ_SEND = 5,
    LIQ_OPEN = 6,
    LIQ_ADJUST = 7,
    LIQ_CLOSE = 8,
    LIQ_PROVIDE = 9,
    LIQ_WITHDRAW = 10,
    LIQ_GAIN_TO_TROVE = 11,
    LIQ_LIQUIDATE = 12,
    LIQ_LIQUIDATE_LOWEST = 13,
    LIQ_REDEEM = 14,
    LIQ_CLAIM = 15,
    LIQ_ROTATE = 16
} liq_verb;

typedef enum {
    LIQ_WALLET = 1,
    LIQ_TROVE = 2,
    LIQ_DEPOSIT = 3,
    LIQ_POOLS = 4,
    LIQ_SYSTEM = 5,
    LIQ_NEXT_NUMBER = 6
} liq_topic;

typedef enum {
    LIQ_TROVES = 1,   /* who has a trove, in the order of the list, from the lowest ratio on */
    LIQ_DEPOSITS = 2, /* who has a deposit, ascending */
    LIQ_WALLETS = 3,  /* whose wallet is not empty, ascending */
    LIQ_TOUCHED = 4   /* whom the last accepted command names, then whose places it changed too */
} liq_list;

/* The codes of refusals, by the names of docs/REFUSALS.md. */
typedef enum {
    LIQ_PRICE_RANGE = 10,
    LIQ_AMOUNT_ZERO = 11,
    LIQ_AMOUNT_LIMIT = 12,
    LIQ_ACCOUNT_RANGE = 13,
    LIQ_SHORT_COLLATERAL = 14,
    LIQ_SHORT_TOKENS = 15,
    LIQ_TROVE_EXISTS = 20,
    LIQ_NO_TROVE = 21,
    LIQ_FEE_BOUND = 22,
    LIQ_FEE_OVER = 23,
    LIQ_NET_DEBT_LOW = 24,
    LIQ_RATIO_LOW = 25,
    LIQ_SYSTEM_RATIO_LOW = 26,
    LIQ_RECOVERY_FORBIDS = 27,
    LIQ_RATIO_FALLS = 28,
    LIQ_BOTH_WAYS = 29,
    LIQ_NO_CHANGE = 30,
    LIQ_LAST_TROVE = 31,
    LIQ_NO_DEPOSIT = 40,
    LIQ_TROVE_UNDER = 41,
    LIQ_NO_GAIN = 42,
    LIQ_NOT_LIQUIDATABLE = 50,
    LIQ_POOL_TOO_SMALL = 51,
    LIQ_SUM_LIMIT = 52,
    LIQ_BOOTSTRAP = 60,
    LIQ_SYSTEM_UNDER = 61,
    LIQ_NOTHING_REDEEMED = 62,
    LIQ_FEE_EATS_ALL = 63,
    LIQ_NO_SURPLUS = 64,
    LIQ_OUT_OF_TURN = 70,
    LIQ_JOURNAL_FULL = 81
} liq_refusal;

/* How far a call came: the first `done` items are answered, and `status`, one of liq_status, says
 * why no more are. */
typedef struct {
    size_t done;
    uint32_t status;
} liq_done;

/* The same of a text: so many bytes were taken, and so many were written. */
typedef struct {
    size_t taken, written;
    uint32_t status;
} liq_text_done;

/* ---- the calls */

/* LIQ_ABI of the library. */
uint32_t liq_abi(void);

/* Puts a market into a place, as it opens: nobody has anything, 1,000 LUSD for one ether, minute 0.
 * LIQ_NO_MEMORY: the place is as it was. */
uint32_t liq_open(liq_market *m);

/* Empties a place; nothing where it is empty. */
void liq_close(liq_market *m);

/* Answers commands in order, each reply at the index of its command. A refusal is an answer, and
 * stops nothing. LIQ_BAD: the next one is no command. LIQ_NO_MEMORY: there was none for it. In both
 * cases it changed nothing, and the reply behind the answered ones says what it was. LIQ_SHORT:
 * there are fewer places than commands. Places behind are left as they are. */
liq_done liq_do(liq_market *m, const liq_command *commands, size_t n, liq_reply *replies,
                size_t places);

/* The same, but the market numbers each command, by its client's next number, and writes the number
 * into it: behind the call they are what liq_do, a journal and `liq run` take. A refused command
 * leaves its number to the client's next one. A client that has used the greatest number has no next
 * one: its command keeps 0, and is refused as out of turn. A command whose number is not 0 is none:
 * LIQ_BAD, and place 8. */
liq_done liq_next(liq_market *m, liq_command *commands, size_t n, liq_reply *replies,
                  size_t places);

/* Answers queries; nothing changes. LIQ_BAD: there is no such topic (place 0), or an account where it
 * asks about none (place 4), which the reply behind the answered ones says. */
liq_done liq_ask(liq_market *m, const liq_query *queries, size_t n, liq_reply *replies,
                 size_t places);

/* What each command would be replied now, each as if it were the only one; nothing changes. Its
 * number counts as in liq_do. */
liq_done liq_preview(liq_market *m, const liq_command *commands, size_t n, liq_reply *replies,
                     size_t places);

/* The text protocol: lines as `liq run` takes them, each with its end, and a line for each reply.
 * LIQ_SHORT: less than LIQ_LINE_MOST bytes of the room are left for the next one. LIQ_BAD: the next
 * one is no request, as an empty line is none. A last line without its end is not taken: send it
 * again when it has one. */
liq_text_done liq_lines(liq_market *m, const uint8_t *text, size_t n, uint8_t *out, size_t room);

/* Puts the same market into another place, on its own from then on: with its count of records and
 * its clients' numbers and kept replies. Only at LIQ_OK what was in `into` is gone. */
uint32_t liq_fork(liq_market *m, liq_market *into);

/* How many bytes liq_save writes; 0 for an empty place. */
size_t liq_save_size(liq_market *m);

/* Writes a market as bytes. LIQ_SHORT: n is less than that, and nothing is written. Equal markets
 * save equal bytes, which end with their SHA-256. */
uint32_t liq_save(liq_market *m, uint8_t *bytes, size_t n);

/* Puts a saved market into a place. LIQ_BAD: the n bytes are none, or were damaged. Nobody knows
 * the history of a market that comes in: it may be one to which no commands lead. */
uint32_t liq_load(liq_market *m, const uint8_t *bytes, size_t n);

/* Writes the accounts of one of liq_list, from index `from` on; `done` says how many. LIQ_SHORT:
 * there are more behind them. LIQ_BAD: there is no such list. A market that was opened, forked or
 * loaded has touched nobody. Each call walks the troves up to `from`, and makes the rows of all
 * deposits or wallets, so a list in many small pages costs its square. One call takes it whole:
 * LIQ_SYSTEM tells how many troves there are, and LIQ_ACCOUNTS places hold any of the first three. */
liq_done liq_accounts(liq_market *m, uint32_t which, size_t from, uint32_t *accounts,
                      size_t places);

/* ---- to write commands and to read replies */

/* Writes the low bytes of a number, the most significant one first. */
static inline void liq_put(uint8_t *at, uint64_t number, unsigned bytes) {
    while (bytes > 0) {
        at[--bytes] = (uint8_t)number;
        number >>= 8;
    }
}

/* Reads a number, its most significant byte first. */
static inline uint64_t liq_get(const uint8_t *at, unsigned bytes) {
    uint64_t number = 0;
    for (unsigned i = 0; i < bytes; i++) number = number << 8 | at[i];
    return number;
}

/* A verb under a client and a number, with nothing more. 0 is the number for liq_next. */
static inline liq_command liq_call(uint32_t verb, uint32_t client, uint64_t number) {
    liq_command c = LIQ_ZERO;
    c.bytes[0] = (uint8_t)verb;
    liq_put(c.bytes + 4, client, 4);
    liq_put(c.bytes + 8, number, 8);
    return c;
}

/* Account i, of 0 and 1; amount i, of 0 to 4, in the order of the verb's words; both hints. */
static inline void liq_set_account(liq_command *c, unsigned i, uint32_t account) {
    liq_put(c->bytes + 16 + 4 * i, account, 4);
}
static inline void liq_set_amount(liq_command *c, unsigned i, uint64_t amount) {
    liq_put(c->bytes + 24 + 8 * i, amount, 8);
}
static inline void liq_set_hints(liq_command *c, uint32_t before, uint32_t after) {
    liq_put(c->bytes + 64, before, 4);
    liq_put(c->bytes + 68, after, 4);
}

/* The number of a command: behind liq_next, the one that the market gave it. */
static inline uint64_t liq_number_of(const liq_command *c) { return liq_get(c->bytes + 8, 8); }

/* A command of one account and one amount, each 0 where the verb has none. */
static inline liq_command liq_call_of(uint32_t verb, uint32_t client, uint64_t number,
                                      uint32_t account, uint64_t amount) {
    liq_command c = liq_call(verb, client, number);
    liq_set_account(&c, 0, account);
    liq_set_amount(&c, 0, amount);
    return c;
}

/* Each verb, its words by the names of docs/REFERENCE.md. No hints are given, for none are needed;
 * liq_set_hints gives some. */
static inline liq_command liq_price(uint32_t client, uint64_t number, uint64_t price) {
    return liq_call_of(LIQ_PRICE, client, number, 0, price);
}
static inline liq_command liq_advance(uint32_t client, uint64_t number, uint64_t minutes) {
    return liq_call_of(LIQ_ADVANCE, client, number, 0, minutes);
}
static inline liq_command liq_fund(uint32_t client, uint64_t number, uint32_t account,
                                   uint64_t coll) {
    return liq_call_of(LIQ_FUND, client, number, account, coll);
}
static inline liq_command liq_take(uint32_t client, uint64_t number, uint32_t account,
                                   uint64_t coll) {
    return liq_call_of(LIQ_TAKE, client, number, account, coll);
}
static inline liq_command liq_send(uint32_t client, uint64_t number, uint32_t from, uint32_t to,
                                   uint64_t lusd) {
    liq_command c = liq_call_of(LIQ_SEND, client, number, from, lusd);
    liq_set_account(&c, 1, to);
    return c;
}
static inline liq_command liq_open_trove(uint32_t client, uint64_t number, uint32_t account,
                                         uint64_t coll, uint64_t lusd, uint64_t bound) {
    liq_command c = liq_call_of(LIQ_OPEN, client, number, account, coll);
    liq_set_amount(&c, 1, lusd);
    liq_set_amount(&c, 2, bound);
    liq_set_hints(&c, LIQ_NO_HINT, LIQ_NO_HINT);
    return c;
}
static inline liq_command liq_adjust(uint32_t client, uint64_t number, uint32_t account,
                                     uint64_t coll_in, uint64_t coll_out, uint64_t borrow,
                                     uint64_t repay, uint64_t bound) {
    liq_command c = liq_call_of(LIQ_ADJUST, client, number, account, coll_in);
    liq_set_amount(&c, 1, coll_out);
    liq_set_amount(&c, 2, borrow);
    liq_set_amount(&c, 3, repay);
    liq_set_amount(&c, 4, bound);
    liq_set_hints(&c, LIQ_NO_HINT, LIQ_NO_HINT);
    return c;
}
static inline liq_command liq_close_trove(uint32_t client, uint64_t number, uint32_t account) {
    return liq_call_of(LIQ_CLOSE, client, number, account, 0);
}
static inline liq_command liq_provide(uint32_t client, uint64_t number, uint32_t account,
                                      uint64_t lusd) {
    return liq_call_of(LIQ_PROVIDE, client, number, account, lusd);
}
static inline liq_command liq_withdraw(uint32_t client, uint64_t number, uint32_t account,
                                       uint64_t lusd) {
    return liq_call_of(LIQ_WITHDRAW, client, number, account, lusd);
}
static inline liq_command liq_gain_to_trove(uint32_t client, uint64_t number, uint32_t account) {
    liq_command c = liq_call_of(LIQ_GAIN_TO_TROVE, client, number, account, 0);
    liq_set_hints(&c, LIQ_NO_HINT, LIQ_NO_HINT);
    return c;
}
static inline liq_command liq_liquidate(uint32_t client, uint64_t number, uint32_t liquidator,
                                        uint32_t owner) {
    liq_command c = liq_call_of(LIQ_LIQUIDATE, client, number, liquidator, 0);
    liq_set_account(&c, 1, owner);
    return c;
}
static inline liq_command liq_liquidate_lowest(uint32_t client, uint64_t number,
                                               uint32_t liquidator, uint64_t count) {
    return liq_call_of(LIQ_LIQUIDATE_LOWEST, client, number, liquidator, count);
}
static inline liq_command liq_redeem(uint32_t client, uint64_t number, uint32_t account,
                                     uint64_t lusd, uint64_t bound) {
    liq_command c = liq_call_of(LIQ_REDEEM, client, number, account, lusd);
    liq_set_amount(&c, 1, bound);
    liq_set_hints(&c, LIQ_NO_HINT, LIQ_NO_HINT);
    return c;
}
static inline liq_command liq_claim(uint32_t client, uint64_t number, uint32_t account) {
    return liq_call_of(LIQ_CLAIM, client, number, account, 0);
}
static inline liq_command liq_rotate(uint32_t client, uint64_t number) {
    return liq_call(LIQ_ROTATE, client, number);
}

/* Number i of a reply, below its count: its low word, and its high one, 0 but in a refusal. */
static inline uint64_t liq_low(const liq_reply *r, unsigned i) {
    return r->values[r->kind == LIQ_REFUSED ? 2 * i : i];
}
static inline uint64_t liq_high(const liq_reply *r, unsigned i) {
    return r->kind == LIQ_REFUSED ? r->values[2 * i + 1] : 0;
}

/* ---- what is looked at on this side
 *
 * A call by its name comes to these first; `(liq_do)(..)` and `&liq_do` are the library's own,
 * which want no NULL and no two arguments that overlap. */

/* Where an array is. That of nothing may be nowhere, so the market's place stands in for it. */
#define LIQ_AT(type, items, n, m) ((n) == 0 ? (type *)(void *)(m) : (items))

static inline liq_done liq_do_at(liq_market *m, const liq_command *commands, size_t n,
                                 liq_reply *replies, size_t places) {
    return liq_do(m, LIQ_AT(const liq_command, commands, n, m), n,
                  LIQ_AT(liq_reply, replies, places, m), places);
}
static inline liq_done liq_next_at(liq_market *m, liq_command *commands, size_t n,
                                   liq_reply *replies, size_t places) {
    return liq_next(m, LIQ_AT(liq_command, commands, n, m), n,
                    LIQ_AT(liq_reply, replies, places, m), places);
}
static inline liq_done liq_ask_at(liq_market *m, const liq_query *queries, size_t n,
                                  liq_reply *replies, size_t places) {
    return liq_ask(m, LIQ_AT(const liq_query, queries, n, m), n,
                   LIQ_AT(liq_reply, replies, places, m), places);
}
static inline liq_done liq_preview_at(liq_market *m, const liq_command *commands, size_t n,
                                      liq_reply *replies, size_t places) {
    return liq_preview(m, LIQ_AT(const liq_command, commands, n, m), n,
                       LIQ_AT(liq_reply, replies, places, m), places);
}
static inline liq_text_done liq_lines_at(liq_market *m, const uint8_t *text, size_t n,
                                         uint8_t *out, size_t room) {
    return liq_lines(m, LIQ_AT(const uint8_t, text, n, m), n, LIQ_AT(uint8_t, out, room, m), room);
}
static inline liq_done liq_accounts_at(liq_market *m, uint32_t which, size_t from,
                                       uint32_t *accounts, size_t places) {
    return liq_accounts(m, which, from, LIQ_AT(uint32_t, accounts, places, m), places);
}
static inline uint32_t liq_save_at(liq_market *m, uint8_t *bytes, size_t n) {
    return liq_save(m, LIQ_AT(uint8_t, bytes, n, m), n);
}
static inline uint32_t liq_load_at(liq_market *m, const uint8_t *bytes, size_t n) {
    return liq_load(m, LIQ_AT(const uint8_t, bytes, n, m), n);
}
static inline uint32_t liq_fork_apart(liq_market *m, liq_market *into) {
    return m == into ? (uint32_t)LIQ_BAD : liq_fork(m, into);
}

#define liq_do(...) liq_do_at(__VA_ARGS__)
#define liq_next(...) liq_next_at(__VA_ARGS__)
#define liq_ask(...) liq_ask_at(__VA_ARGS__)
#define liq_preview(...) liq_preview_at(__VA_ARGS__)
#define liq_lines(...) liq_lines_at(__VA_ARGS__)
#define liq_accounts(...) liq_accounts_at(__VA_ARGS__)
#define liq_save(...) liq_save_at(__VA_ARGS__)
#define liq_load(...) liq_load_at(__VA_ARGS__)
#define liq_fork(...) liq_fork_apart(__VA_ARGS__)

#ifdef __cplusplus
}
#endif
#endif
