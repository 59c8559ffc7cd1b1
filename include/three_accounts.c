/*
 * Takes the call records of three accounts, each with a loss of 0.4 cents, and tells the loss of their
 * district: 0 cents behind the first record, 1 behind the third. A fourth meets no price, and changes
 * nothing. From the repository's root:
 *
 *     cc -std=c99 -Wall -Wextra -pedantic -Iinclude include/three_accounts.c target/staticlib/libcapi.a
 *
 * It writes what rust/examples/three_accounts.rs writes.
 */
#include "npp.h"

#include <inttypes.h>
#include <stdio.h>
#include <stdlib.h>
#include <string.h>

/* A plan with room for one set and one rule; it stays without either, so that numbers go out as they come. */
static uint8_t plan[NPP_PLAN_BYTES(1, 1)];

/* The empty price list and the empty ledger are all 0, as C leaves what is static. */
static uint8_t prices[NPP_PRICES_BYTES];
static int64_t districts[NPP_LEDGER_NUMBERS];
static npp_totals whole;

/* Numbers of two and of four bytes, the high byte first. */
static void put_word(uint8_t *at, unsigned number)
{
    at[0] = (uint8_t)(number >> 8);
    at[1] = (uint8_t)(number & 255);
}

static void put_quad(uint8_t *at, uint32_t number)
{
    put_word(at, number >> 16);
    put_word(at + 2, number & 65535);
}

/* A digit string: its length, then the digits. The unused bytes behind them are 0 already. */
static void put_digits(uint8_t *at, const char *text)
{
    size_t n = strlen(text);
    size_t i;
    at[0] = (uint8_t)n;
    for (i = 0; i < n; i++) {
        at[1 + i] = (uint8_t)(text[i] - '0');
    }
}

/* What a call was answered with. */
static void report(const char *call, uint8_t refusal)
{
    if (refusal == 0) {
        printf("%s: ok\n", call);
    } else {
        printf("%s: no %d\n", call, refusal);
    }
}

/* Country code 55, RELAY for every lookup kind. */
static void open_plan(void)
{
    uint8_t body[NPP_OPEN_BYTES] = {0};
    put_word(body + NPP_OPEN_SETS_AT, 1);
    put_word(body + NPP_OPEN_RULES_AT, 1);
    put_digits(body + NPP_OPEN_COUNTRY_AT, "55");
    memset(body + NPP_OPEN_ANSWERS_AT, NPP_RELAY, 4);
    report("open", npp_open(plan, sizeof plan, body, sizeof body));
}

/* Numbers that begin with 8 cost 1 cent a minute. */
static void add_price(void)
{
    uint8_t body[NPP_PRICE_BYTES] = {0};
    put_digits(body + NPP_PRICE_PREFIX_AT, "8");
    put_quad(body + NPP_PRICE_PRICE_AT, 1000);
    report("price 8", npp_add_price(prices, body, sizeof body));
}

/* A minute of an account of district 17, for which 0.6 cents were billed. */
static void take_call(uint32_t account, const char *number)
{
    uint8_t body[NPP_CALL_BYTES] = {0};
    uint8_t out[NPP_DIGIT_BUFFER_BYTES];
    char call[32];
    npp_answered answer;
    put_quad(body + NPP_CALL_ACCOUNT_AT, account);
    put_word(body + NPP_CALL_DISTRICT_AT, 17);
    put_quad(body + NPP_CALL_SECONDS_AT, 60);
    put_quad(body + NPP_CALL_BILLED_AT, 600);
    body[NPP_CALL_NUMBER_AT + NPP_NUMBER_CLASS_AT] = NPP_NATL;
    put_digits(body + NPP_CALL_NUMBER_AT + NPP_NUMBER_DIGITS_AT, number);
    body[NPP_CALL_NUMBER_AT + NPP_NUMBER_LOOKUP_AT] = NPP_LOOKUP_NO_RECORD;
    answer = npp_take_call(plan, sizeof plan, prices, districts, &whole, body, sizeof body, out, sizeof out);
    sprintf(call, "account %" PRIu32, account);
    report(call, answer.refusal);
}

/* A line with a loss. */
static void print_loss(const char *what, npp_loss loss)
{
    if (loss.refusal != 0) {
        printf("%s: no %d\n", what, loss.refusal);
        exit(1);
    }
    if (loss.held == 0) {
        printf("%s: no records\n", what);
    } else {
        printf("%s: %" PRId64 " units, in cents %" PRId64 "\n", what, loss.units, loss.cents);
    }
}

int main(void)
{
    open_plan();
    add_price();
    take_call(1001, "87654321");
    print_loss("district 17", npp_district_loss(districts, whole, 17));
    take_call(1002, "87654321");
    take_call(1003, "87654321");
    take_call(1004, "97654321");
    print_loss("district 17", npp_district_loss(districts, whole, 17));
    print_loss("district 18", npp_district_loss(districts, whole, 18));
    print_loss("total", npp_total_loss(districts, whole));
    printf("records: %" PRId64 "\n", whole.count);
    return 0;
}
