/*
 * Opens a plan, adds a set and a rule, answers a number, lists the rules, and shows a removal that is
 * refused. From the repository's root:
 *
 *     cc -std=c99 -Wall -Wextra -pedantic -Iinclude include/example.c target/staticlib/libcapi.a -o example
 *
 * It writes what rust/examples/open_and_answer.rs writes.
 */
#include "npp.h"

#include <stdio.h>
#include <stdlib.h>
#include <string.h>

enum { SETS = 8, RULES = 8 };

static uint8_t plan[NPP_PLAN_BYTES(SETS, RULES)];

/* A two-byte number, the high byte first. */
static void put_word(uint8_t *at, unsigned number)
{
    at[0] = (uint8_t)(number >> 8);
    at[1] = (uint8_t)(number & 255);
}

/* A digit string: its length, then the digits. The unused bytes behind them are 0 already. */
static void put_digits(uint8_t *at, const char *text)
{
    size_t n = strlen(text);
    size_t i;
    at[0] = (uint8_t)n;
    for (i = 0; i < n; i++) {
        at[1 + i] = (uint8_t)(text[i] <= '9' ? text[i] - '0' : text[i] - 'a' + 10);
    }
}

/* Digits as text, `none` where there are none. */
static void print_digits(const uint8_t *digits, size_t n, const char *none)
{
    size_t i;
    if (n == 0) {
        fputs(none, stdout);
    }
    for (i = 0; i < n; i++) {
        putchar("0123456789abcdef"[digits[i] & 15]);
    }
}

/* What a call was answered with. */
static void report(const char *call, uint8_t refusal)
{
    if (refusal == 0) {
        printf("%s: ok\n", call);
    } else {
        printf("%s: no %d\n", call, refusal);
    }
}

/* The same of a call that must be accepted. */
static void expect_ok(const char *call, uint8_t refusal)
{
    report(call, refusal);
    if (refusal != 0) {
        exit(1);
    }
}

/* Country code 55, no DFLTRN, no delimiters, RELAY for every lookup kind, accepting 0. */
static uint8_t open_plan(void)
{
    uint8_t body[NPP_OPEN_BYTES] = {0};
    put_word(body + NPP_OPEN_SETS_AT, SETS);
    put_word(body + NPP_OPEN_RULES_AT, RULES);
    put_digits(body + NPP_OPEN_COUNTRY_AT, "55");
    memset(body + NPP_OPEN_ANSWERS_AT, NPP_RELAY, 4);
    return npp_open(plan, sizeof plan, body, sizeof body);
}

/* Set 0, document 01's S1: DNX, CCDEF; CDPNNP; RN, DN; class 255. */
static uint8_t add_set(void)
{
    uint8_t body[NPP_SET_BYTES] = {0};
    put_word(body + NPP_SET_NUMBER_AT, 0);
    body[NPP_SET_CLASS_AT] = NPP_AS_INCOMING;
    body[NPP_SET_CA_AT] = NPP_CA_DNX; /* its count, and that of CCDEF, is 0 */
    body[NPP_SET_CA_AT + 2] = NPP_CA_CCDEF;
    body[NPP_SET_SA_AT] = NPP_SA_CDPNNP;
    body[NPP_SET_FA_AT] = NPP_FA_RN;
    body[NPP_SET_FA_AT + 1] = NPP_FA_DN;
    return npp_add_set(plan, sizeof plan, body, sizeof body);
}

/* NATL, both wildcards, set 0. */
static uint8_t add_rule(void)
{
    uint8_t body[NPP_RULE_BYTES] = {0};
    body[NPP_RULE_CLASS_AT] = NPP_NATL;
    put_word(body + NPP_RULE_SET_AT, 0);
    return npp_add_rule(plan, sizeof plan, body, sizeof body);
}

/* NATL 87654321, with RN 0015. */
static void answer(void)
{
    uint8_t body[NPP_NUMBER_BYTES] = {0};
    uint8_t out[NPP_DIGIT_BUFFER_BYTES];
    npp_answered a;
    body[NPP_NUMBER_CLASS_AT] = NPP_NATL;
    put_digits(body + NPP_NUMBER_DIGITS_AT, "87654321");
    body[NPP_NUMBER_LOOKUP_AT] = NPP_LOOKUP_RN;
    put_digits(body + NPP_NUMBER_ENTITY_AT, "0015");
    a = npp_answer(plan, sizeof plan, body, sizeof body, out, sizeof out);
    expect_ok("number 87654321, RN 0015", a.refusal);
    printf("outcome %d, class %d, response %d, actions %d, digits ", a.outcome, a.class_code, a.response, a.count);
    print_digits(out, a.digits, "-");
    putchar('\n');
}

/* A line for each rule: class, prefix, length and set, "*" for a wildcard. */
static void list(void)
{
    npp_counted counted = npp_rule_count(plan, sizeof plan);
    size_t place;
    expect_ok("list", counted.refusal);
    for (place = 0; place < counted.rules; place++) {
        npp_listed rule = npp_rule_at(plan, sizeof plan, (uint16_t)place);
        printf("%d ", rule.class_code);
        print_digits(rule.prefix, rule.digits, "*");
        if (rule.length == 0) {
            printf(" * %d\n", rule.set);
        } else {
            printf(" %d %d\n", rule.length, rule.set);
        }
    }
    printf("end %lu\n", (unsigned long)counted.rules);
}

/* A rule names set 0, so that it stays: IN USE. */
static uint8_t remove_set(void)
{
    uint8_t body[NPP_SET_NUMBER_BYTES] = {0};
    put_word(body, 0);
    return npp_remove_set(plan, sizeof plan, body, sizeof body);
}

int main(void)
{
    expect_ok("open", open_plan());
    expect_ok("add set 0", add_set());
    expect_ok("add rule 1 * * 0", add_rule());
    answer();
    list();
    report("remove set 0", remove_set());
    return 0;
}
