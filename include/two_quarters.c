/*
 * Compares the plans of two quarters. A district is gone, one is new, one has a set that does something
 * else, and one has a set that does the same under another number. From the repository's root:
 *
 *     cc -std=c99 -Wall -Wextra -pedantic -Iinclude include/two_quarters.c target/staticlib/libcapi.a
 *
 * rust/examples/compare_plans.rs compares two files, and tells what the sets do.
 */
#include "npp.h"

#include <stdio.h>
#include <stdlib.h>
#include <string.h>

enum { SETS = 2, RULES = 3 };

static uint8_t left[NPP_PLAN_BYTES(SETS, RULES)];
static uint8_t right[NPP_PLAN_BYTES(SETS, RULES)];

/* Ends the program where a call is refused. */
static void expect_ok(const char *call, uint8_t refusal)
{
    if (refusal != 0) {
        printf("%s: no %d\n", call, refusal);
        exit(1);
    }
}

/* Country code 5, RELAY for every lookup kind. */
static void open_plan(uint8_t *plan)
{
    uint8_t body[NPP_OPEN_BYTES] = {0};
    body[NPP_OPEN_SETS_AT + 1] = SETS;
    body[NPP_OPEN_RULES_AT + 1] = RULES;
    body[NPP_OPEN_COUNTRY_AT] = 1;
    body[NPP_OPEN_COUNTRY_AT + 1] = 5;
    memset(body + NPP_OPEN_ANSWERS_AT, NPP_RELAY, 4);
    expect_ok("open", npp_open(plan, sizeof left, body, sizeof body));
}

/* A set without actions: numbers go out as they come, with this class. */
static void add_set(uint8_t *plan, uint8_t set, uint8_t class_code)
{
    uint8_t body[NPP_SET_BYTES] = {0};
    body[NPP_SET_NUMBER_AT + 1] = set;
    body[NPP_SET_CLASS_AT] = class_code;
    expect_ok("add set", npp_add_set(plan, sizeof left, body, sizeof body));
}

/* A district: national numbers of 8 digits that begin with this one. */
static void add_rule(uint8_t *plan, uint8_t digit, uint8_t set)
{
    uint8_t body[NPP_RULE_BYTES] = {0};
    body[NPP_RULE_CLASS_AT] = NPP_NATL;
    body[NPP_RULE_PREFIX_AT] = 1;
    body[NPP_RULE_PREFIX_AT + 1] = digit;
    body[NPP_RULE_LENGTH_AT] = 8;
    body[NPP_RULE_SET_AT + 1] = set;
    expect_ok("add rule", npp_add_rule(plan, sizeof left, body, sizeof body));
}

/* A two-byte number, the high byte first. */
static int word(const uint8_t *at)
{
    return at[0] * 256 + at[1];
}

/* An entry as a line: the district, and the set on each side that has it. */
static void print_entry(const uint8_t *entry)
{
    printf("district %d:", entry[NPP_DIFFERENCE_FILTER_AT + NPP_RULE_PREFIX_AT + 1]);
    if (entry[NPP_DIFFERENCE_KIND_AT] != NPP_RIGHT_ONLY) {
        printf(" left set %d", word(entry + NPP_DIFFERENCE_LEFT_SET_AT));
    }
    if (entry[NPP_DIFFERENCE_KIND_AT] != NPP_LEFT_ONLY) {
        printf(" right set %d", word(entry + NPP_DIFFERENCE_RIGHT_SET_AT));
    }
    putchar('\n');
}

int main(void)
{
    uint8_t out[2 * RULES * NPP_DIFFERENCE_BYTES]; /* for every rule of both plans */
    npp_compared compared;
    size_t i;
    open_plan(left);
    add_set(left, 0, NPP_AS_INCOMING);
    add_rule(left, 2, 0);
    add_rule(left, 3, 0);
    add_rule(left, 5, 0);
    open_plan(right);
    add_set(right, 0, NPP_UNKNOWN);
    add_set(right, 1, NPP_AS_INCOMING);
    add_rule(right, 3, 0);
    add_rule(right, 4, 1);
    add_rule(right, 5, 1);
    compared = npp_compare(left, sizeof left, right, sizeof right, out, sizeof out);
    expect_ok("compare", compared.refusal);
    for (i = 0; i < compared.differences; i++) {
        print_entry(out + i * NPP_DIFFERENCE_BYTES);
    }
    printf("differences: %lu\n", (unsigned long)compared.differences);
    return 0;
}
