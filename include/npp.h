/*
 * The calls of the proved numbering plan processor, for C99 and for C++.
 *
 * LINKING. The library is one archive, target/staticlib/libcapi.a (`rt staticlib capi` builds it), for
 * x86-64 programs. It asks the system for memcpy, memmove and memset and for nothing else, so that
 * every C program can link it without a further library:
 *
 *     cc -std=c99 -Iinclude program.c target/staticlib/libcapi.a -o program
 *
 * It allocates nothing and keeps nothing between calls: a plan, a price list and a ledger are memory that
 * the caller lends.
 *
 * WHAT IS PROVED. Each call below is proved to end, and to give and to write exactly what document 01
 * defines, with C-11, C-12 and C-20 of document 02, for any content and any length of what is lent. The
 * promise of a call stands behind `ensures` in crates/capi/src/lib.rt; docs/PROMISES.md gives the place
 * of every proof, docs/LAYOUT.md every byte of the plan memory, of a price list and of a ledger,
 * docs/DECISIONS.md how the two documents are read where they are open. This file says the same in
 * words. It is not proved itself.
 *
 * WHAT A CALLER OWES.
 * - A pointer and the length behind it are those of memory that the caller may lend: to be read, and to
 *   be written too where the pointer is not const. No other thread writes it during the call, nor
 *   reads what the call writes.
 * - The buffers lent to one call do not overlap. (Two that are both only read may.)
 * - A null pointer comes only with length 0. A price list, the districts of a ledger and its whole have
 *   one size each, and no length beside them: they are never null, and have that size.
 * - Nobody but these calls writes the plan memory, a price list or a ledger between them. (One that
 *   somebody else has written is examined like any other memory, and used if it is sound or in range;
 *   but then it need not hold what the calls put in.)
 *
 * REFUSALS. A call that is refused gives the number of its refusal, every other field 0, and changes
 * nothing that was lent. Each call names its refusals in the order of its checks: the number given is
 * the first whose line holds. 0 means that nothing was refused.
 *
 * TIME. Every call that gets a plan, but npp_open, examines the whole of it before it uses it, so that
 * its time grows with the rooms of the plan; npp_replay does so for each call that it runs, and reading
 * a listing with npp_rule_at does so for each rule. A price list and a ledger are gone through from end
 * to end, too, by every call that gets one.
 */
#ifndef NPP_H
#define NPP_H

#include <stddef.h>
#include <stdint.h>
#ifndef __cplusplus
#include <stdbool.h>
#endif

/* ---- Refusal numbers ---- */

#define NPP_CUT 1     /* a body is shorter than its kind says */
#define NPP_KIND 2    /* unknown kind byte: for programs over files of records; no call here gives it */
#define NPP_PLAN 3    /* any call with a plan but opening: it is not a sound plan of this build */
#define NPP_ROOM 4    /* opening: plan memory too small for the rooms asked; or a buffer too small */
#define NPP_RANGE 5   /* a number outside its stated values, a prefix longer than a stated length,
                         an unused byte not 0, a set number at or over the room; or a lent price list
                         or ledger out of range */
#define NPP_GROUPS 6  /* a group rule of action sets broken */
#define NPP_TAKEN 7   /* adding a set, a filter or the prefix of a price that is there already */
#define NPP_ABSENT 8  /* a named set (but one being added), or a filter to change or remove, not there */
#define NPP_MISFIT 9  /* a rule and its set do not fit */
#define NPP_FULL 10   /* adding a rule when the rules held equal the room, or a price behind 256 rows */
#define NPP_IN_USE 11 /* removing a set that a rule names */
#define NPP_SHORT 12  /* conditioning meets too few digits */
#define NPP_LONG 13   /* outgoing digits over 32 */
#define NPP_NO_PRICE 14    /* no row of the price list fits the digits that a call is priced on */
#define NPP_LEDGER_FULL 15 /* the ledger has its 10,000,000 records */

/* ---- Classes ---- */

#define NPP_INTL 0
#define NPP_NATL 1
#define NPP_UNKNOWN 2
#define NPP_HOUSE3 3
#define NPP_HOUSE4 4
#define NPP_HOUSE5 5
#define NPP_AS_INCOMING 255 /* as a set's outgoing class alone */

/* ---- Outcomes of a number ---- */

#define NPP_NO_RULE 0   /* no filter fits */
#define NPP_ESCAPED 1   /* the set has no conditioning action */
#define NPP_RESPONDED 2 /* INPRTG's answer is not RELAY */
#define NPP_UNCHANGED 3 /* formatting is withheld */
#define NPP_FORMATTED 4 /* the outgoing digits are given */

/* ---- INPRTG's answers: the response of a number ---- */

#define NPP_RELAY 1
#define NPP_CONNECT 2
#define NPP_CONTINUE 3
#define NPP_RELEASECALL 4

/* ---- Lookup kinds ---- */

#define NPP_LOOKUP_NO_RECORD 0
#define NPP_LOOKUP_NO_ENTITY 1 /* record without entity */
#define NPP_LOOKUP_RN 2
#define NPP_LOOKUP_SP 3

/* ---- Conditioning actions: a code, and behind it a count ---- */

#define NPP_CA_IGN 1    /* count 1 to 16 */
#define NPP_CA_CC 2     /* 1 to 3 */
#define NPP_CA_AC 3     /* 1 to 8 */
#define NPP_CA_SN 4     /* 1 to 15 */
#define NPP_CA_DN 5     /* 1 to 15 */
#define NPP_CA_ZN 6     /* 1 to 15 */
#define NPP_CA_PFXA 7   /* 1 to 8 */
#define NPP_CA_PFXB 8   /* 1 to 8 */
#define NPP_CA_PFXC 9   /* 1 to 8 */
#define NPP_CA_PFXD 10  /* 1 to 8 */
#define NPP_CA_SNX 11   /* count 0 from here on */
#define NPP_CA_DNX 12
#define NPP_CA_ZNX 13
#define NPP_CA_FPFX 14
#define NPP_CA_CCDEF 15

/* ---- Service actions ---- */

#define NPP_SA_INPRTG 1
#define NPP_SA_CDPNNP 2
#define NPP_SA_ASDLKUP 3
#define NPP_SA_GRNLKUP 4
#define NPP_SA_CDIAL 5

/* ---- Formatting actions; 1 to 10 name the values of npp_stretch too ---- */

#define NPP_FA_CC 1
#define NPP_FA_AC 2
#define NPP_FA_SN 3
#define NPP_FA_DN 4
#define NPP_FA_ZN 5
#define NPP_FA_FPFX 6
#define NPP_FA_PFXA 7
#define NPP_FA_PFXB 8
#define NPP_FA_PFXC 9
#define NPP_FA_PFXD 10
#define NPP_FA_RN 11
#define NPP_FA_SP 12
#define NPP_FA_ASD 13
#define NPP_FA_GRN 14
#define NPP_FA_DELIMITER_A 15
#define NPP_FA_DELIMITER_B 16

/*
 * ---- Bodies ----
 *
 * Numbers of two and of four bytes have the high byte first. A digit is 0 to 15, one a byte. A digit
 * string is a length byte and then its full width; "1+3" is a length byte and 3 bytes. Unused bytes are
 * 0. Each list of a set ends at its first code 0, and every byte of it behind that is unused.
 *
 * A body may be lent with more bytes behind it: they are not looked at.
 */

#define NPP_OPEN_BYTES 41       /* npp_open */
#define NPP_SET_BYTES 47        /* npp_add_set, npp_replace_set */
#define NPP_SET_NUMBER_BYTES 2  /* npp_remove_set */
#define NPP_RULE_BYTES 21       /* npp_add_rule, npp_change_rule */
#define NPP_FILTER_BYTES 19     /* npp_remove_rule */
#define NPP_NUMBER_BYTES 73     /* npp_answer */
#define NPP_PRICE_BYTES 21      /* npp_add_price */
#define NPP_CALL_BYTES 87       /* npp_take_call */

/* Where the fields of an opening stand. */
#define NPP_OPEN_SETS_AT 0         /* 2: room for sets, 1 to 1,024 */
#define NPP_OPEN_RULES_AT 2        /* 2: room for rules, 1 to 4,096 */
#define NPP_OPEN_COUNTRY_AT 4      /* 1+3: default country code, 1 to 3 digits */
#define NPP_OPEN_DFLTRN_AT 8       /* 1+15: default routing number; no digits: not configured */
#define NPP_OPEN_DELIMITER_A_AT 24 /* 1+5 */
#define NPP_OPEN_DELIMITER_B_AT 30 /* 1+5 */
#define NPP_OPEN_ANSWERS_AT 36     /* 4: INPRTG's answers for the lookup kinds 0, 1, 2, 3 */
#define NPP_OPEN_ACCEPTING_AT 40   /* 1: 0, or 1 for success of CDPNNP on lookup kind 1, with RN and SP empty */

/* Where the fields of a set stand; the body of a removal is its number alone. */
#define NPP_SET_NUMBER_AT 0 /* 2 */
#define NPP_SET_CLASS_AT 2  /* 1: outgoing class, 0 to 5, or 255 for "as incoming" */
#define NPP_SET_CA_AT 3     /* 12 pairs, code and count */
#define NPP_SET_SA_AT 27    /* 8 codes */
#define NPP_SET_FA_AT 35    /* 12 codes */

/* Where the fields of a rule stand; the first 19 bytes are its filter. */
#define NPP_RULE_CLASS_AT 0   /* 1 */
#define NPP_RULE_PREFIX_AT 1  /* 1+16; no digits: wildcard */
#define NPP_RULE_LENGTH_AT 18 /* 1: 1 to 32; 0: wildcard */
#define NPP_RULE_SET_AT 19    /* 2: the number of the set it names */

/* Where the fields of a number stand. */
#define NPP_NUMBER_CLASS_AT 0   /* 1 */
#define NPP_NUMBER_DIGITS_AT 1  /* 1+32 */
#define NPP_NUMBER_LOOKUP_AT 34 /* 1: the lookup's kind */
#define NPP_NUMBER_ENTITY_AT 35 /* 1+15: 1 to 15 digits for kinds 2 and 3, else none */
#define NPP_NUMBER_ASD_AT 51    /* 1+10: none for kind 0 */
#define NPP_NUMBER_GRN_AT 62    /* 1+10: none for kind 0 */

/* Where the fields of a price, a row of the price list, stand. */
#define NPP_PRICE_PREFIX_AT 0 /* 1+16; no digits: fits every number */
#define NPP_PRICE_PRICE_AT 17 /* 4: of a minute, in thousandths of a cent, 0 to 1,000,000 */

/* Where the fields of a call record stand; from NPP_CALL_NUMBER_AT on it is the body of a number. */
#define NPP_CALL_ACCOUNT_AT 0  /* 4: any number; no sum is kept by account */
#define NPP_CALL_DISTRICT_AT 4 /* 2: 0 to 511 */
#define NPP_CALL_SECONDS_AT 6  /* 4: 0 to 86,400 */
#define NPP_CALL_BILLED_AT 10  /* 4: in thousandths of a cent, 0 to 1,440,000,000 */
#define NPP_CALL_NUMBER_AT 14  /* 73: the number called, with its lookup */

/* ---- Differences: what npp_compare writes ---- */

#define NPP_DIFFERENCE_BYTES 24 /* an entry */
#define NPP_MOST_DIFFERENCES 8192 /* every filter of two full plans */

/* Where the fields of an entry stand. */
#define NPP_DIFFERENCE_KIND_AT 0       /* 1: which of the plans hold the filter */
#define NPP_DIFFERENCE_FILTER_AT 1     /* 19: the filter, as it begins the body of a rule */
#define NPP_DIFFERENCE_LEFT_SET_AT 20  /* 2: the set that the left plan's rule names, or NPP_NO_SET */
#define NPP_DIFFERENCE_RIGHT_SET_AT 22 /* 2: the set that the right plan's rule names, or NPP_NO_SET */

#define NPP_LEFT_ONLY 1
#define NPP_RIGHT_ONLY 2
#define NPP_IN_BOTH 3    /* with sets whose content differs */
#define NPP_NO_SET 65535 /* the plan holds no rule with the filter */

/* ---- Kinds of house records, for npp_replay ---- */

#define NPP_RECORD_OPEN 0
#define NPP_RECORD_ADD_SET 1
#define NPP_RECORD_REPLACE_SET 2
#define NPP_RECORD_REMOVE_SET 3
#define NPP_RECORD_ADD_RULE 4
#define NPP_RECORD_CHANGE_RULE 5
#define NPP_RECORD_REMOVE_RULE 6

/* ---- Sizes ---- */

/* The least bytes of a buffer for digits (npp_answer, npp_conditioned, npp_take_call) and for a set's
   content. */
#define NPP_DIGIT_BUFFER_BYTES 35
#define NPP_CONTENT_BUFFER_BYTES 47

/* The least bytes of the memory of a plan with these rooms: 64, 48 a set and 24 a rule. */
#define NPP_PLAN_BYTES(sets, rules) ((size_t)64 + (size_t)48 * (size_t)(sets) + (size_t)24 * (size_t)(rules))

/* The bytes of a price list, and the rows that it takes. */
#define NPP_PRICES_BYTES 6146
#define NPP_PRICE_ROWS 256

/* The districts of a ledger, their numbers, three a district, and the records that it takes. */
#define NPP_DISTRICTS 512
#define NPP_LEDGER_NUMBERS 1536
#define NPP_LEDGER_RECORDS 10000000

/* The units of a cent: a unit is a sixtieth of a thousandth of a cent. */
#define NPP_UNITS_A_CENT 60000

#ifdef __cplusplus
extern "C" {
#endif

/*
 * ---- What the calls give ----
 *
 * Where `refusal` is not 0, every other field is 0. `class_code` is the field `class` of the library,
 * a word that C++ keeps for itself.
 */

/* What npp_answer and npp_take_call give. */
typedef struct npp_answered {
    uint8_t refusal;    /* 0, or the number of the refusal */
    uint8_t outcome;    /* 0 to 4 */
    uint8_t class_code; /* in outcomes 1 and 4 the set's class, the incoming one where that is 255;
                           else the incoming one */
    uint8_t response;   /* 1 to 4 if INPRTG was carried out, else 0 */
    uint8_t count;      /* how many service actions were carried out */
    uint8_t actions[8]; /* their codes in order, 0 behind the last */
    size_t digits;      /* how many outgoing digits stand at the front of `out`, 0 to 32 */
} npp_answered;

/* What npp_conditioned and npp_set_content give. */
typedef struct npp_written {
    uint8_t refusal; /* 0, or the number of the refusal */
    size_t bytes;    /* how many bytes were written at the front of `out` */
} npp_written;

/* What npp_referrers and npp_rule_count give. */
typedef struct npp_counted {
    uint8_t refusal; /* 0, or the number of the refusal */
    size_t rules;    /* how many rules were counted */
} npp_counted;

/* What npp_stretch gives. */
typedef struct npp_span {
    size_t start; /* the place of its first digit in `digits` */
    size_t count; /* how many digits it has */
} npp_span;

/* What npp_rule_at gives. */
typedef struct npp_listed {
    uint8_t refusal;    /* 0, or the number of the refusal */
    uint8_t class_code; /* the filter's class */
    uint8_t digits;     /* how many digits the prefix has; 0: wildcard */
    uint8_t length;     /* the filter's length; 0: wildcard */
    uint8_t prefix[16]; /* the prefix's digits; the bytes behind them are 0 */
    uint16_t set;       /* the number of the set that the rule names */
} npp_listed;

/* What npp_district_loss and npp_total_loss give. */
typedef struct npp_loss {
    uint8_t refusal; /* 0, or the number of the refusal */
    uint8_t held;    /* 1 if the district has records, else 0 with units and cents 0; of the total 1 */
    int64_t units;   /* due less billed, in units; below zero where we were overcharged */
    int64_t cents;   /* the same in whole cents, rounded once, a half away from zero */
} npp_loss;

/* The whole of a ledger, over all its districts. It is lent to npp_take_call, which changes it. */
typedef struct npp_totals {
    int64_t count;  /* how many records were taken */
    int64_t due;    /* what they are due, in units */
    int64_t billed; /* what was billed for them, in units */
} npp_totals;

/* What npp_compare gives. */
typedef struct npp_compared {
    uint8_t refusal;    /* 0, or the number of the refusal */
    size_t differences; /* how many entries stand at the front of `out`, 0 to 8,192 */
} npp_compared;

/*
 * ---- The plan memory ----
 */

/*
 * Whether a memory is a sound plan of this build (docs/LAYOUT.md, "Sound"). Bytes behind the size that
 * the plan's rooms need are not looked at.
 *
 * Gives true exactly if it is. Writes nothing. Refuses nothing: a memory of any length and content is
 * answered.
 */
bool npp_sound(const uint8_t *memory, size_t memory_bytes);

/*
 * ---- Opening and provisioning ----
 *
 * Each of these seven calls gets the plan memory and a body. It gives 0 if it is accepted, else the
 * number of its refusal. An accepted call leaves the plan with the change made, in every byte as
 * docs/LAYOUT.md lays it out; the bytes behind the size that its rooms need stay. A refused call leaves
 * every byte as it was. The body is not written.
 *
 * PLAN is never given over a memory on which an opening was accepted and which nobody but these calls
 * has written since.
 */

/*
 * Opens a plan over a memory, whatever it holds. An accepted opening starts afresh: the plan has the
 * rooms and settings of the body, no set and no rule. A refused one leaves the old plan in force.
 *
 * Refusals, in order:
 *   1 CUT    body_bytes is under 41
 *   5 RANGE  a field is out of range, or an unused byte is not 0
 *   4 ROOM   plan_bytes is under NPP_PLAN_BYTES of the rooms asked
 */
uint8_t npp_open(uint8_t *plan, size_t plan_bytes, const uint8_t *body, size_t body_bytes);

/*
 * Adds the set of the body's number, with the body's content.
 *
 * Refusals, in order:
 *   1 CUT     body_bytes is under 47
 *   3 PLAN    the memory is not a sound plan
 *   5 RANGE   the set number is at or over the room, a field of the content is out of range, or an
 *             unused byte is not 0
 *   6 GROUPS  the content breaks a group rule
 *   7 TAKEN   a set of this number is held
 */
uint8_t npp_add_set(uint8_t *plan, size_t plan_bytes, const uint8_t *body, size_t body_bytes);

/*
 * Gives the set of the body's number the body's content in place of its own. Every rule that names it
 * must fit the new content.
 *
 * Refusals, in order:
 *   1 CUT     body_bytes is under 47
 *   3 PLAN    the memory is not a sound plan
 *   5 RANGE   the set number is at or over the room, a field of the content is out of range, or an
 *             unused byte is not 0
 *   6 GROUPS  the content breaks a group rule
 *   8 ABSENT  no set of this number is held
 *   9 MISFIT  a rule that names the set does not fit the content
 */
uint8_t npp_replace_set(uint8_t *plan, size_t plan_bytes, const uint8_t *body, size_t body_bytes);

/*
 * Removes the set of the body's number. Its room is used again.
 *
 * Refusals, in order:
 *   1 CUT     body_bytes is under 2
 *   3 PLAN    the memory is not a sound plan
 *   5 RANGE   the set number is at or over the room
 *   8 ABSENT  no set of this number is held
 *  11 IN USE  a rule names the set
 */
uint8_t npp_remove_set(uint8_t *plan, size_t plan_bytes, const uint8_t *body, size_t body_bytes);

/*
 * Adds a rule with the body's filter, which names the body's set. It stands at its place in listing
 * order.
 *
 * Refusals, in order:
 *   1 CUT     body_bytes is under 21
 *   3 PLAN    the memory is not a sound plan
 *   5 RANGE   the filter is out of range, its prefix is longer than its stated length, an unused byte
 *             is not 0, or the set number is at or over the room
 *   7 TAKEN   a rule with this filter is held
 *   8 ABSENT  no set of this number is held
 *   9 MISFIT  the filter and the set do not fit
 *  10 FULL    the rules held equal the room
 */
uint8_t npp_add_rule(uint8_t *plan, size_t plan_bytes, const uint8_t *body, size_t body_bytes);

/*
 * Has the rule of the body's filter name the body's set. It may be the set that it names already.
 *
 * Refusals, in order:
 *   1 CUT     body_bytes is under 21
 *   3 PLAN    the memory is not a sound plan
 *   5 RANGE   as in npp_add_rule
 *   8 ABSENT  no rule with this filter is held, or no set of this number
 *   9 MISFIT  the filter and the set do not fit
 */
uint8_t npp_change_rule(uint8_t *plan, size_t plan_bytes, const uint8_t *body, size_t body_bytes);

/*
 * Removes the rule of the body's filter. Its room is used again.
 *
 * Refusals, in order:
 *   1 CUT     body_bytes is under 19
 *   3 PLAN    the memory is not a sound plan
 *   5 RANGE   the filter is out of range, its prefix is longer than its stated length, or an unused
 *             byte is not 0
 *   8 ABSENT  no rule with this filter is held
 */
uint8_t npp_remove_rule(uint8_t *plan, size_t plan_bytes, const uint8_t *body, size_t body_bytes);

/*
 * Runs a list of these calls on one plan memory. `calls` holds house records one behind the other, a
 * kind byte (0 to 6) and its body of just the length above; each call gets the plan as the last one
 * left it.
 *
 * Gives how many calls were carried out, refused ones included. Writes the number of each, 0 or its
 * refusal, at the front of `numbers`, whose other bytes stay, and leaves the plan memory as these calls
 * leave it. It ends before the first byte that is not a kind 0 to 6, before the first record that is
 * cut, and where `numbers` is full: with numbers_bytes 0 nothing is carried out. A call that is refused
 * does not end it. `calls` is not written. It has no refusal of its own.
 */
size_t npp_replay(uint8_t *plan, size_t plan_bytes, const uint8_t *calls, size_t calls_bytes,
                  uint8_t *numbers, size_t numbers_bytes);

/*
 * ---- Answering a number ----
 */

/*
 * Answers the number of the body: finds the most specific rule that fits, and carries out its set's
 * conditioning, service and formatting actions with the body's lookup.
 *
 * Gives the answer, field by field as npp_answered says. Outcome 4 writes the outgoing digits, one a
 * byte, at the front of `out`; the bytes behind them stay. Outcomes 0 to 3 and refusals write nothing.
 * Plan and body are not written.
 *
 * Refusals, in order:
 *   1 CUT    body_bytes is under 73
 *   3 PLAN   the memory is not a sound plan
 *   4 ROOM   out_bytes is under 35, whatever the outcome would be
 *   5 RANGE  a field of the body is out of range, or an unused byte is not 0
 *  12 SHORT  conditioning meets too few digits
 *  13 LONG   outcome 4 with more than 32 outgoing digits
 */
npp_answered npp_answer(const uint8_t *plan, size_t plan_bytes, const uint8_t *body, size_t body_bytes,
                        uint8_t *out, size_t out_bytes);

/*
 * ---- The read calls ----
 *
 * None of them writes the plan or the digits.
 */

/*
 * The conditioned number, for the lookup: ZN, or CC then DN, or CC then AC then SN.
 *
 * Writes its 1 to 35 digits at the front of `out` and gives how many; the bytes behind them stay. Where
 * no rule fits, or the set has no conditioning action, it writes none and gives 0 bytes, refusal 0.
 *
 * Refusals, in order:
 *   3 PLAN   the memory is not a sound plan
 *   4 ROOM   out_bytes is under 35
 *   5 RANGE  class_code is over 5, digit_count is over 32, or a digit is over 15
 *  12 SHORT  conditioning meets too few digits
 */
npp_written npp_conditioned(const uint8_t *plan, size_t plan_bytes, uint8_t class_code, const uint8_t *digits,
                            size_t digit_count, uint8_t *out, size_t out_bytes);

/*
 * The stretch of the incoming digits that a value covers. `value` is its formatting action's code, 1 to
 * 10 (NPP_FA_CC to NPP_FA_PFXD).
 *
 * Gives its start and count in `digits`. The empty stretch, start 0 and count 0, is given where the
 * value is not 1 to 10 or is not taken from the number (no conditioning action sets it, or CCDEF sets
 * CC), where no rule fits or the set has no conditioning action, and where npp_conditioned with room
 * enough would be refused: PLAN, RANGE, SHORT. Writes nothing. It has no refusal number.
 */
npp_span npp_stretch(const uint8_t *plan, size_t plan_bytes, uint8_t class_code, const uint8_t *digits,
                     size_t digit_count, uint8_t value);

/*
 * The content of a set.
 *
 * Writes 47 bytes at the front of `out`, a body as npp_add_set takes it: the number, and the content as
 * it was last accepted. Gives 47 bytes; the bytes behind them stay.
 *
 * Refusals, in order:
 *   3 PLAN    the memory is not a sound plan
 *   4 ROOM    out_bytes is under 47
 *   5 RANGE   the set number is at or over the room
 *   8 ABSENT  no set of this number is held
 */
npp_written npp_set_content(const uint8_t *plan, size_t plan_bytes, uint16_t set, uint8_t *out, size_t out_bytes);

/*
 * How many rules name a set.
 *
 * Gives the count. Writes nothing.
 *
 * Refusals, in order:
 *   3 PLAN    the memory is not a sound plan
 *   5 RANGE   the set number is at or over the room
 *   8 ABSENT  no set of this number is held
 */
npp_counted npp_referrers(const uint8_t *plan, size_t plan_bytes, uint16_t set);

/*
 * ---- The listing ----
 *
 * Rules are listed by class rising; then by prefix as digits, the shorter first where one begins the
 * other; then by stated length rising, the wildcard last.
 */

/*
 * How many rules are listed.
 *
 * Gives the count, 0 to 4,096. Writes nothing.
 *
 * Refusals:
 *   3 PLAN   the memory is not a sound plan
 */
npp_counted npp_rule_count(const uint8_t *plan, size_t plan_bytes);

/*
 * The rule at a place of the listing, counted from 0. A place is not a set number.
 *
 * Gives every field of the rule. Writes nothing.
 *
 * Refusals, in order:
 *   3 PLAN   the memory is not a sound plan
 *   5 RANGE  the place is at or over the count of rules
 */
npp_listed npp_rule_at(const uint8_t *plan, size_t plan_bytes, uint16_t place);

/*
 * ---- Two plans side by side ----
 *
 * C-20 of document 02: what differs between the plans of two quarters.
 */

/*
 * Compares two plans. In listing order, and each once: every filter that the left plan holds alone, that
 * the right one does, or that both hold with sets whose content differs. Sets are compared by content and
 * not by number, and one that no rule names is not looked at; settings and rooms are left aside. The two
 * may be one and the same memory.
 *
 * Gives how many differences there are, and writes an entry of NPP_DIFFERENCE_BYTES bytes for each at the
 * front of `out`; the bytes behind them stay. Where there is none, any buffer will do, and both plans
 * under equal settings give every number the same answer. NPP_DIFFERENCE_BYTES for each rule of both plans
 * always suffices. The plans are not written.
 *
 * Refusals, in order:
 *   3 PLAN   one of the memories is not a sound plan
 *   4 ROOM   out_bytes is under 24 for each difference
 */
npp_compared npp_compare(const uint8_t *left, size_t left_bytes, const uint8_t *right, size_t right_bytes,
                         uint8_t *out, size_t out_bytes);

/*
 * ---- Prices, call records and losses ----
 *
 * C-11 of document 02: what calls were due, held against what was billed for them, district by district.
 *
 * A price list is NPP_PRICES_BYTES bytes, and the ledger of a month NPP_LEDGER_NUMBERS numbers for its
 * districts and three for the whole. The empty ones are all 0, and no call makes them:
 *
 *     static uint8_t prices[NPP_PRICES_BYTES];
 *     static int64_t districts[NPP_LEDGER_NUMBERS];
 *     static npp_totals whole;
 *
 * District d has the count of its records at districts[3 * d], what they are due at [3 * d + 1] and what
 * was billed at [3 * d + 2]. Each of the three is lent for the time of a call and no longer; a call that
 * changes one changes it where it stands. Between the calls of a month the caller keeps them as they are,
 * and may store them and lend them again; a new month begins with all numbers of the ledger 0. They belong
 * to no plan: an opening leaves them.
 *
 * Money is counted in units, sixtieths of a thousandth of a cent: a call is due its seconds times the
 * price of a minute, and what was billed, in thousandths of a cent, is taken times 60. So no sum is
 * rounded; only `cents` of npp_loss is.
 *
 * A price list is out of range, and draws RANGE, if it has over 256 rows, a row has a field out of range,
 * a prefix stands twice or out of order, or an unused byte is not 0 (docs/LAYOUT.md). A ledger is, if the
 * whole's count is over 10,000,000, a district's count is over the whole's, or a due or billed is negative
 * or over the count beside it times 86,400,000,000. What these calls alone have made of all 0 never is.
 */

/*
 * Adds a row to a price list: what a minute costs to numbers that begin with the body's prefix.
 *
 * Gives 0 if it is accepted, else the number of its refusal. An accepted call leaves the list with the
 * row at its place among the others, in prefix order; a refused one leaves every byte as it was. `prices`
 * has NPP_PRICES_BYTES bytes. The body is not written.
 *
 * Refusals, in order:
 *   1 CUT    body_bytes is under 21
 *   5 RANGE  a field of the body is out of range, an unused byte is not 0, or the list is out of range
 *   7 TAKEN  a row with this prefix is held
 *  10 FULL   256 rows are held
 */
uint8_t npp_add_price(uint8_t *prices, const uint8_t *body, size_t body_bytes);

/*
 * Takes a call record: answers its number as npp_answer does, and enters what the call is due and what
 * was billed for it into the ledger, under its district and in the whole.
 *
 * The call is priced by the row with the longest prefix that its digits begin with: the outgoing digits
 * in outcome 4, the incoming ones in outcomes 0, 1 and 3. In outcome 2 it is due nothing and needs no row.
 *
 * Gives the answer to the number. An accepted call leaves one record more, its due and its billed in the
 * three numbers of the district and in the whole, and in outcome 4 the outgoing digits at the front of
 * `out`; every other number, and the bytes behind the digits, stay. A refused one leaves all of them as
 * they were. `prices` has NPP_PRICES_BYTES bytes, `districts` NPP_LEDGER_NUMBERS numbers. Plan, prices
 * and body are not written.
 *
 * Refusals, in order:
 *   1 CUT          body_bytes is under 87
 *   3 PLAN         the memory is not a sound plan
 *   4 ROOM         out_bytes is under 35, whatever the outcome would be
 *   5 RANGE        a field of the body is out of range, an unused byte of it is not 0, or the price list
 *                  or the ledger is out of range
 *  12 SHORT        conditioning meets too few digits
 *  13 LONG         outcome 4 with more than 32 outgoing digits
 *  14 NO PRICE     no row fits, in any outcome but 2
 *  15 LEDGER FULL  10,000,000 records were taken
 */
npp_answered npp_take_call(const uint8_t *plan, size_t plan_bytes, const uint8_t *prices, int64_t *districts,
                           npp_totals *whole, const uint8_t *body, size_t body_bytes, uint8_t *out,
                           size_t out_bytes);

/*
 * The loss of a district: what its records are due, less what was billed for them.
 *
 * Gives the loss in units and in whole cents, `held` 1. A district without records is not refused: it
 * gives `held` 0 and a loss of 0. Writes nothing. `districts` has NPP_LEDGER_NUMBERS numbers, and `whole`
 * is the whole that belongs to them, by value.
 *
 * Refusals:
 *   5 RANGE  the ledger is out of range, or the district is over 511
 */
npp_loss npp_district_loss(const int64_t *districts, npp_totals whole, uint16_t district);

/*
 * The loss over all districts, from the whole: rounded once, and not added up from rounded losses.
 *
 * Gives the loss in units and in whole cents, `held` 1, over an empty ledger too. Writes nothing.
 * `districts` and `whole` are as in npp_district_loss.
 *
 * Refusals:
 *   5 RANGE  the ledger is out of range
 */
npp_loss npp_total_loss(const int64_t *districts, npp_totals whole);

#ifdef __cplusplus
}
#endif

#endif
