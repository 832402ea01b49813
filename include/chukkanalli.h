/*
 * Kuhn poker for 2 to 10 seats and Leduc hold'em for 2: the rules calls, the saved-position checks, the listing, the
 * evaluations in whole units and in f64 and the comparison of evaluated tables of libchukkanalli.a, for x86-64 Linux.
 *
 * Every call is defined on every input, and answers a refusal number: 0 if it was accepted, else the first number of the list below that
 * applies; chukkanalli_compare alone refuses nothing. A refused call leaves all lent memory as it was. Every answer of a call on a position holds a position: the new one of an
 * accepted deal or step, else the one handed in, to the byte. Every other field of a refused answer is 0. A call touches no memory but what
 * it is lent, and keeps no state.
 *
 * What a caller owes: a pointer is aligned and valid for reading, and unless it is const for writing, as many elements as the length beside it
 * says, and is null only where that length is 0; what is lent for writing overlaps nothing else lent to the call, and no other thread uses it during the
 * call; what is lent for reading no thread writes.
 */
#ifndef CHUKKANALLI_H
#define CHUKKANALLI_H

#include <stddef.h>
#include <stdint.h>

#ifdef __cplusplus
extern "C" {
#endif

/* The refusal numbers of the calls below. */
enum {
    CHUKKANALLI_ACCEPTED = 0,
    CHUKKANALLI_GAME = 1,          /* the game is neither Kuhn nor Leduc */
    CHUKKANALLI_SEATS = 2,         /* the seat count is outside 2 to 10 for Kuhn, or not 2 for Leduc */
    CHUKKANALLI_TREE = 3,          /* the tree has more than 4,000,000 nodes, which is Kuhn with 7 to 10 seats */
    CHUKKANALLI_MEMORY = 4,        /* the work memory has fewer than 12 words of 64 bits per node of the tree */
    CHUKKANALLI_SEAT = 5,          /* the seat is not below the seat count */
    CHUKKANALLI_PARTS = 6,         /* D, the parts per set, is 0, or above 64 (Leduc, Kuhn 2 to 4) or above 16 (Kuhn 5 and 6) */
    CHUKKANALLI_TABLE = 7,         /* the table's or profile's length is not exactly the entry count */
    CHUKKANALLI_SUM = 8,           /* in some set the parts do not add up to D */
    CHUKKANALLI_OUTPUT = 9,        /* an output is shorter than its answer */
    CHUKKANALLI_CARD_COUNT = 10,   /* a saved position does not hold one card per seat */
    CHUKKANALLI_CARD = 11,         /* a card is not in the deck */
    CHUKKANALLI_CARD_TWICE = 12,   /* a card appears twice */
    CHUKKANALLI_HISTORY = 13,      /* a history is too long or holds an unknown action */
    CHUKKANALLI_CLOSED = 14,       /* an action stands after the hand or its round closed, or in round 2 before round 1 closed */
    CHUKKANALLI_ILLEGAL = 15,      /* a Leduc action was not legal when made */
    CHUKKANALLI_NO_PUBLIC = 16,    /* a live second round has no public card */
    CHUKKANALLI_EARLY_PUBLIC = 17, /* a public card lies there before round 1 closed */
    CHUKKANALLI_END_MARK = 18,     /* the saved end mark differs from the position */
    CHUKKANALLI_UNREACHABLE = 19,  /* the position cannot be reached from the start by legal moves */
    CHUKKANALLI_UNFIT = 20         /* the call does not fit the position */
};

/* Kuhn: actions. */
enum { CHUKKANALLI_PASS = 0, CHUKKANALLI_BET = 1 };

/* Leduc: actions, and the public card that is none. */
enum { CHUKKANALLI_FOLD = 0, CHUKKANALLI_CALL = 1, CHUKKANALLI_RAISE = 2 };
enum { CHUKKANALLI_NO_CARD = 255 };

/* ---- Kuhn */

/* A position: the cards of the first `dealt` seats, and the `acted` actions made. Places past a length are not read, and stay. */
typedef struct {
    uint8_t cards[10];
    uint64_t dealt;
    uint8_t history[19];
    uint64_t acted;
} chukkanalli_kuhn_position;

/* What a start, a deal, a step or a saved-position check answers. */
typedef struct {
    uint64_t refusal;
    chukkanalli_kuhn_position position;
} chukkanalli_kuhn_moved;

/* What a legal list or a key answers: how many bytes it wrote to the front of the output. */
typedef struct {
    uint64_t refusal;
    chukkanalli_kuhn_position position;
    uint64_t count;
} chukkanalli_kuhn_written;

/* What a payoff answers: a number for each of `count` seats, 0 past them. */
typedef struct {
    uint64_t refusal;
    chukkanalli_kuhn_position position;
    uint64_t count;
    int64_t payoffs[10];
} chukkanalli_kuhn_payoffs;

/* The refusal number of the seat count itself. Refuses with 2. */
uint64_t chukkanalli_kuhn_validate(uint64_t seats);

/* Start: no card dealt, no action made. Refuses with 2; its position is all 0 then too. */
chukkanalli_kuhn_moved chukkanalli_kuhn_initial_state(uint64_t seats);

/* Legal list of a seat, one byte an action; empty for a seat whose turn it is not, while a card is due and after the end. Refuses with 2, 19, 9. */
chukkanalli_kuhn_written chukkanalli_kuhn_legal_actions(
    uint64_t seats, chukkanalli_kuhn_position position, uint64_t seat, uint8_t *out, size_t out_len);

/* Deal: the next seat gets the card of an outcome, which counts those left from the lowest. Refuses with 2, 19, 20. */
chukkanalli_kuhn_moved chukkanalli_kuhn_apply_chance_node(uint64_t seats, chukkanalli_kuhn_position position, uint64_t outcome);

/* Step of the seat whose turn it is; every action above 1 counts as BET. Refuses with 2, 19, 20. */
chukkanalli_kuhn_moved chukkanalli_kuhn_step(uint64_t seats, chukkanalli_kuhn_position position, uint64_t action);

/* Key of a seat that has a card: seat, card, history; up to 21 bytes. Refuses with 2, 19, 20, 9. */
chukkanalli_kuhn_written chukkanalli_kuhn_information_state_key(
    uint64_t seats, chukkanalli_kuhn_position position, uint64_t seat, uint8_t *out, size_t out_len);

/* Payoff of each seat, at the end of a hand. Refuses with 2, 19, 20. */
chukkanalli_kuhn_payoffs chukkanalli_kuhn_payouts(uint64_t seats, chukkanalli_kuhn_position position);

/* Saved position with its end mark, 0 for a live hand and 1 for one that has ended. Refuses with 2, 10 to 14, 18. */
chukkanalli_kuhn_moved chukkanalli_kuhn_validate_decoded_state(uint64_t seats, chukkanalli_kuhn_position position, uint64_t done);

/* ---- Leduc */

/* A position: the cards of the first `dealt` seats, the public card or CHUKKANALLI_NO_CARD, the `acted1` actions of round 1 from place 0 and
 * the `acted2` of round 2 from place 4. Places past a length are not read, and stay. */
typedef struct {
    uint8_t cards[2];
    uint64_t dealt;
    uint8_t public_card;
    uint8_t history[8];
    uint64_t acted1;
    uint64_t acted2;
} chukkanalli_leduc_position;

/* What a start, a deal, a step or a saved-position check answers. */
typedef struct {
    uint64_t refusal;
    chukkanalli_leduc_position position;
} chukkanalli_leduc_moved;

/* What a legal list or a key answers: how many bytes it wrote to the front of the output. */
typedef struct {
    uint64_t refusal;
    chukkanalli_leduc_position position;
    uint64_t count;
} chukkanalli_leduc_written;

/* What a payoff answers: a number for each of `count` seats, 0 past them. */
typedef struct {
    uint64_t refusal;
    chukkanalli_leduc_position position;
    uint64_t count;
    int64_t payoffs[10];
} chukkanalli_leduc_payoffs;

/* Start: no card dealt, no action made. Never refuses. */
chukkanalli_leduc_moved chukkanalli_leduc_initial_state(void);

/* Legal list of a seat, one byte an action; empty for a seat whose turn it is not, while a card is due and after the end. Refuses with 19, 9. */
chukkanalli_leduc_written chukkanalli_leduc_legal_actions(
    chukkanalli_leduc_position position, uint64_t seat, uint8_t *out, size_t out_len);

/* Deal of a seat's card, or of the public card once round 1 has closed; an outcome counts the cards left from the lowest. Refuses with 19, 20. */
chukkanalli_leduc_moved chukkanalli_leduc_apply_chance_node(chukkanalli_leduc_position position, uint64_t outcome);

/* Step of the seat whose turn it is; an illegal action becomes FOLD if that is legal, else CALL. Refuses with 19, 20. */
chukkanalli_leduc_moved chukkanalli_leduc_step(chukkanalli_leduc_position position, uint64_t action);

/* Key of a seat that has a card: seat, card, public card or 255, then each round's length and actions; up to 13 bytes. Refuses with 19, 20, 9. */
chukkanalli_leduc_written chukkanalli_leduc_information_state_key(
    chukkanalli_leduc_position position, uint64_t seat, uint8_t *out, size_t out_len);

/* Payoff of each seat, at the end of a hand. Refuses with 19, 20. */
chukkanalli_leduc_payoffs chukkanalli_leduc_payouts(chukkanalli_leduc_position position);

/* Saved position with its end mark, 0 for a live hand and 1 for one that has ended. Refuses with 10 to 18. */
chukkanalli_leduc_moved chukkanalli_leduc_validate_decoded_state(chukkanalli_leduc_position position, uint64_t done);

/* ---- Either game, by its number */

enum { CHUKKANALLI_KUHN_POKER = 0, CHUKKANALLI_LEDUC_POKER = 1 };

/* The bytes that the listing writes for a set. */
enum { CHUKKANALLI_RECORD = 24 };

/* What the listing answers: the nodes and the sets of the game's tree. */
typedef struct {
    uint64_t refusal;
    uint64_t nodes;
    uint64_t sets;
} chukkanalli_listing;

/* Listing of a game's sets to the front of the output, in set order, 24 bytes a set: seat, key length, key in 13 bytes, public card or 255, the
 * first node's cards in 6 bytes, legal count, 0; unused bytes are 0. The work memory holds 12 words for each node of the tree, and is not
 * touched. Refuses with 1, 2, 3, 4, 9. */
chukkanalli_listing chukkanalli_enumerate_infosets(
    uint64_t game, uint64_t seats, const uint64_t *work, size_t work_len, uint8_t *out, size_t out_len);

/* The seats of a tree at most. */
enum { CHUKKANALLI_TREE_SEATS = 6 };

/* The words of work memory for each node of a tree. */
enum { CHUKKANALLI_WORDS = 12 };

/* What each tree has: nodes, sets, the entries of a table, and the words of work memory that a call on it needs. */
enum {
    CHUKKANALLI_KUHN_2_NODES = 58,
    CHUKKANALLI_KUHN_2_SETS = 12,
    CHUKKANALLI_KUHN_2_ENTRIES = 24,
    CHUKKANALLI_KUHN_2_WORK = CHUKKANALLI_WORDS * CHUKKANALLI_KUHN_2_NODES,
    CHUKKANALLI_KUHN_3_NODES = 617,
    CHUKKANALLI_KUHN_3_SETS = 48,
    CHUKKANALLI_KUHN_3_ENTRIES = 96,
    CHUKKANALLI_KUHN_3_WORK = CHUKKANALLI_WORDS * CHUKKANALLI_KUHN_3_NODES,
    CHUKKANALLI_KUHN_4_NODES = 7886,
    CHUKKANALLI_KUHN_4_SETS = 160,
    CHUKKANALLI_KUHN_4_ENTRIES = 320,
    CHUKKANALLI_KUHN_4_WORK = CHUKKANALLI_WORDS * CHUKKANALLI_KUHN_4_NODES,
    CHUKKANALLI_KUHN_5_NODES = 116437,
    CHUKKANALLI_KUHN_5_SETS = 480,
    CHUKKANALLI_KUHN_5_ENTRIES = 960,
    CHUKKANALLI_KUHN_5_WORK = CHUKKANALLI_WORDS * CHUKKANALLI_KUHN_5_NODES,
    CHUKKANALLI_KUHN_6_NODES = 1944020,
    CHUKKANALLI_KUHN_6_SETS = 1344,
    CHUKKANALLI_KUHN_6_ENTRIES = 2688,
    CHUKKANALLI_KUHN_6_WORK = CHUKKANALLI_WORDS * CHUKKANALLI_KUHN_6_NODES,
    CHUKKANALLI_LEDUC_NODES = 9457,
    CHUKKANALLI_LEDUC_SETS = 936,
    CHUKKANALLI_LEDUC_ENTRIES = 2184,
    CHUKKANALLI_LEDUC_WORK = CHUKKANALLI_WORDS * CHUKKANALLI_LEDUC_NODES
};

/* The listing asks how long its work memory is and does not look into it, so that it need not be initialised. */
#if defined(__GNUC__) && !defined(__clang__) && __GNUC__ >= 11
extern __typeof__(chukkanalli_enumerate_infosets) chukkanalli_enumerate_infosets __attribute__((access(none, 3)));
#endif

/* Whole units. A table lists the parts of each action, one byte each, set after set in set order; in each set they add up to d. The work memory
 * holds 12 words for each node of the tree; what it holds within these after an accepted call is not said, and what is beyond stays.
 * What the worths answer: the seats, and what the table is worth to each of them, 0 past them. */
typedef struct {
    uint64_t refusal;
    uint64_t count;
    int64_t worths[CHUKKANALLI_TREE_SEATS];
} chukkanalli_worths_answer;

/* What a table is worth to each seat. Refuses with 1, 2, 3, 4, 6, 7, 8. */
chukkanalli_worths_answer chukkanalli_worths(
    uint64_t game, uint64_t seats, uint64_t *work, size_t work_len, uint64_t d, const uint8_t *table, size_t table_len);

/* What a best reply answers: the most that any table is worth to the seat which differs from the given one in that seat's sets only. */
typedef struct {
    uint64_t refusal;
    int64_t value;
} chukkanalli_reply_answer;

/* Best value of a seat; the reply that is worth it goes to the front of the output: the table with d on one action in each of the seat's sets
 * and 0 on the others. Refuses with 1 to 9. */
chukkanalli_reply_answer chukkanalli_best_reply(uint64_t game, uint64_t seats, uint64_t *work, size_t work_len, uint64_t seat, uint64_t d,
    const uint8_t *table, size_t table_len, uint8_t *out, size_t out_len);

/* What NashConv answers: the sum of best value - worth over the seats, and the units of the root, to divide by. */
typedef struct {
    uint64_t refusal;
    uint64_t nash_conv;
    uint64_t units;
} chukkanalli_nash_conv_answer;

/* NashConv of a table. Refuses with 1, 2, 3, 4, 6, 7, 8. */
chukkanalli_nash_conv_answer chukkanalli_nash_conv_units(
    uint64_t game, uint64_t seats, uint64_t *work, size_t work_len, uint64_t d, const uint8_t *table, size_t table_len);

/* How NashConv / units of one table stands to that of another, of any games, seats and d: -1 less, 0 equal, 1 greater; the lesser is closer to equilibrium.
 * Of any four numbers it compares nash_conv * other_units with other_nash_conv * units, as whole numbers. Units of 0, which no accepted call answers,
 * make it no order: 0 of 0 is equal to everything. Never refuses. */
int64_t chukkanalli_compare(uint64_t nash_conv, uint64_t units, uint64_t other_nash_conv, uint64_t other_units);

/* Values in f64. A profile lists an entry for each action, set after set in set order, any bits; products, sums and quotients are rounded in the order
 * that document 01 says. What these calls answer: count values, 0.0 past them. */
typedef struct {
    uint64_t refusal;
    uint64_t count;
    double values[CHUKKANALLI_TREE_SEATS];
} chukkanalli_values;

/* The best response value of a seat, alone in place 0. Refuses with 1, 2, 3, 4, 5, 7. */
chukkanalli_values chukkanalli_best_response_value(
    uint64_t game, uint64_t seats, uint64_t *work, size_t work_len, uint64_t seat, const double *profile, size_t profile_len);

/* The best response value of each seat. Refuses with 1, 2, 3, 4, 7. */
chukkanalli_values chukkanalli_best_response_values(
    uint64_t game, uint64_t seats, uint64_t *work, size_t work_len, const double *profile, size_t profile_len);

/* What a profile is worth to each seat. Refuses with 1, 2, 3, 4, 7. */
chukkanalli_values chukkanalli_profile_values(
    uint64_t game, uint64_t seats, uint64_t *work, size_t work_len, const double *profile, size_t profile_len);

/* NashConv, alone in place 0: the sum of best response value - worth by seat. Refuses with 1, 2, 3, 4, 7. */
chukkanalli_values chukkanalli_nash_conv(
    uint64_t game, uint64_t seats, uint64_t *work, size_t work_len, const double *profile, size_t profile_len);

/* Exploitability, alone in place 0: NashConv divided by the seats. Refuses with 1, 2, 3, 4, 7. */
chukkanalli_values chukkanalli_exploitability(
    uint64_t game, uint64_t seats, uint64_t *work, size_t work_len, const double *profile, size_t profile_len);

#ifdef __cplusplus
}
#endif

#endif
