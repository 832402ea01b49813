/* Document 01's cases a to l, the keys of Kuhn 2, each call on good and on refused input and each refusal number, through the header and the archive,
 * from C. Ends with status 1 at the first that differs; a wrong number or layout of the header does not compile. */
#include "chukkanalli.h"

#include <stdio.h>
#include <stdlib.h>
#include <string.h>

/* The header's numbers, as document 01 has them; rust/audit asks for each. */
#define CONSTANT(name, number) _Static_assert(CHUKKANALLI_##name == (number), "CHUKKANALLI_" #name " is " #number)

CONSTANT(ACCEPTED, 0);
CONSTANT(GAME, 1);
CONSTANT(SEATS, 2);
CONSTANT(TREE, 3);
CONSTANT(MEMORY, 4);
CONSTANT(SEAT, 5);
CONSTANT(PARTS, 6);
CONSTANT(TABLE, 7);
CONSTANT(SUM, 8);
CONSTANT(OUTPUT, 9);
CONSTANT(CARD_COUNT, 10);
CONSTANT(CARD, 11);
CONSTANT(CARD_TWICE, 12);
CONSTANT(HISTORY, 13);
CONSTANT(CLOSED, 14);
CONSTANT(ILLEGAL, 15);
CONSTANT(NO_PUBLIC, 16);
CONSTANT(EARLY_PUBLIC, 17);
CONSTANT(END_MARK, 18);
CONSTANT(UNREACHABLE, 19);
CONSTANT(UNFIT, 20);
CONSTANT(PASS, 0);
CONSTANT(BET, 1);
CONSTANT(FOLD, 0);
CONSTANT(CALL, 1);
CONSTANT(RAISE, 2);
CONSTANT(NO_CARD, 255);
CONSTANT(KUHN_POKER, 0);
CONSTANT(LEDUC_POKER, 1);
CONSTANT(RECORD, 24);
CONSTANT(TREE_SEATS, 6);
CONSTANT(WORDS, 12);
CONSTANT(KUHN_2_NODES, 58);
CONSTANT(KUHN_2_SETS, 12);
CONSTANT(KUHN_2_ENTRIES, 24);
CONSTANT(KUHN_2_WORK, 696);
CONSTANT(KUHN_3_NODES, 617);
CONSTANT(KUHN_3_SETS, 48);
CONSTANT(KUHN_3_ENTRIES, 96);
CONSTANT(KUHN_3_WORK, 7404);
CONSTANT(KUHN_4_NODES, 7886);
CONSTANT(KUHN_4_SETS, 160);
CONSTANT(KUHN_4_ENTRIES, 320);
CONSTANT(KUHN_4_WORK, 94632);
CONSTANT(KUHN_5_NODES, 116437);
CONSTANT(KUHN_5_SETS, 480);
CONSTANT(KUHN_5_ENTRIES, 960);
CONSTANT(KUHN_5_WORK, 1397244);
CONSTANT(KUHN_6_NODES, 1944020);
CONSTANT(KUHN_6_SETS, 1344);
CONSTANT(KUHN_6_ENTRIES, 2688);
CONSTANT(KUHN_6_WORK, 23328240);
CONSTANT(LEDUC_NODES, 9457);
CONSTANT(LEDUC_SETS, 936);
CONSTANT(LEDUC_ENTRIES, 2184);
CONSTANT(LEDUC_WORK, 113484);

/* The size of each struct, and where each field begins and how long it is, in bytes. */
#define SIZE(type, bytes) _Static_assert(sizeof(chukkanalli_##type) == (bytes), "chukkanalli_" #type " has " #bytes " bytes")
#define FIELD(type, field, place, bytes) \
    _Static_assert(offsetof(chukkanalli_##type, field) == (place) && sizeof(((chukkanalli_##type *)0)->field) == (bytes), \
        #field " of chukkanalli_" #type " has " #bytes " bytes from " #place " on")

SIZE(kuhn_position, 56);
FIELD(kuhn_position, cards, 0, 10);
FIELD(kuhn_position, dealt, 16, 8);
FIELD(kuhn_position, history, 24, 19);
FIELD(kuhn_position, acted, 48, 8);
SIZE(kuhn_moved, 64);
FIELD(kuhn_moved, refusal, 0, 8);
FIELD(kuhn_moved, position, 8, 56);
SIZE(kuhn_written, 72);
FIELD(kuhn_written, refusal, 0, 8);
FIELD(kuhn_written, position, 8, 56);
FIELD(kuhn_written, count, 64, 8);
SIZE(kuhn_payoffs, 152);
FIELD(kuhn_payoffs, refusal, 0, 8);
FIELD(kuhn_payoffs, position, 8, 56);
FIELD(kuhn_payoffs, count, 64, 8);
FIELD(kuhn_payoffs, payoffs, 72, 80);
SIZE(leduc_position, 48);
FIELD(leduc_position, cards, 0, 2);
FIELD(leduc_position, dealt, 8, 8);
FIELD(leduc_position, public_card, 16, 1);
FIELD(leduc_position, history, 17, 8);
FIELD(leduc_position, acted1, 32, 8);
FIELD(leduc_position, acted2, 40, 8);
SIZE(leduc_moved, 56);
FIELD(leduc_moved, refusal, 0, 8);
FIELD(leduc_moved, position, 8, 48);
SIZE(leduc_written, 64);
FIELD(leduc_written, refusal, 0, 8);
FIELD(leduc_written, position, 8, 48);
FIELD(leduc_written, count, 56, 8);
SIZE(leduc_payoffs, 144);
FIELD(leduc_payoffs, refusal, 0, 8);
FIELD(leduc_payoffs, position, 8, 48);
FIELD(leduc_payoffs, count, 56, 8);
FIELD(leduc_payoffs, payoffs, 64, 80);
SIZE(listing, 24);
FIELD(listing, refusal, 0, 8);
FIELD(listing, nodes, 8, 8);
FIELD(listing, sets, 16, 8);
SIZE(worths_answer, 64);
FIELD(worths_answer, refusal, 0, 8);
FIELD(worths_answer, count, 8, 8);
FIELD(worths_answer, worths, 16, 48);
SIZE(reply_answer, 16);
FIELD(reply_answer, refusal, 0, 8);
FIELD(reply_answer, value, 8, 8);
SIZE(nash_conv_answer, 24);
FIELD(nash_conv_answer, refusal, 0, 8);
FIELD(nash_conv_answer, nash_conv, 8, 8);
FIELD(nash_conv_answer, units, 16, 8);
SIZE(values, 64);
FIELD(values, refusal, 0, 8);
FIELD(values, count, 8, 8);
FIELD(values, values, 16, 48);

#define expect(name, holds) expect_at(__LINE__, name, holds)

static void expect_at(int line, const char *name, int holds) {
    if (!holds) {
        fprintf(stderr, "compare/cases.c:%d: case %s differs\n", line, name);
        exit(1);
    }
}

/* ---- Kuhn with 2 seats */

/* The outcomes and actions of a hand, made one after the other from the start; none may be refused. */
static chukkanalli_kuhn_position kuhn(const uint64_t outcomes[2], const char *actions) {
    chukkanalli_kuhn_moved at = chukkanalli_kuhn_initial_state(2);
    for (int seat = 0; seat < 2; seat++) {
        expect("Kuhn's deal", at.refusal == 0);
        at = chukkanalli_kuhn_apply_chance_node(2, at.position, outcomes[seat]);
    }
    for (; *actions; actions++) {
        expect("Kuhn's step", at.refusal == 0);
        at = chukkanalli_kuhn_step(2, at.position, (uint64_t)(*actions - '0'));
    }
    expect("Kuhn's hand", at.refusal == 0);
    return at.position;
}

static int kuhn_pays(chukkanalli_kuhn_position position, int64_t zero, int64_t one) {
    chukkanalli_kuhn_payoffs answer = chukkanalli_kuhn_payouts(2, position);
    return answer.refusal == 0 && answer.count == 2 && answer.payoffs[0] == zero && answer.payoffs[1] == one
        && answer.payoffs[2] == 0 && answer.payoffs[9] == 0;
}

static void kuhn_cases(void) {
    const uint64_t low_first[2] = {0, 0}; /* cards 0,1 */
    const uint64_t high_first[2] = {2, 0}; /* cards 2,0 */
    expect("a", kuhn_pays(kuhn(low_first, "00"), -1, 1));
    expect("b", kuhn_pays(kuhn(low_first, "10"), 1, -1));
    expect("c", kuhn_pays(kuhn(high_first, "011"), 2, -2));

    chukkanalli_kuhn_position past_the_end = kuhn(low_first, "00");
    past_the_end.history[2] = CHUKKANALLI_BET;
    past_the_end.acted = 3;
    for (uint64_t mark = 0; mark < 3; mark++) {
        expect("d", chukkanalli_kuhn_validate_decoded_state(2, past_the_end, mark).refusal == CHUKKANALLI_CLOSED);
    }
}

/* ---- Leduc */

static chukkanalli_leduc_position leduc_moves(chukkanalli_leduc_position position, const char *actions) {
    for (; *actions; actions++) {
        chukkanalli_leduc_moved at = chukkanalli_leduc_step(position, (uint64_t)(*actions - '0'));
        expect("Leduc's step", at.refusal == 0);
        position = at.position;
    }
    return position;
}

static chukkanalli_leduc_position leduc_card(chukkanalli_leduc_position position, uint64_t outcome) {
    chukkanalli_leduc_moved at = chukkanalli_leduc_apply_chance_node(position, outcome);
    expect("Leduc's deal", at.refusal == 0);
    return at.position;
}

static chukkanalli_leduc_position leduc(uint64_t first, uint64_t second) {
    chukkanalli_leduc_moved start = chukkanalli_leduc_initial_state();
    expect("Leduc's start", start.refusal == 0 && start.position.public_card == CHUKKANALLI_NO_CARD);
    return leduc_card(leduc_card(start.position, first), second);
}

static int leduc_lists(chukkanalli_leduc_position position, uint64_t seat, const char *actions) {
    uint8_t out[4] = {9, 9, 9, 9};
    chukkanalli_leduc_written answer = chukkanalli_leduc_legal_actions(position, seat, out, sizeof out);
    int holds = answer.refusal == 0 && answer.count == strlen(actions);
    for (size_t place = 0; place < sizeof out; place++) {
        holds = holds && out[place] == (place < strlen(actions) ? actions[place] - '0' : 9);
    }
    return holds;
}

static int leduc_pays(chukkanalli_leduc_position position, int64_t zero, int64_t one) {
    chukkanalli_leduc_payoffs answer = chukkanalli_leduc_payouts(position);
    return answer.refusal == 0 && answer.count == 2 && answer.payoffs[0] == zero && answer.payoffs[1] == one
        && answer.payoffs[2] == 0 && answer.payoffs[9] == 0;
}

static void leduc_cases(void) {
    chukkanalli_leduc_position dealt = leduc(0, 4); /* cards 0,5 */
    expect("e", leduc_lists(dealt, 0, "12"));
    expect("f", leduc_lists(leduc_moves(dealt, "2"), 1, "012"));
    expect("g", leduc_lists(leduc_moves(dealt, "22"), 0, "01"));
    expect("h", leduc_pays(leduc_moves(leduc_card(leduc_moves(dealt, "11"), 0), "11"), 1, -1)); /* public 1 */
    expect("i", leduc_pays(leduc_moves(leduc_card(leduc_moves(leduc(0, 0), "221"), 0), "221"), 0, 0)); /* cards 0,1, public 2 */

    chukkanalli_leduc_position raised = leduc_moves(leduc(0, 3), "2"); /* cards 0,4 */
    const uint8_t key[7] = {1, 4, 255, 1, 2, 0, 9};
    uint8_t out[7] = {9, 9, 9, 9, 9, 9, 9};
    chukkanalli_leduc_written answer = chukkanalli_leduc_information_state_key(raised, 1, out, sizeof out);
    expect("j", answer.refusal == 0 && answer.count == 6 && memcmp(out, key, sizeof key) == 0);
}

/* ---- The listing of Kuhn 2: its keys in order, and the bytes that it may not touch */

static void listing(void) {
    static const char *const keys[12] = {"00", "110", "0001", "111", "120", "121", "01", "100", "0101", "101", "02", "0201"};
    static uint64_t work[12 * 58];
    uint8_t out[12 * CHUKKANALLI_RECORD + 1];
    memset(out, 9, sizeof out);
    chukkanalli_listing answer = chukkanalli_enumerate_infosets(CHUKKANALLI_KUHN_POKER, 2, work, 12 * 58, out, sizeof out);
    expect("Kuhn 2's counts", answer.refusal == 0 && answer.nodes == 58 && answer.sets == 12 && out[sizeof out - 1] == 9);
    for (int set = 0; set < 12; set++) {
        const uint8_t *record = out + set * CHUKKANALLI_RECORD;
        int holds = record[1] == strlen(keys[set]) && record[0] == record[2] && record[15] == CHUKKANALLI_NO_CARD && record[22] == 2;
        for (int place = 0; place < 13; place++) {
            holds = holds && record[2 + place] == (place < record[1] ? keys[set][place] - '0' : 0);
        }
        expect("Kuhn 2's keys", holds);
    }
    memset(out, 9, sizeof out);
    expect("4", chukkanalli_enumerate_infosets(CHUKKANALLI_KUHN_POKER, 2, work, 12 * 58 - 1, out, sizeof out).refusal == CHUKKANALLI_MEMORY);
    expect("9 of the listing",
        chukkanalli_enumerate_infosets(CHUKKANALLI_KUHN_POKER, 2, work, 12 * 58, out, 12 * CHUKKANALLI_RECORD - 1).refusal == CHUKKANALLI_OUTPUT);
    expect("1", chukkanalli_enumerate_infosets(2, 2, NULL, 0, NULL, 0).refusal == CHUKKANALLI_GAME);
    for (size_t place = 0; place < sizeof out; place++) {
        expect("what a refused listing leaves", out[place] == 9);
    }
}

/* ---- Cases k and l: worths, best values and NashConv in whole units, and the reply of seat 0 */

static void units_case(const char *name, uint64_t d, const char *parts, int64_t worth0, int64_t best0, int64_t best1, uint64_t conv, const char *reply) {
    static uint64_t work[12 * 58 + 1];
    uint8_t table[24], out[25];
    for (int entry = 0; entry < 24; entry++) {
        table[entry] = (uint8_t)(parts[entry] - '0');
    }
    memset(out, 9, sizeof out);
    work[12 * 58] = 9;
    chukkanalli_worths_answer worths = chukkanalli_worths(CHUKKANALLI_KUHN_POKER, 2, work, 12 * 58, d, table, 24);
    expect(name, worths.refusal == 0 && worths.count == 2 && worths.worths[0] == worth0 && worths.worths[1] == -worth0 && worths.worths[2] == 0);
    chukkanalli_reply_answer first = chukkanalli_best_reply(CHUKKANALLI_KUHN_POKER, 2, work, 12 * 58 + 1, 0, d, table, 24, out, sizeof out);
    expect(name, first.refusal == 0 && first.value == best0 && out[24] == 9 && work[12 * 58] == 9);
    for (int entry = 0; reply && entry < 24; entry++) {
        expect(name, out[entry] == reply[entry] - '0');
    }
    chukkanalli_reply_answer second = chukkanalli_best_reply(CHUKKANALLI_KUHN_POKER, 2, work, 12 * 58, 1, d, table, 24, out, 24);
    chukkanalli_nash_conv_answer both = chukkanalli_nash_conv_units(CHUKKANALLI_KUHN_POKER, 2, work, 12 * 58, d, table, 24);
    expect(name, second.refusal == 0 && second.value == best1 && both.refusal == 0 && both.nash_conv == conv && both.units == 6 * d * d * d);
}

static void units_cases(void) {
    units_case("k", 1, "101010101010101010101010", 0, 6, 6, 12, "011010101010011010101010");
    units_case("l", 3, "303030210303302121303003", -9, -9, 9, 0, NULL);
}

/* ---- The comparison of NashConv / units: of tables of Kuhn 2, and of any four numbers, both ways round */

static chukkanalli_nash_conv_answer kuhn_conv(uint64_t d, uint8_t pass, uint8_t bet) {
    static uint64_t work[12 * 58];
    uint8_t table[24];
    for (int entry = 0; entry < 24; entry++) {
        table[entry] = entry % 2 == 0 ? pass : bet;
    }
    chukkanalli_nash_conv_answer answer = chukkanalli_nash_conv_units(CHUKKANALLI_KUHN_POKER, 2, work, 12 * 58, d, table, 24);
    expect("a table to compare", answer.refusal == 0);
    return answer;
}

static void compared(int64_t answer, uint64_t nash_conv, uint64_t units, uint64_t other_nash_conv, uint64_t other_units) {
    expect("a comparison",
        chukkanalli_compare(nash_conv, units, other_nash_conv, other_units) == answer
            && chukkanalli_compare(other_nash_conv, other_units, nash_conv, units) == -answer);
}

static void comparisons(void) {
    chukkanalli_nash_conv_answer once = kuhn_conv(1, 1, 0), twice = kuhn_conv(2, 2, 0), mixed = kuhn_conv(3, 2, 1);
    expect("NashConv to compare", once.nash_conv == 12 && twice.nash_conv == 96 && mixed.nash_conv == 198);
    compared(0, once.nash_conv, once.units, twice.nash_conv, twice.units);
    compared(1, once.nash_conv, once.units, mixed.nash_conv, mixed.units);
    compared(0, 12, 6, 240, 120); /* Leduc, always the first action, D 1 */
    compared(-1, 12, 6, 956821248, 201553920); /* Leduc, even parts, D 6 */
    compared(1, 956821248, 201553920, 74975788562120704, 33776997205278720); /* Leduc, 1 part on each action but the first, D 64 */
    compared(0, 1383552240, 691776120, 615093750000, 307546875000); /* Leduc, always the first action, D 7 and D 15 */
    compared(-1, UINT64_MAX - 1, UINT64_MAX, UINT64_MAX, UINT64_MAX);
    compared(-1, UINT64_MAX - 2, UINT64_MAX - 1, UINT64_MAX - 1, UINT64_MAX);
    compared(0, 0, 0, UINT64_MAX, 1); /* with 0 units it is no order: 0 of 0 is equal to both */
    compared(0, 0, 0, 1, UINT64_MAX);
    compared(1, 1, 0, UINT64_MAX, 1);
}

/* ---- The values in f64 of the profile of Kuhn 2 that is 1/2 everywhere, near the exact ones */

static int f64_near(chukkanalli_values answer, uint64_t count, double zero, double one) {
    const double exact[CHUKKANALLI_TREE_SEATS] = {zero, one, 0.0, 0.0, 0.0, 0.0};
    int holds = answer.refusal == 0 && answer.count == count;
    for (int place = 0; place < CHUKKANALLI_TREE_SEATS; place++) {
        double apart = answer.values[place] - exact[place];
        holds = holds && (place < (int)count ? apart < 1e-12 && apart > -1e-12 : answer.values[place] == 0.0);
    }
    return holds;
}

static void f64_cases(void) {
    static uint64_t work[12 * 58 + 1];
    const uint64_t words = 12 * 58, game = CHUKKANALLI_KUHN_POKER;
    double profile[24];
    for (int entry = 0; entry < 24; entry++) {
        profile[entry] = 0.5;
    }
    work[words] = 9;
    expect("a best response value", f64_near(chukkanalli_best_response_value(game, 2, work, words + 1, 1, profile, 24), 1, 5.0 / 12, 0));
    expect("best response values", f64_near(chukkanalli_best_response_values(game, 2, work, words + 1, profile, 24), 2, 1.0 / 2, 5.0 / 12));
    expect("profile values", f64_near(chukkanalli_profile_values(game, 2, work, words + 1, profile, 24), 2, 1.0 / 8, -1.0 / 8));
    expect("NashConv", f64_near(chukkanalli_nash_conv(game, 2, work, words + 1, profile, 24), 1, 11.0 / 12, 0));
    expect("exploitability", f64_near(chukkanalli_exploitability(game, 2, work, words + 1, profile, 24), 1, 11.0 / 24, 0));
    expect("what f64 calls leave", work[words] == 9);
}

/* ---- refusals: the position comes back to the byte, whatever its public card, and the output stays */

static void refusals(void) {
    expect("seats", chukkanalli_kuhn_validate(11) == CHUKKANALLI_SEATS && chukkanalli_kuhn_validate(10) == CHUKKANALLI_ACCEPTED);
    expect("seats, 64 bits", chukkanalli_kuhn_validate(((uint64_t)1 << 32) + 2) == CHUKKANALLI_SEATS);
    for (int byte = 0; byte < 256; byte++) {
        chukkanalli_leduc_position odd;
        memset(&odd, 0, sizeof odd);
        memset(odd.history, 7, sizeof odd.history);
        odd.dealt = 3;
        odd.public_card = (uint8_t)byte;
        chukkanalli_leduc_moved answer = chukkanalli_leduc_step(odd, CHUKKANALLI_CALL);
        chukkanalli_leduc_position back = answer.position;
        expect("19", answer.refusal == CHUKKANALLI_UNREACHABLE);
        expect("the position back",
            memcmp(back.cards, odd.cards, sizeof odd.cards) == 0 && back.dealt == 3 && back.public_card == byte
                && memcmp(back.history, odd.history, sizeof odd.history) == 0 && back.acted1 == 0 && back.acted2 == 0);
    }
    uint8_t out[1] = {9};
    expect("9", chukkanalli_leduc_legal_actions(leduc(0, 4), 0, out, sizeof out).refusal == CHUKKANALLI_OUTPUT && out[0] == 9);
    expect("9, nothing lent", chukkanalli_leduc_legal_actions(leduc(0, 4), 0, NULL, 0).refusal == CHUKKANALLI_OUTPUT);
}

/* ---- the calls that no case makes, accepted and refused */

static void kuhn_calls(void) {
    const uint64_t low_first[2] = {0, 0};
    chukkanalli_kuhn_position dealt = kuhn(low_first, ""), ended = kuhn(low_first, "00"), odd = dealt;
    odd.cards[1] = 0;
    uint8_t out[4] = {9, 9, 9, 9};
    expect("a start refused", chukkanalli_kuhn_initial_state(1).refusal == CHUKKANALLI_SEATS);
    expect("a deal refused", chukkanalli_kuhn_apply_chance_node(2, dealt, 0).refusal == CHUKKANALLI_UNFIT);
    expect("a step refused", chukkanalli_kuhn_step(2, ended, 0).refusal == CHUKKANALLI_UNFIT);
    expect("a payoff refused", chukkanalli_kuhn_payouts(2, dealt).refusal == CHUKKANALLI_UNFIT);
    expect("a saved position", chukkanalli_kuhn_validate_decoded_state(2, ended, 1).refusal == CHUKKANALLI_ACCEPTED);
    expect("a legal list refused", chukkanalli_kuhn_legal_actions(2, odd, 0, out, sizeof out).refusal == CHUKKANALLI_UNREACHABLE);
    expect("a key refused", chukkanalli_kuhn_information_state_key(2, dealt, 2, out, sizeof out).refusal == CHUKKANALLI_UNFIT);
    expect("a key too long", chukkanalli_kuhn_information_state_key(2, dealt, 1, out, 1).refusal == CHUKKANALLI_OUTPUT && out[0] == 9);
    chukkanalli_kuhn_written legal = chukkanalli_kuhn_legal_actions(2, dealt, 0, out, sizeof out);
    expect("a legal list", legal.refusal == 0 && legal.count == 2 && out[0] == CHUKKANALLI_PASS && out[1] == CHUKKANALLI_BET && out[2] == 9);
    chukkanalli_kuhn_written key = chukkanalli_kuhn_information_state_key(2, kuhn(low_first, "1"), 1, out, sizeof out);
    expect("a key", key.refusal == 0 && key.count == 3 && out[0] == 1 && out[1] == 1 && out[2] == CHUKKANALLI_BET && out[3] == 9);
}

static void leduc_calls(void) {
    chukkanalli_leduc_position dealt = leduc(0, 4), early = dealt;
    early.public_card = 1;
    uint8_t out[5] = {9, 9, 9, 9, 9};
    expect("a deal refused", chukkanalli_leduc_apply_chance_node(dealt, 0).refusal == CHUKKANALLI_UNFIT);
    expect("a payoff refused", chukkanalli_leduc_payouts(dealt).refusal == CHUKKANALLI_UNFIT);
    expect("a key refused", chukkanalli_leduc_information_state_key(dealt, 2, out, sizeof out).refusal == CHUKKANALLI_UNFIT);
    expect("a key too long", chukkanalli_leduc_information_state_key(dealt, 0, out, 4).refusal == CHUKKANALLI_OUTPUT && out[0] == 9);
    expect("a saved position", chukkanalli_leduc_validate_decoded_state(dealt, 0).refusal == CHUKKANALLI_ACCEPTED);
    expect("a wrong mark", chukkanalli_leduc_validate_decoded_state(dealt, 1).refusal == CHUKKANALLI_END_MARK);
    expect("an early public card", chukkanalli_leduc_validate_decoded_state(early, 0).refusal == CHUKKANALLI_EARLY_PUBLIC);
}

/* Each evaluation of a table of Kuhn 2 is refused with this number, and leaves the work memory and the output. */
static void units_refused(uint64_t number, uint64_t seats, size_t words, uint64_t d, const uint8_t *table, size_t length) {
    static uint64_t work[12 * 58];
    uint8_t out[24];
    memset(work, 9, sizeof work);
    memset(out, 9, sizeof out);
    expect("worths refused", chukkanalli_worths(CHUKKANALLI_KUHN_POKER, seats, work, words, d, table, length).refusal == number);
    expect("NashConv refused", chukkanalli_nash_conv_units(CHUKKANALLI_KUHN_POKER, seats, work, words, d, table, length).refusal == number);
    expect("a reply refused",
        chukkanalli_best_reply(CHUKKANALLI_KUHN_POKER, seats, work, words, 0, d, table, length, out, sizeof out).refusal == number);
    for (size_t byte = 0; byte < sizeof work; byte++) {
        expect("what refused calls leave", ((const uint8_t *)work)[byte] == 9 && out[byte % sizeof out] == 9);
    }
}

static void units_refusals(void) {
    static uint64_t work[12 * 58];
    uint8_t table[24], out[24];
    for (int entry = 0; entry < 24; entry++) {
        table[entry] = entry % 2 == 0;
    }
    units_refused(CHUKKANALLI_SEATS, 11, 12 * 58, 1, table, 24);
    units_refused(CHUKKANALLI_TREE, 7, 12 * 58, 1, table, 24);
    units_refused(CHUKKANALLI_MEMORY, 2, 12 * 58 - 1, 1, table, 24);
    units_refused(CHUKKANALLI_PARTS, 2, 12 * 58, 65, table, 24);
    units_refused(CHUKKANALLI_TABLE, 2, 12 * 58, 1, table, 23);
    units_refused(CHUKKANALLI_SUM, 2, 12 * 58, 2, table, 24);
    expect("a game", chukkanalli_worths(2, 2, work, 12 * 58, 1, table, 24).refusal == CHUKKANALLI_GAME);
    expect("a seat", chukkanalli_best_reply(CHUKKANALLI_KUHN_POKER, 2, work, 12 * 58, 2, 1, table, 24, out, 24).refusal == CHUKKANALLI_SEAT);
    expect("an output", chukkanalli_best_reply(CHUKKANALLI_KUHN_POKER, 2, work, 12 * 58, 0, 1, table, 24, out, 23).refusal == CHUKKANALLI_OUTPUT);
}

static int f64_is_refused(chukkanalli_values answer, uint64_t number) {
    int holds = answer.refusal == number && answer.count == 0;
    for (int place = 0; place < CHUKKANALLI_TREE_SEATS; place++) {
        holds = holds && answer.values[place] == 0.0;
    }
    return holds;
}

/* Each call in f64 is refused with this number, and leaves the work memory. */
static void f64_refused(uint64_t number, uint64_t game, uint64_t seats, size_t words, const double *profile, size_t length) {
    static uint64_t work[12 * 58];
    memset(work, 9, sizeof work);
    expect("a best response value refused",
        f64_is_refused(chukkanalli_best_response_value(game, seats, work, words, 0, profile, length), number));
    expect("best response values refused",
        f64_is_refused(chukkanalli_best_response_values(game, seats, work, words, profile, length), number));
    expect("profile values refused", f64_is_refused(chukkanalli_profile_values(game, seats, work, words, profile, length), number));
    expect("NashConv in f64 refused", f64_is_refused(chukkanalli_nash_conv(game, seats, work, words, profile, length), number));
    expect("exploitability refused", f64_is_refused(chukkanalli_exploitability(game, seats, work, words, profile, length), number));
    for (size_t byte = 0; byte < sizeof work; byte++) {
        expect("what refused f64 calls leave", ((const uint8_t *)work)[byte] == 9);
    }
}

static void f64_refusals(void) {
    static uint64_t work[12 * 58];
    const double profile[24] = {0.5};
    f64_refused(CHUKKANALLI_GAME, 2, 11, 0, NULL, 0);
    f64_refused(CHUKKANALLI_SEATS, CHUKKANALLI_KUHN_POKER, 11, 0, NULL, 0);
    f64_refused(CHUKKANALLI_SEATS, CHUKKANALLI_LEDUC_POKER, 3, 0, NULL, 0);
    f64_refused(CHUKKANALLI_TREE, CHUKKANALLI_KUHN_POKER, 7, 0, NULL, 0);
    f64_refused(CHUKKANALLI_MEMORY, CHUKKANALLI_KUHN_POKER, 2, 12 * 58 - 1, profile, 23);
    f64_refused(CHUKKANALLI_TABLE, CHUKKANALLI_KUHN_POKER, 2, 12 * 58, profile, 23);
    expect("a seat in f64",
        f64_is_refused(chukkanalli_best_response_value(CHUKKANALLI_KUHN_POKER, 2, work, 12 * 58, 2, profile, 23), CHUKKANALLI_SEAT));
}

/* ---- each refusal number, by a call that gives it */

/* The number of a saved position of Leduc: cards 0 and 5, no public card, CALL as the first actions of round 1, and a live hand, each changed where asked for. */
typedef struct {
    uint64_t dealt;
    uint8_t second_card, public_card, first_action;
    uint64_t acted, mark;
} saved;

static uint64_t leduc_saved(saved with) {
    chukkanalli_leduc_position position = {{0, with.second_card}, with.dealt, with.public_card, {with.first_action, 1}, with.acted, 0};
    return chukkanalli_leduc_validate_decoded_state(position, with.mark).refusal;
}

static void each_number(void) {
    static uint64_t work[696];
    uint8_t table[24], out[24];
    for (int entry = 0; entry < 24; entry++) {
        table[entry] = entry % 2 == 0;
    }
    chukkanalli_kuhn_position past_the_end = {{0, 1}, 2, {0, 0, 1}, 3};
    const uint64_t met[21] = {
        leduc_saved((saved){2, 5, 255, 1, 1, 0}),
        chukkanalli_worths(2, 2, work, 696, 1, table, 24).refusal,
        chukkanalli_worths(0, 11, work, 696, 1, table, 24).refusal,
        chukkanalli_worths(0, 7, work, 696, 1, table, 24).refusal,
        chukkanalli_worths(0, 2, work, 695, 1, table, 24).refusal,
        chukkanalli_best_reply(0, 2, work, 696, 2, 1, table, 24, out, 24).refusal,
        chukkanalli_worths(0, 2, work, 696, 65, table, 24).refusal,
        chukkanalli_worths(0, 2, work, 696, 1, table, 23).refusal,
        chukkanalli_worths(0, 2, work, 696, 2, table, 24).refusal,
        chukkanalli_best_reply(0, 2, work, 696, 0, 1, table, 24, out, 23).refusal,
        leduc_saved((saved){1, 5, 255, 1, 1, 0}),
        leduc_saved((saved){2, 6, 255, 1, 1, 0}),
        leduc_saved((saved){2, 0, 255, 1, 1, 0}),
        leduc_saved((saved){2, 5, 255, 3, 1, 0}),
        chukkanalli_kuhn_validate_decoded_state(2, past_the_end, 0).refusal,
        leduc_saved((saved){2, 5, 255, 0, 1, 0}), /* FOLD without a raise */
        leduc_saved((saved){2, 5, 255, 1, 2, 0}), /* CALL CALL */
        leduc_saved((saved){2, 5, 1, 1, 1, 0}),
        leduc_saved((saved){2, 5, 255, 1, 1, 1}),
        chukkanalli_kuhn_step(2, past_the_end, 0).refusal,
        chukkanalli_leduc_payouts(leduc(0, 4)).refusal,
    };
    for (uint64_t number = 0; number <= 20; number++) {
        char name[12];
        snprintf(name, sizeof name, "refusal %d", (int)number);
        expect(name, met[number] == number);
    }
}

int main(void) {
    kuhn_cases();
    leduc_cases();
    listing();
    units_cases();
    comparisons();
    f64_cases();
    refusals();
    kuhn_calls();
    leduc_calls();
    units_refusals();
    f64_refusals();
    each_number();
    puts("cases a to l, Kuhn 2's keys, each call and each refusal number from C: as document 01 has them");
    return 0;
}
