/*
 * A client in C: the sample line of document 01 by all six calls, a gap in tenths of
 * a decibel, tones that a line analyser read, tones with a rest, tones with a high noise, a
 * full line, and refusals.
 */
#include "toqhaymi.h"

#include <inttypes.h>
#include <stdio.h>
#include <string.h>

#define TONES 3
#define TABLE_BYTES (TONES * TOQHAYMI_BYTES_A_TONE)
#define UNTOUCHED 0xee

/* Gap 256, budget 39; tones 0 and 1 are pairs, tone 2 is single. */
static const uint8_t sheet[61] = {
    0x01, 0, 3, 0x02, 1, 0, 0x03, 0, 0, 0, 0, 0, 0, 0, 39,
    0x04, 0, 0, 3, 0, 1, 15, 0, 0, 0, 0, 0, 0, 0, 100,
    0x04, 1, 0, 5, 0, 1, 2, 0, 0, 0, 0, 0, 0, 0, 100,
    0x05, 2, 0, 1, 0, 1, 7, 0, 0, 0, 0, 0, 0, 0, 100,
    0x07
};

/* The sample with a tone by 09, which has two numbers of 4 bytes where 04 has them of 2. */
#define WITH_09 (sizeof sheet + 4)

/* The sample with a rest, by 0B, and a high noise, by 0C, on each tone. */
#define REST_BYTES 6
#define HIGH_BYTES 4
#define LONGEST (sizeof sheet + TONES * (REST_BYTES + HIGH_BYTES))

/* Lent to each call anew; a few bytes longer than need be. */
static uint8_t table[TABLE_BYTES + 4];
static uint8_t tidy[LONGEST + 4];
static uint8_t answer[TOQHAYMI_ANSWER_BYTES + 4];
static int wrong = 0;

static void lend(void)
{
    memset(table, UNTOUCHED, sizeof table);
    memset(tidy, UNTOUCHED, sizeof tidy);
    memset(answer, UNTOUCHED, sizeof answer);
}

static void expect(const char *what, uint64_t found, uint64_t due)
{
    if (found != due) {
        printf("WRONG: %s is %" PRIu64 ", not %" PRIu64 "\n", what, found, due);
        wrong = 1;
    }
}

static void expect_untouched(const char *what, const uint8_t *bytes, size_t from, size_t to)
{
    size_t i;
    for (i = from; i < to; i++)
        expect(what, bytes[i], UNTOUCHED);
}

/* An accepted call: its answers, and no byte after them. */
static void expect_answers(const char *call, uint64_t returned, size_t count, const uint64_t *due)
{
    size_t i;
    printf("%-12s", call);
    expect("returned", returned, TOQHAYMI_ACCEPTED);
    for (i = 0; i < count; i++) {
        printf(" %" PRIu64, TOQHAYMI_VALUE(answer + 8 * i));
        expect("an answer", TOQHAYMI_VALUE(answer + 8 * i), due[i]);
    }
    expect_untouched("a byte after the answers", answer, 8 * count, sizeof answer);
    printf("\n");
}

static void expect_table(const uint8_t *bits, const uint64_t *powers)
{
    int t;
    for (t = 0; t < TONES; t++) {
        const uint8_t *tone = table + TOQHAYMI_BYTES_A_TONE * t;
        printf("  tone %d: %u bits, power %" PRIu64 "\n", t, tone[0], TOQHAYMI_VALUE(tone + 1));
        expect("bits", tone[0], bits[t]);
        expect("power", TOQHAYMI_VALUE(tone + 1), powers[t]);
    }
    expect_untouched("a byte after the table", table, TABLE_BYTES, sizeof table);
}

/* A refused call: number and place, and no byte touched. */
static void expect_refusal(const char *call, uint64_t returned, uint32_t number, uint32_t place)
{
    printf("%-12s refused: number %" PRIu32 ", place %" PRIu32 "\n", call,
           TOQHAYMI_NUMBER(returned), TOQHAYMI_PLACE(returned));
    expect("refusal number", TOQHAYMI_NUMBER(returned), number);
    expect("place", TOQHAYMI_PLACE(returned), place);
    expect_untouched("a byte of a refused call's table", table, 0, sizeof table);
    expect_untouched("a byte of a refused call's tidy sheet", tidy, 0, sizeof tidy);
    expect_untouched("a byte of a refused call's answer", answer, 0, sizeof answer);
}

static void check_and_load(void)
{
    static const uint64_t counts[] = {3, 3, 0}, totals[] = {6, 39};
    static const uint8_t bits[] = {3, 2, 1};
    static const uint64_t powers[] = {21, 15, 3};

    lend();
    expect_answers("check", toqhaymi_check(sheet, sizeof sheet, answer, sizeof answer), 3, counts);
    lend();
    expect_answers("load_most",
                   toqhaymi_load_most(sheet, sizeof sheet, table, sizeof table,
                                      answer, sizeof answer), 2, totals);
    expect_table(bits, powers);
    lend();
    expect_answers("load_target",
                   toqhaymi_load_target(sheet, sizeof sheet, 6, table, sizeof table,
                                        answer, sizeof answer), 2, totals);
    expect_table(bits, powers);
}

/* The re-fit from 0, 2, 3, in one call and then step by step. */
static void refit(void)
{
    static const uint8_t tables[5][TONES] = {{0, 2, 3}, {1, 2, 2}, {2, 2, 1}, {3, 2, 1}, {3, 2, 1}};
    static const uint64_t powers[5][TONES] = {
        {0, 15, 63}, {3, 15, 15}, {9, 15, 3}, {21, 15, 3}, {21, 15, 3}
    };
    static const uint64_t run[] = {6, 39, 3};
    static const uint64_t steps[5][3] = {{0, 0, 0}, {5, 33, 1}, {5, 27, 1}, {6, 39, 1}, {6, 39, 0}};
    int i;

    lend();
    expect_answers("refit",
                   toqhaymi_refit(sheet, sizeof sheet, tables[0], TONES, table, sizeof table,
                                  answer, sizeof answer), 3, run);
    expect_table(tables[3], powers[3]);
    for (i = 1; i < 5; i++) {
        lend();
        expect_answers("refit_step",
                       toqhaymi_refit_step(sheet, sizeof sheet, tables[i - 1], TONES,
                                           table, sizeof table, answer, sizeof answer),
                       3, steps[i]);
        expect_table(tables[i], powers[i]);
    }
}

/* The sample is tidy; with its tones in falling order it becomes so again. */
static void make_tidy(void)
{
    static const uint64_t length[] = {sizeof sheet};
    uint8_t untidy[sizeof sheet];
    int t;

    memcpy(untidy, sheet, sizeof sheet);
    for (t = 0; t < TONES; t++)
        memcpy(untidy + 15 + 15 * t, sheet + 45 - 15 * t, 15);
    lend();
    expect_answers("tidy",
                   toqhaymi_tidy(untidy, sizeof untidy, tidy, sizeof tidy, answer, sizeof answer),
                   1, length);
    expect("the tidy sheet's difference", memcmp(tidy, sheet, sizeof sheet) != 0, 0);
    expect_untouched("a byte after the tidy sheet", tidy, sizeof sheet, sizeof tidy);
}

/* The sample's table with ten times its powers. The sheet is tidy. */
static void expect_ten_times(const uint8_t *bytes, size_t length)
{
    static const uint8_t bits[] = {3, 2, 1};
    static const uint64_t powers[] = {210, 150, 30}, totals[] = {6, 390};
    const uint64_t due[] = {length};

    lend();
    expect_answers("load_most",
                   toqhaymi_load_most(bytes, length, table, sizeof table, answer, sizeof answer),
                   2, totals);
    expect_table(bits, powers);
    lend();
    expect_answers("tidy",
                   toqhaymi_tidy(bytes, length, tidy, sizeof tidy, answer, sizeof answer), 1, due);
    expect("the tidy sheet's difference", memcmp(tidy, bytes, length) != 0, 0);
    expect_untouched("a byte after the tidy sheet", tidy, length, sizeof tidy);
}

/* A gap of 10 dB, as 2560/256 and as 100 tenths; masks and budget are ten times the sample's. */
static void gap_in_tenths(void)
{
    uint8_t whole[sizeof sheet], tenths[sizeof sheet - 1];
    int t;

    memcpy(whole, sheet, sizeof sheet);
    whole[4] = 2560 >> 8;
    whole[5] = 2560 & 0xff;
    whole[13] = 390 >> 8;
    whole[14] = 390 & 0xff;
    for (t = 0; t < TONES; t++) {
        whole[15 + 15 * t + 13] = 1000 >> 8;
        whole[15 + 15 * t + 14] = 1000 & 0xff;
    }
    memcpy(tenths, whole, 3);
    tenths[3] = 0x08;
    tenths[4] = 100;
    memcpy(tenths + 5, whole + 6, sizeof whole - 6);
    expect_ten_times(whole, sizeof whole);
    expect_ten_times(tenths, sizeof tenths);
    tenths[4] = 241;
    lend();
    expect_refusal("load_most",
                   toqhaymi_load_most(tenths, sizeof tenths, table, sizeof table,
                                      answer, sizeof answer),
                   TOQHAYMI_OPERAND_OUT_OF_RANGE, 4);
}

/* The sample with another command for its tone 0: its length. */
static size_t with_tone_0(uint8_t *bytes, const uint8_t *command, size_t length)
{
    memcpy(bytes, sheet, 15);
    memcpy(bytes + 15, command, length);
    memcpy(bytes + 15 + length, sheet + 30, sizeof sheet - 30);
    return sizeof sheet - 15 + length;
}

/* The sample's table. The sheet is tidy. */
static void expect_sample(const uint8_t *bytes, size_t length)
{
    static const uint8_t bits[] = {3, 2, 1};
    static const uint64_t powers[] = {21, 15, 3}, counts[] = {3, 3, 0}, totals[] = {6, 39};
    const uint64_t due[] = {length};

    lend();
    expect_answers("check", toqhaymi_check(bytes, length, answer, sizeof answer), 3, counts);
    lend();
    expect_answers("load_most",
                   toqhaymi_load_most(bytes, length, table, sizeof table, answer, sizeof answer),
                   2, totals);
    expect_table(bits, powers);
    lend();
    expect_answers("tidy",
                   toqhaymi_tidy(bytes, length, tidy, sizeof tidy, answer, sizeof answer), 1, due);
    expect("the tidy sheet's difference", memcmp(tidy, bytes, length) != 0, 0);
    expect_untouched("a byte after the tidy sheet", tidy, length, sizeof tidy);
}

/* Tone 0 with a ratio of 3, cap 15 and mask 100: by 04 as 6/2, by 09 as 6.0/2.0, by 0A as 3.0. */
static const uint8_t by_04[15] = {0x04, 0, 0, 6, 0, 2, 15, 0, 0, 0, 0, 0, 0, 0, 100};
static const uint8_t by_09[19] = {
    0x09, 0, 0x40, 0xc0, 0, 0, 0x40, 0x00, 0, 0, 15, 0, 0, 0, 0, 0, 0, 0, 100
};
static const uint8_t by_0a[15] = {0x0a, 0, 0x40, 0x40, 0, 0, 15, 0, 0, 0, 0, 0, 0, 0, 100};

static void readings(void)
{
    uint8_t bytes[WITH_09];

    expect_sample(bytes, with_tone_0(bytes, by_04, sizeof by_04));
    expect_sample(bytes, with_tone_0(bytes, by_09, sizeof by_09));
    expect_sample(bytes, with_tone_0(bytes, by_0a, sizeof by_0a));
}

/* Tone 0 by 09 after tone 1 by 0A, with floats whose last bits are set: both keep their bits. */
static void tidy_readings(void)
{
    static const uint8_t tone_0[19] = {
        0x09, 0, 0x00, 0x00, 0x00, 0x01, 0x7f, 0x7f, 0xff, 0xff, 15, 0, 0, 0, 0, 0, 0, 0, 100
    };
    static const uint8_t tone_1[15] = {
        0x0a, 1, 0x3e, 0xaa, 0xaa, 0xab, 2, 0, 0, 0, 0, 0, 0, 0, 100
    };
    static const uint64_t length[] = {WITH_09};
    uint8_t untidy[WITH_09], due[WITH_09];

    memcpy(due, sheet, 15);
    memcpy(due + 15, tone_0, 19);
    memcpy(due + 34, tone_1, 15);
    memcpy(due + 49, sheet + 45, 16);
    memcpy(untidy, due, sizeof due);
    memcpy(untidy + 15, tone_1, 15);
    memcpy(untidy + 30, tone_0, 19);
    lend();
    expect_answers("tidy",
                   toqhaymi_tidy(untidy, sizeof untidy, tidy, sizeof tidy, answer, sizeof answer),
                   1, length);
    expect("the tidy sheet's difference", memcmp(tidy, due, sizeof due) != 0, 0);
    expect_untouched("a byte after the tidy sheet", tidy, sizeof due, sizeof tidy);
}

/* Tone 0 by a command with 4 other bytes at a place, and a cap out of range behind them. */
static void refused_reading(const uint8_t *command, size_t length, size_t at, uint32_t float_bits,
                            uint32_t number, uint32_t place)
{
    uint8_t changed[19], bytes[WITH_09];
    size_t sheet_length, i;

    memcpy(changed, command, length);
    for (i = 0; i < 4; i++)
        changed[at + i] = (uint8_t)(float_bits >> (24 - 8 * i));
    changed[length - 9] = 16;
    sheet_length = with_tone_0(bytes, changed, length);
    lend();
    expect_refusal("check", toqhaymi_check(bytes, sheet_length, answer, sizeof answer),
                   number, place);
    expect_refusal("load_most",
                   toqhaymi_load_most(bytes, sheet_length, table, sizeof table,
                                      answer, sizeof answer), number, place);
    expect_refusal("tidy",
                   toqhaymi_tidy(bytes, sheet_length, tidy, sizeof tidy, answer, sizeof answer),
                   number, place);
}

/* The command stands at 15: its first float at 17, a second at 21, the cap after the last. */
static void refused_readings(void)
{
    static const uint32_t refused[] = {
        0x00000000u, 0x80000000u, 0xbf800000u, 0x7f800000u, 0xff800000u, 0x7fc00000u, 0x7f800001u
    };
    size_t i;

    for (i = 0; i < sizeof refused / sizeof refused[0]; i++) {
        refused_reading(by_09, sizeof by_09, 2, refused[i], TOQHAYMI_FLOAT_OUT_OF_RANGE, 17);
        refused_reading(by_09, sizeof by_09, 6, refused[i], TOQHAYMI_FLOAT_OUT_OF_RANGE, 21);
        refused_reading(by_0a, sizeof by_0a, 2, refused[i], TOQHAYMI_FLOAT_OUT_OF_RANGE, 17);
    }
    /* 6.0 over 2^-149 is infinite, the largest float over 2.0 is not, but costs too much. */
    refused_reading(by_09, sizeof by_09, 6, 0x00000001u, TOQHAYMI_COST_OUT_OF_RANGE, 17);
    refused_reading(by_09, sizeof by_09, 2, 0x7f7fffffu, TOQHAYMI_COST_OUT_OF_RANGE, 17);
    /* 16776706.0 costs too much, and 16776705.0 does not: then the cap counts. */
    refused_reading(by_0a, sizeof by_0a, 2, 0x4b7ffe02u, TOQHAYMI_COST_OUT_OF_RANGE, 17);
    refused_reading(by_0a, sizeof by_0a, 2, 0x4b7ffe01u, TOQHAYMI_OPERAND_OUT_OF_RANGE, 21);
}

/* 0B of tones of the sample, whose costs are 3, 5 and 1. */
static const uint8_t rests_2_and_1[] = {0x0b, 0, 0, 0, 0, 2, 0x0b, 1, 0, 0, 0, 1};

/* The sample at another budget, with commands before its end: its length. */
static size_t with_commands(uint8_t *bytes, uint8_t budget, const uint8_t *commands, size_t length)
{
    memcpy(bytes, sheet, sizeof sheet - 1);
    bytes[14] = budget;
    memcpy(bytes + sizeof sheet - 1, commands, length);
    bytes[sizeof sheet - 1 + length] = 0x07;
    return sizeof sheet + length;
}

/* The first steps are 1, 4 and 3: from the rests, 3 in all, the total goes to 4, 7 and 11. */
static void load_with_rests(void)
{
    static const uint8_t budgets[] = {3, 4, 7, 11, 39};
    static const uint8_t bits[5][TONES] = {{0, 0, 0}, {1, 0, 0}, {1, 0, 1}, {1, 1, 1}, {3, 2, 1}};
    static const uint64_t powers[5][TONES] = {
        {2, 1, 0}, {3, 1, 0}, {3, 1, 3}, {3, 5, 3}, {21, 15, 3}
    };
    static const uint64_t totals[5][2] = {{0, 3}, {1, 4}, {2, 7}, {3, 11}, {6, 39}};
    static const uint64_t counts[] = {3, 3, 0};
    uint8_t bytes[LONGEST];
    size_t length, i;

    for (i = 0; i < sizeof budgets; i++) {
        length = with_commands(bytes, budgets[i], rests_2_and_1, sizeof rests_2_and_1);
        lend();
        expect_answers("check", toqhaymi_check(bytes, length, answer, sizeof answer), 3, counts);
        lend();
        expect_answers("load_most",
                       toqhaymi_load_most(bytes, length, table, sizeof table,
                                          answer, sizeof answer), 2, totals[i]);
        expect_table(bits[i], powers[i]);
        lend();
        expect_answers("load_target",
                       toqhaymi_load_target(bytes, length, 0, table, sizeof table,
                                            answer, sizeof answer), 2, totals[0]);
        expect_table(bits[0], powers[0]);
    }
}

/*
 * From one bit on tone 2 at 7: tone 0's step of 1 takes the place of tone 2's of 3, which then
 * fits again. From no bits at 3 nothing fits.
 */
static void refit_with_rests(void)
{
    static const uint8_t start[TONES] = {0, 0, 1}, none[TONES] = {0, 0, 0};
    static const uint8_t exchanged[TONES] = {1, 0, 0}, both[TONES] = {1, 0, 1};
    static const uint64_t powers[] = {3, 1, 0}, powers_of_both[] = {3, 1, 3}, rests[] = {2, 1, 0};
    static const uint64_t one_move[] = {1, 4, 1}, two_moves[] = {2, 7, 2}, no_move[] = {0, 3, 0};
    uint8_t bytes[LONGEST];
    size_t length;

    length = with_commands(bytes, 7, rests_2_and_1, sizeof rests_2_and_1);
    lend();
    expect_answers("refit",
                   toqhaymi_refit(bytes, length, start, TONES, table, sizeof table,
                                  answer, sizeof answer), 3, two_moves);
    expect_table(both, powers_of_both);
    lend();
    expect_answers("refit_step",
                   toqhaymi_refit_step(bytes, length, start, TONES, table, sizeof table,
                                       answer, sizeof answer), 3, one_move);
    expect_table(exchanged, powers);
    length = with_commands(bytes, 3, rests_2_and_1, sizeof rests_2_and_1);
    lend();
    expect_answers("refit_step",
                   toqhaymi_refit_step(bytes, length, none, TONES, table, sizeof table,
                                       answer, sizeof answer), 3, no_move);
    expect_table(none, rests);
}

/* Each rest comes straight after its tone, and that of 0 goes. */
static void tidy_rests(void)
{
    static const uint8_t untidy_rests[] = {
        0x0b, 1, 0, 0, 0, 1, 0x0b, 2, 0, 0, 0, 0, 0x0b, 0, 0, 0, 0, 2
    };
    static const uint64_t length[] = {sizeof sheet + 2 * REST_BYTES};
    uint8_t untidy[LONGEST], due[sizeof sheet + 2 * REST_BYTES];
    size_t untidy_length;

    untidy_length = with_commands(untidy, 39, untidy_rests, sizeof untidy_rests);
    memcpy(due, sheet, 30);
    memcpy(due + 30, rests_2_and_1, REST_BYTES);
    memcpy(due + 36, sheet + 30, 15);
    memcpy(due + 51, rests_2_and_1 + REST_BYTES, REST_BYTES);
    memcpy(due + 57, sheet + 45, 16);
    lend();
    expect_answers("tidy",
                   toqhaymi_tidy(untidy, untidy_length, tidy, sizeof tidy, answer, sizeof answer),
                   1, length);
    expect("the tidy sheet's difference", memcmp(tidy, due, sizeof due) != 0, 0);
    expect_untouched("a byte after the tidy sheet", tidy, sizeof due, sizeof tidy);
}

/* The sample at a budget with commands at byte 60, by every call. */
static void refused_by_all(uint8_t budget, const uint8_t *commands, size_t commands_length,
                           uint32_t number, uint32_t place)
{
    static const uint8_t start[TONES] = {0, 2, 3};
    uint8_t bytes[LONGEST];
    size_t length = with_commands(bytes, budget, commands, commands_length);

    lend();
    expect_refusal("check", toqhaymi_check(bytes, length, answer, sizeof answer), number, place);
    expect_refusal("load_most",
                   toqhaymi_load_most(bytes, length, table, sizeof table, answer, sizeof answer),
                   number, place);
    expect_refusal("load_target",
                   toqhaymi_load_target(bytes, length, 0, table, sizeof table,
                                        answer, sizeof answer), number, place);
    expect_refusal("refit",
                   toqhaymi_refit(bytes, length, start, TONES, table, sizeof table,
                                  answer, sizeof answer), number, place);
    expect_refusal("refit_step",
                   toqhaymi_refit_step(bytes, length, start, TONES, table, sizeof table,
                                       answer, sizeof answer), number, place);
    expect_refusal("tidy",
                   toqhaymi_tidy(bytes, length, tidy, sizeof tidy, answer, sizeof answer),
                   number, place);
    /* No answer fits: 8 comes after all of these. */
    expect_refusal("check", toqhaymi_check(bytes, length, answer, 0), number, place);
}

static void refused_rests(void)
{
    static const uint8_t again[] = {0x0b, 0, 0, 0, 0, 2, 0x0b, 0, 0, 0, 0, 1};
    static const uint8_t after_0[] = {0x0b, 0, 0, 0, 0, 0, 0x0b, 0, 0, 0, 0, 0};
    static const uint8_t not_on_line[] = {0x0b, 3, 0, 0, 0, 0};
    static const uint8_t as_the_cost[] = {0x0b, 0, 0, 0, 0, 2, 0x0b, 1, 0, 0, 0, 5};
    static const uint8_t four_bytes[] = {0x0b, 1, 1, 0, 0, 0};
    static const uint8_t of_silenced[] = {0x06, 0, 0, 0, 0, 1, 0x0b, 0, 0, 0, 0, 3};

    refused_by_all(39, again, sizeof again, TOQHAYMI_TONE_CANNOT_TAKE, 67);
    refused_by_all(39, after_0, sizeof after_0, TOQHAYMI_TONE_CANNOT_TAKE, 67);
    refused_by_all(39, not_on_line, sizeof not_on_line, TOQHAYMI_TONE_NOT_ON_LINE, 61);
    refused_by_all(39, as_the_cost, sizeof as_the_cost, TOQHAYMI_REST_OUT_OF_RANGE, 68);
    refused_by_all(39, four_bytes, sizeof four_bytes, TOQHAYMI_REST_OUT_OF_RANGE, 62);
    refused_by_all(39, of_silenced, sizeof of_silenced, TOQHAYMI_REST_OUT_OF_RANGE, 68);
    refused_by_all(2, rests_2_and_1, sizeof rests_2_and_1, TOQHAYMI_RESTS_OVER_BUDGET, 0);
}

/* A tone that is silenced sends nothing, so its rest fits a budget of 0. */
static void silenced_rest(void)
{
    static const uint8_t commands[] = {0x0b, 0, 0, 0, 0, 2, 0x06, 0, 0, 0, 0, 1};
    static const uint64_t counts[] = {3, 3, 1}, totals[] = {0, 0}, powers[] = {0, 0, 0};
    static const uint8_t bits[] = {0, 0, 0};
    uint8_t bytes[LONGEST];
    size_t length = with_commands(bytes, 0, commands, sizeof commands);

    lend();
    expect_answers("check", toqhaymi_check(bytes, length, answer, sizeof answer), 3, counts);
    lend();
    expect_answers("load_most",
                   toqhaymi_load_most(bytes, length, table, sizeof table, answer, sizeof answer),
                   2, totals);
    expect_table(bits, powers);
}

/* A mask of 1 on tone 0, whose cost is 3: a rest of 1 is within it, and one of 2 is not. */
static void rests_and_masks(void)
{
    static const uint64_t counts[] = {3, 3, 0};
    static const uint8_t rest[REST_BYTES] = {0x0b, 0, 0, 0, 0, 1};
    uint8_t bytes[LONGEST];
    size_t length = with_commands(bytes, 39, rest, sizeof rest);

    bytes[29] = 1;
    lend();
    expect_answers("check", toqhaymi_check(bytes, length, answer, sizeof answer), 3, counts);
    bytes[65] = 2;
    lend();
    expect_refusal("check", toqhaymi_check(bytes, length, answer, sizeof answer),
                   TOQHAYMI_REST_OUT_OF_RANGE, 62);
}

/* A rest before its tone is described, and of a tone that is not described at all. */
static void rests_before_tones(void)
{
    uint8_t bytes[sizeof sheet + REST_BYTES];

    memcpy(bytes, sheet, 30);
    memcpy(bytes + 30, rests_2_and_1 + REST_BYTES, REST_BYTES);
    memcpy(bytes + 36, sheet + 30, sizeof sheet - 30);
    lend();
    expect_refusal("check", toqhaymi_check(bytes, sizeof bytes, answer, sizeof answer),
                   TOQHAYMI_TONE_CANNOT_TAKE, 31);
    bytes[36] = 0x07;
    expect_refusal("check", toqhaymi_check(bytes, 37, answer, sizeof answer),
                   TOQHAYMI_TONE_CANNOT_TAKE, 31);
}

/*
 * High noises of tones 0 and 2, by 0C and 1C, and of tone 1 as large as its noise; tone 0 has a
 * rest. The loading is the sample's. In the tidy sheet each high noise comes after its tone's
 * rest, and that of tone 1 goes.
 */
static void high_noises(void)
{
    static const uint8_t commands[] = {
        0x0c, 0, 0, 9, 0x1c, 0, 2, 0xff, 0xff, 0x0b, 0, 0, 0, 0, 2, 0x0c, 1, 0, 5
    };
    static const uint8_t of_tone_0[] = {0x0b, 0, 0, 0, 0, 2, 0x0c, 0, 0, 9};
    static const uint8_t of_tone_2[] = {0x0c, 2, 0xff, 0xff};
    static const uint64_t counts[] = {3, 3, 0}, totals[] = {6, 39}, powers[] = {21, 15, 3};
    static const uint64_t tidy_length[] = {sizeof sheet + REST_BYTES + 2 * HIGH_BYTES};
    static const uint8_t bits[] = {3, 2, 1};
    uint8_t bytes[LONGEST], due[sizeof sheet + REST_BYTES + 2 * HIGH_BYTES];
    size_t length = with_commands(bytes, 39, commands, sizeof commands);

    lend();
    expect_answers("check", toqhaymi_check(bytes, length, answer, sizeof answer), 3, counts);
    lend();
    expect_answers("load_most",
                   toqhaymi_load_most(bytes, length, table, sizeof table, answer, sizeof answer),
                   2, totals);
    expect_table(bits, powers);
    memcpy(due, sheet, 30);
    memcpy(due + 30, of_tone_0, sizeof of_tone_0);
    memcpy(due + 40, sheet + 30, 30);
    memcpy(due + 70, of_tone_2, sizeof of_tone_2);
    due[74] = 0x07;
    lend();
    expect_answers("tidy",
                   toqhaymi_tidy(bytes, length, tidy, sizeof tidy, answer, sizeof answer),
                   1, tidy_length);
    expect("the tidy sheet's difference", memcmp(tidy, due, sizeof due) != 0, 0);
    expect_untouched("a byte after the tidy sheet", tidy, sizeof due, sizeof tidy);
}

/* Below the noise of tone 0, which is 3; after another; of no tone; and of a tone by 0A. */
static void refused_high_noises(void)
{
    static const uint8_t below[] = {0x0c, 0, 0, 2};
    static const uint8_t again[] = {0x0c, 0, 0, 3, 0x1c, 0, 0, 0, 2};
    static const uint8_t not_on_line[] = {0x1c, 1, 0, 0, 9};
    static const uint8_t of_reading[] = {0x0c, 0, 0, 9, 0x07};
    uint8_t bytes[LONGEST];

    refused_by_all(39, below, sizeof below, TOQHAYMI_OPERAND_OUT_OF_RANGE, 62);
    refused_by_all(39, again, sizeof again, TOQHAYMI_TONE_CANNOT_TAKE, 65);
    refused_by_all(39, not_on_line, sizeof not_on_line, TOQHAYMI_TONE_NOT_ON_LINE, 61);
    with_tone_0(bytes, by_0a, sizeof by_0a);
    memcpy(bytes + 60, of_reading, sizeof of_reading);
    lend();
    expect_refusal("check", toqhaymi_check(bytes, 65, answer, sizeof answer),
                   TOQHAYMI_OPERAND_OUT_OF_RANGE, 61);
    expect_refusal("check", toqhaymi_check(bytes, 63, answer, sizeof answer),
                   TOQHAYMI_SHEET_ENDS_EARLY, 63);
}

static void refusals(void)
{
    static const uint8_t above[TONES] = {0, 3, 0};
    uint8_t damaged[sizeof sheet];

    memcpy(damaged, sheet, sizeof sheet);
    damaged[15] = 0x08;
    lend();
    expect_refusal("check", toqhaymi_check(damaged, sizeof damaged, answer, sizeof answer),
                   TOQHAYMI_COMMAND_NOT_ALLOWED, 15);
    expect_refusal("check", toqhaymi_check(sheet, 0, answer, sizeof answer),
                   TOQHAYMI_SHEET_ENDS_EARLY, 0);
    expect_refusal("load_most",
                   toqhaymi_load_most(sheet, sizeof sheet, table, TABLE_BYTES - 1,
                                      answer, sizeof answer),
                   TOQHAYMI_DESTINATION_TOO_SMALL, 0);
    expect_refusal("load_target",
                   toqhaymi_load_target(sheet, sizeof sheet, 11, table, sizeof table,
                                        answer, sizeof answer),
                   TOQHAYMI_TARGET_NOT_CARRIED, 0);
    expect_refusal("refit",
                   toqhaymi_refit(sheet, sizeof sheet, above, TONES, table, sizeof table,
                                  answer, sizeof answer),
                   TOQHAYMI_START_ABOVE_LIMIT, 1);
}

/*
 * A full line: each tone costs 3, carries up to 2 bits and rests at 1, so that its steps are 2
 * and 6. The last tone is silenced. The budget carries a bit on each other tone and a second on
 * tones 0 to 255: on the next the step is as large, but not left.
 */
#define LAST (TOQHAYMI_MOST_TONES - 1)
#define SHORT_TONES 256
#define FULL_BUDGET (3 * LAST + 6 * SHORT_TONES + 5)
#define SHORT_BYTES 15
#define FULL_BYTES \
    (22 + TOQHAYMI_MOST_TONES * (SHORT_BYTES + REST_BYTES) + \
     2 * (TOQHAYMI_MOST_TONES - SHORT_TONES))

static uint8_t full_sheet[TOQHAYMI_LARGEST_SHEET + 1];
static uint8_t full_tidy[TOQHAYMI_LARGEST_TIDY + 4];
static uint8_t full_table[TOQHAYMI_LARGEST_TABLE + 4];
static uint8_t full_start[TOQHAYMI_MOST_TONES];

/* The command's byte and tone, by a twin or not: their length. */
static size_t put_tone(uint8_t *bytes, uint8_t command, int twin, int tone)
{
    size_t length = 0;

    bytes[length++] = (uint8_t)(command + (twin ? 0x10 : 0));
    if (twin)
        bytes[length++] = (uint8_t)(tone >> 8);
    bytes[length++] = (uint8_t)(tone & 0xff);
    return length;
}

/* A tone of the full line and its rest, which has the short command where it can: their length. */
static size_t put_tone_and_rest(uint8_t *bytes, int twin, int tone)
{
    static const uint8_t operands[] = {0, 3, 0, 1, 2, 0, 0, 0, 0, 0, 0, 0, 100};
    static const uint8_t rest[] = {0, 0, 0, 1};
    size_t length = put_tone(bytes, 0x04, twin, tone);

    memcpy(bytes + length, operands, sizeof operands);
    length += sizeof operands;
    length += put_tone(bytes + length, 0x0b, tone >= SHORT_TONES, tone);
    memcpy(bytes + length, rest, sizeof rest);
    return length + sizeof rest;
}

/* What a sheet of the full line begins with. */
static size_t put_first(uint8_t *bytes)
{
    static const uint8_t first[] = {
        0x01, TOQHAYMI_MOST_TONES >> 8, TOQHAYMI_MOST_TONES & 0xff, 0x02, 1, 0,
        0x03, 0, 0, 0, 0, 0, 0, FULL_BUDGET >> 8, FULL_BUDGET & 0xff
    };

    memcpy(bytes, first, sizeof first);
    return sizeof first;
}

/* The silence of the last tone. */
static const uint8_t silence_last[] = {0x06, LAST / 32, 0x80, 0, 0, 0};

/* The full line as a tidy sheet: its length. */
static size_t put_full(uint8_t *bytes)
{
    size_t length = put_first(bytes);
    int t;

    for (t = 0; t <= LAST; t++)
        length += put_tone_and_rest(bytes + length, t >= SHORT_TONES, t);
    memcpy(bytes + length, silence_last, sizeof silence_last);
    length += sizeof silence_last;
    bytes[length++] = 0x07;
    return length;
}

/* The same line in falling order, each tone by a twin, with silences up to the longest sheet. */
static size_t put_untidy(uint8_t *bytes)
{
    static const uint8_t empty[] = {0x06, LAST / 32, 0, 0, 0, 0};
    size_t length = put_first(bytes);
    int t;

    memcpy(bytes + length, silence_last, sizeof silence_last);
    length += sizeof silence_last;
    for (t = LAST; t >= 0; t--)
        length += put_tone_and_rest(bytes + length, 1, t);
    while (length + sizeof empty < TOQHAYMI_LARGEST_SHEET) {
        memcpy(bytes + length, empty, sizeof empty);
        length += sizeof empty;
    }
    bytes[length++] = 0x07;
    return length;
}

static void lend_full(void)
{
    memset(full_table, UNTOUCHED, sizeof full_table);
    memset(full_tidy, UNTOUCHED, sizeof full_tidy);
    memset(answer, UNTOUCHED, sizeof answer);
}

/* Tones below the first number have 2 bits, those below the second 1, and the others none. */
static void expect_full_table(int with_2, int with_1)
{
    static const uint64_t powers[] = {1, 3, 9};
    int t;

    for (t = 0; t <= LAST; t++) {
        const uint8_t *tone = full_table + TOQHAYMI_BYTES_A_TONE * t;
        int bits = t == LAST ? 0 : t < with_2 ? 2 : t < with_1 ? 1 : 0;
        expect("bits of the full line", tone[0], (uint64_t)bits);
        expect("power of the full line", TOQHAYMI_VALUE(tone + 1), t == LAST ? 0 : powers[bits]);
    }
    expect_untouched("a byte after the full table", full_table, TOQHAYMI_LARGEST_TABLE,
                     sizeof full_table);
}

static void full_loads(const uint8_t *bytes, size_t length)
{
    static const uint64_t counts[] = {TOQHAYMI_MOST_TONES, TOQHAYMI_MOST_TONES, 1};
    static const uint64_t most[] = {LAST + SHORT_TONES, FULL_BUDGET - 5};
    static const uint64_t of_300[] = {300, 300 * 3 + LAST - 300};

    lend_full();
    expect_answers("check", toqhaymi_check(bytes, length, answer, sizeof answer), 3, counts);
    lend_full();
    expect_answers("load_most",
                   toqhaymi_load_most(bytes, length, full_table, sizeof full_table,
                                      answer, sizeof answer), 2, most);
    expect_full_table(SHORT_TONES, LAST);
    lend_full();
    expect_answers("load_target",
                   toqhaymi_load_target(bytes, length, 300, full_table, sizeof full_table,
                                        answer, sizeof answer), 2, of_300);
    expect_full_table(0, 300);
    lend_full();
    expect("a target that the full line does not carry",
           toqhaymi_load_target(bytes, length, LAST + SHORT_TONES + 1,
                                full_table, sizeof full_table, answer, sizeof answer),
           (uint64_t)TOQHAYMI_TARGET_NOT_CARRIED << 32);
    expect_untouched("a byte of the refused table", full_table, 0, sizeof full_table);
}

/* From second bits on tones 1 to 256: tone 0's comes before that of tone 256. */
static void full_refit(const uint8_t *bytes, size_t length)
{
    static const uint64_t one_move[] = {LAST + SHORT_TONES, FULL_BUDGET - 5, 1};
    static const uint64_t moves[] = {LAST + SHORT_TONES, FULL_BUDGET - 5, 100};
    int t;

    for (t = 0; t <= LAST; t++)
        full_start[t] = t == LAST ? 0 : t > 0 && t <= SHORT_TONES ? 2 : 1;
    lend_full();
    expect_answers("refit_step",
                   toqhaymi_refit_step(bytes, length, full_start, sizeof full_start,
                                       full_table, sizeof full_table, answer, sizeof answer),
                   3, one_move);
    expect_full_table(SHORT_TONES, LAST);
    for (t = 0; t < LAST; t++)
        full_start[t] = t >= 100 && t < SHORT_TONES + 100 ? 2 : 1;
    lend_full();
    expect_answers("refit",
                   toqhaymi_refit(bytes, length, full_start, sizeof full_start,
                                  full_table, sizeof full_table, answer, sizeof answer),
                   3, moves);
    expect_full_table(SHORT_TONES, LAST);
}

static void full_line(void)
{
    static const uint64_t due[] = {FULL_BYTES};
    static uint8_t tidy_sheet[TOQHAYMI_LARGEST_SHEET];
    size_t tidy_length = put_full(tidy_sheet), length = put_untidy(full_sheet);

    expect("the tidy length", tidy_length, FULL_BYTES);
    expect("the untidy length", length, TOQHAYMI_LARGEST_SHEET);
    expect("the largest table", TOQHAYMI_LARGEST_TABLE, TOQHAYMI_TABLE_BYTES(TOQHAYMI_MOST_TONES));
    full_loads(tidy_sheet, tidy_length);
    full_loads(full_sheet, length);
    full_refit(full_sheet, length);
    lend_full();
    expect_answers("tidy",
                   toqhaymi_tidy(full_sheet, length, full_tidy, sizeof full_tidy,
                                 answer, sizeof answer), 1, due);
    expect("the tidy sheet's difference", memcmp(full_tidy, tidy_sheet, tidy_length) != 0, 0);
    expect_untouched("a byte after the tidy sheet", full_tidy, tidy_length, sizeof full_tidy);
    full_sheet[length] = 0x07;
    lend();
    expect_refusal("check", toqhaymi_check(full_sheet, length + 1, answer, sizeof answer),
                   TOQHAYMI_SHEET_TOO_LONG, 0);
}

/* A twin of tone 0 and one of a tone that is not on the line, after the sample; and cut. */
static void refused_twins(void)
{
    static const uint8_t again[] = {0x14, 0, 0, 0, 3, 0, 1, 15, 0, 0, 0, 0, 0, 0, 0, 100};
    static const uint8_t not_on_line[] = {0x1b, 1, 0, 0, 0, 0, 1};
    uint8_t bytes[LONGEST];
    size_t length = with_commands(bytes, 39, again, sizeof again);

    lend();
    expect_refusal("check", toqhaymi_check(bytes, length, answer, sizeof answer),
                   TOQHAYMI_TONE_REPEATED, 61);
    expect_refusal("check", toqhaymi_check(bytes, 62, answer, sizeof answer),
                   TOQHAYMI_SHEET_ENDS_EARLY, 62);
    length = with_commands(bytes, 39, not_on_line, sizeof not_on_line);
    expect_refusal("check", toqhaymi_check(bytes, length, answer, sizeof answer),
                   TOQHAYMI_TONE_NOT_ON_LINE, 61);
    bytes[1] = (TOQHAYMI_MOST_TONES + 1) >> 8;
    bytes[2] = (TOQHAYMI_MOST_TONES + 1) & 0xff;
    expect_refusal("check", toqhaymi_check(bytes, length, answer, sizeof answer),
                   TOQHAYMI_OPERAND_OUT_OF_RANGE, 1);
}

int main(void)
{
    check_and_load();
    refit();
    make_tidy();
    gap_in_tenths();
    readings();
    tidy_readings();
    refused_readings();
    load_with_rests();
    refit_with_rests();
    tidy_rests();
    silenced_rest();
    refused_rests();
    rests_and_masks();
    rests_before_tones();
    high_noises();
    refused_high_noises();
    full_line();
    refused_twins();
    refusals();
    printf(wrong ? "some answers are wrong\n" : "all answers are right\n");
    return wrong;
}
