/*
 * toqhaymi.h: the bit loader for a program in C or C++ on x86-64.
 * What a call does depends on its arguments alone. docs/FORMAT.md has the whole
 * format and every rule.
 *
 * Build. Link with libtoqhaymi.a, which needs no other library. At the root of
 * the repository, and once it is installed (./install PREFIX, with
 * PREFIX/lib/pkgconfig in PKG_CONFIG_PATH):
 *   $ cc -I include examples/load.c target/staticlib/libtoqhaymi.a -o target/load
 *   $ cc examples/load.c $(pkg-config --cflags --libs toqhaymi) -o target/load
 *
 * Stack. A call takes no memory but its caller's buffers and its own stack: at
 * most TOQHAYMI_STACK_BYTES, measured (tests/run), not proved.
 *
 * Buffers. A buffer is a pointer and then its length in bytes. The buffers of
 * one call must not overlap. With length 0 the pointer may be any that is not
 * null. Sheet and start are only read.
 *
 * Sheet.  A line sheet, at most 32768 bytes. Its first command gives N, the
 *         number of tones, 1 to 1024. Its second gives the gap, in 1/256 (02) or
 *         in tenths of a decibel (08). Tones have whole numbers (04, 05) or, as
 *         a line analyser reads them, 32-bit IEEE floats, high byte first (09,
 *         0A). A tone may have a rest, the power that it sends where it carries
 *         no bits (0B). A tone with whole numbers may have a high noise, its
 *         noise or above (0C): the tidy sheet has it, and nothing else here goes
 *         by it. These six have a tone number of one byte, 0 to 255. Each has a
 *         twin (14, 15, 19, 1A, 1B, 1C, in hex) with a tone number of two bytes,
 *         high byte first, and with its other operands alike.
 * Table.  9 bytes a tone, from tone 0 up: its bits, then its power in 8 bytes,
 *         high byte first. At least 9 x N bytes. The power of no bits is the
 *         tone's rest: 0 where none is given, and 0 for a tone that is silenced
 *         or not described. Total powers count rests.
 * Start.  A starting table: one byte of bits a tone. Exactly N bytes.
 * Tidy.   The tidy sheet. It is never longer than the sheet it comes from, so
 *         never than TOQHAYMI_LARGEST_TIDY.
 * Answer. At least 24 bytes. Each answer of a call takes 8 of them, high byte
 *         first, from the start of the buffer, in the order given with the call.
 *
 * Limit.  A tone's limit is the most bits that it takes: the largest number of
 *         bits that is at most its cap and whose power is at most its mask. It
 *         is 0 for a tone that is silenced or not described. No loading goes
 *         above it, and no starting table may.
 *
 * Returned. Refusal number x 2^32 + place. 0 says that the call was accepted.
 * A refused call changes no byte of any buffer. An accepted one changes only
 * the bytes of its table or tidy sheet, and of its answers: all bytes after
 * those stay as they were.
 *
 * Power, mask, rest and budget are whole numbers of one unit, the caller's own.
 */
#ifndef TOQHAYMI_H
#define TOQHAYMI_H

#include <stddef.h>
#include <stdint.h>

#ifdef __cplusplus
extern "C" {
#endif

/* The version of the calls and of this header. */
#define TOQHAYMI_VERSION "1.7.0"
#define TOQHAYMI_VERSION_MAJOR 1
#define TOQHAYMI_VERSION_MINOR 7
#define TOQHAYMI_VERSION_PATCH 0

/* The most stack that a call takes, in bytes. */
#define TOQHAYMI_STACK_BYTES 65536

/* Sizes in bytes, and the most tones that a line has. */
#define TOQHAYMI_LARGEST_SHEET 32768
#define TOQHAYMI_MOST_TONES 1024
#define TOQHAYMI_BYTES_A_TONE 9
#define TOQHAYMI_LARGEST_TABLE 9216
#define TOQHAYMI_LARGEST_TIDY 32768
#define TOQHAYMI_ANSWER_BYTES 24

/* The bytes of a table for a line of so many tones. */
#define TOQHAYMI_TABLE_BYTES(tones) ((size_t)TOQHAYMI_BYTES_A_TONE * (size_t)(tones))

/*
 * Why a call was refused. A place of 1 to 7 and 12 to 15 counts bytes of the
 * sheet from 0. 1 is judged first, then 2 to 7 and 12 to 15 as the sheet is read
 * from left to right, then 16, then 8 to 11 in number order.
 */
enum toqhaymi_refusal {
    TOQHAYMI_ACCEPTED = 0,
    /* The sheet has more than 32768 bytes. Place 0. */
    TOQHAYMI_SHEET_TOO_LONG = 1,
    /* The sheet ends where a command or its operands should stand. Place: its length. */
    TOQHAYMI_SHEET_ENDS_EARLY = 2,
    /* A command is not one allowed there. Place: its byte. */
    TOQHAYMI_COMMAND_NOT_ALLOWED = 3,
    /* An operand is outside its range, or 0C has a tone of 09 or 0A. Place: its first byte. */
    TOQHAYMI_OPERAND_OUT_OF_RANGE = 4,
    /* A tone, or a tone that a map names, is N or more. Place: first byte of that operand. */
    TOQHAYMI_TONE_NOT_ON_LINE = 5,
    /* The tone is already described. Place: first byte of its tone operand. */
    TOQHAYMI_TONE_REPEATED = 6,
    /* Bytes follow the end command. Place: the first of them. */
    TOQHAYMI_BYTES_AFTER_END = 7,
    /* Table under 9 x N bytes, tidy under the tidy length, or answer under 24. Place 0. */
    TOQHAYMI_DESTINATION_TOO_SMALL = 8,
    /* The starting table is not N bytes long. Place 0. */
    TOQHAYMI_START_LENGTH_WRONG = 9,
    /* The starting table has more bits than a tone's limit. Place: the first such tone. */
    TOQHAYMI_START_ABOVE_LIMIT = 10,
    /* No table within limits and budget carries the target. Place 0. */
    TOQHAYMI_TARGET_NOT_CARRIED = 11,
    /* A float is not finite or not above zero. Place: its first byte. */
    TOQHAYMI_FLOAT_OUT_OF_RANGE = 12,
    /* Noise / gain is infinite, or the cost over 16776705. Place: the command's first float. */
    TOQHAYMI_COST_OUT_OF_RANGE = 13,
    /* The tone of 0B or 0C is not described yet, or has had that. Place: its first byte. */
    TOQHAYMI_TONE_CANNOT_TAKE = 14,
    /* A rest is not below the tone's cost, or is above its mask. Place: its first byte. */
    TOQHAYMI_REST_OUT_OF_RANGE = 15,
    /* The rests of the tones not silenced add up to more than the budget. Place 0. */
    TOQHAYMI_RESTS_OVER_BUDGET = 16
};

/* The two parts of what a call returned: refusal number and place. */
#define TOQHAYMI_NUMBER(returned) ((uint32_t)((returned) >> 32))
#define TOQHAYMI_PLACE(returned) ((uint32_t)((returned) & 0xffffffffu))

/*
 * The number in the 8 bytes at a pointer. Answer i of a call, from 0, stands at
 * answer + 8 * i; the power of tone t stands at table + 9 * t + 1. Names its
 * argument eight times.
 */
#define TOQHAYMI_VALUE(bytes) \
    ((uint64_t)(bytes)[0] << 56 | (uint64_t)(bytes)[1] << 48 | \
     (uint64_t)(bytes)[2] << 40 | (uint64_t)(bytes)[3] << 32 | \
     (uint64_t)(bytes)[4] << 24 | (uint64_t)(bytes)[5] << 16 | \
     (uint64_t)(bytes)[6] << 8 | (uint64_t)(bytes)[7])

/*
 * Reads a sheet.
 * Answers: N, the number of described tones, the number of silenced tones.
 * Refusals: 1 to 8 and 12 to 16.
 */
uint64_t toqhaymi_check(const uint8_t *sheet, size_t sheet_length,
                        uint8_t *answer, size_t answer_length);

/*
 * Loads the most bits that limits and budget allow, and writes the table.
 * Answers: total bits, total power.
 * Refusals: 1 to 8 and 12 to 16.
 */
uint64_t toqhaymi_load_most(const uint8_t *sheet, size_t sheet_length,
                            uint8_t *table, size_t table_length,
                            uint8_t *answer, size_t answer_length);

/*
 * Loads exactly target bits for the least power, and writes the table.
 * Answers: total bits, total power.
 * Refusals: 1 to 8 and 11 to 16.
 */
uint64_t toqhaymi_load_target(const uint8_t *sheet, size_t sheet_length,
                              uint32_t target,
                              uint8_t *table, size_t table_length,
                              uint8_t *answer, size_t answer_length);

/*
 * Re-fits a starting table to the sheet, and writes the table it ends in. The
 * starting table must keep the limits; it may be above the budget.
 * Answers: total bits, total power, moves made.
 * Refusals: 1 to 10 and 12 to 16.
 */
uint64_t toqhaymi_refit(const uint8_t *sheet, size_t sheet_length,
                        const uint8_t *start, size_t start_length,
                        uint8_t *table, size_t table_length,
                        uint8_t *answer, size_t answer_length);

/*
 * One step of the re-fit, with the re-fit's refusals and output. Its table may
 * still be above the budget.
 * Answers: total bits, total power, moves made: 1, or 0 if it was finished.
 * Refusals: 1 to 10 and 12 to 16.
 */
uint64_t toqhaymi_refit_step(const uint8_t *sheet, size_t sheet_length,
                             const uint8_t *start, size_t start_length,
                             uint8_t *table, size_t table_length,
                             uint8_t *answer, size_t answer_length);

/*
 * Writes the same line as a tidy sheet: the gap by the command that the sheet
 * had, tones in rising order, each by its own command and with the same float
 * bits, and straight after it its rest, if that is not 0, and its high noise, if
 * that is above its noise, all by the short command for tones 0 to 255 and by its
 * twin from 256 on, then one silence command for each word that silences a tone.
 * Answers: the tidy sheet's length.
 * Refusals: 1 to 8 and 12 to 16.
 */
uint64_t toqhaymi_tidy(const uint8_t *sheet, size_t sheet_length,
                       uint8_t *tidy, size_t tidy_length,
                       uint8_t *answer, size_t answer_length);

#ifdef __cplusplus
}
#endif

#endif
