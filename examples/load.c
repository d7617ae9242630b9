/*
 * load.c: loads a line sheet from a file for most bits, and prints the table, or
 * says in words why the sheet was refused. With a word after the sheet it makes
 * another of the calls. Build it at the root of the repository:
 *   $ cc -I include examples/load.c target/staticlib/libtoqhaymi.a -o target/load
 */
#include "toqhaymi.h"

#include <ctype.h>
#include <inttypes.h>
#include <stdio.h>
#include <stdlib.h>
#include <string.h>

static const char usage[] =
    "load SHEET                the most bits that limits and budget allow\n"
    "load SHEET bytes          the table of that loading in hex, as it is written\n"
    "load SHEET target BITS    so many bits in all, for the least power\n"
    "load SHEET refit BITS..   re-fits a starting table: the bits of each tone\n"
    "load SHEET step BITS..    one step of that re-fit\n"
    "load SHEET check          N, the described tones and the silenced tones\n"
    "load SHEET tidy           the tidy sheet in hex\n"
    "SHEET is a file of bytes, or text in hex if its name ends in .hex: comments\n"
    "begin with #, and blanks and new lines may stand between the bytes\n";

/* One byte more than the longest sheet, so that a longer one is refused as such. */
static uint8_t sheet[TOQHAYMI_LARGEST_SHEET + 1];
static uint8_t start[TOQHAYMI_MOST_TONES + 1];
static uint8_t table[TOQHAYMI_LARGEST_TABLE];
static uint8_t tidy[TOQHAYMI_LARGEST_TIDY];
static uint8_t answer[TOQHAYMI_ANSWER_BYTES];

/* Why a call was refused, by refusal number; what its place is, if that is not 0. */
static const struct { const char *why, *place; } refusals[] = {
    {"accepted", NULL},
    {"the sheet has more than 32768 bytes", NULL},
    {"the sheet ends where a command or the rest of its operands should stand", "its length"},
    {"a command byte is not one allowed there", "byte"},
    {"an operand is outside its range", "byte"},
    {"a tone number, or a tone that a map names, is N or more", "byte"},
    {"the tone is already described", "byte"},
    {"bytes follow the end command", "byte"},
    {"a buffer is too small", NULL},
    {"the starting table has not one byte for each tone", NULL},
    {"the starting table has more bits than a tone's limit", "tone"},
    {"no table within limits and budget carries so many bits", NULL},
    {"a float is not finite or not above zero", "byte"},
    {"noise / gain is infinite, or the cost of the tone is over 16776705", "byte"},
    {"the tone is not described yet, or has had its rest or its high noise already", "byte"},
    {"the rest is not below the cost of the tone, or is above its mask", "byte"},
    {"the rests of the tones that are not silenced add up to more than the budget", NULL},
};

static void stop(const char *what, const char *name)
{
    fprintf(stderr, "load: %s%s\n", what, name);
    exit(2);
}

/* The value of a hex digit, or -1. */
static int digit(int character)
{
    static const char digits[] = "0123456789abcdef";
    const char *found = character > 0 ? strchr(digits, tolower(character)) : NULL;
    return found != NULL ? (int)(found - digits) : -1;
}

/* The next byte of a file of text in hex, or EOF. */
static int next_of_hex(FILE *file, const char *name)
{
    int high, low, character, in_comment = 0;
    do {
        character = getc(file);
        in_comment = character == '#' || (in_comment && character != '\n');
    } while (character != EOF && (in_comment || isspace(character)));
    if (character == EOF)
        return EOF;
    high = digit(character);
    low = digit(getc(file));
    if (high < 0 || low < 0)
        stop("not bytes in hex: ", name);
    return 16 * high + low;
}

/* Reads a sheet, at most one byte more than the longest, and returns its length. */
static size_t read_sheet(const char *name)
{
    const char *ending = strrchr(name, '.');
    int is_hex = ending != NULL && strcmp(ending, ".hex") == 0;
    FILE *file = fopen(name, "rb");
    size_t length = 0;
    int byte;

    if (file == NULL)
        stop("cannot read ", name);
    while (length < sizeof sheet) {
        byte = is_hex ? next_of_hex(file, name) : getc(file);
        if (byte == EOF)
            break;
        sheet[length++] = (uint8_t)byte;
    }
    fclose(file);
    return length;
}

/* A number of a word, at most a given one. */
static uint32_t number(const char *word, unsigned long most)
{
    char *end;
    unsigned long value = strtoul(word, &end, 10);
    if (*word < '0' || *word > '9' || *end != '\0' || value > most)
        stop("not a number that is taken here: ", word);
    return (uint32_t)value;
}

/* The bits of a starting table, one word for each tone, and how many they are. */
static size_t read_start(char **words)
{
    size_t length = 0;
    while (words[length] != NULL && length < sizeof start) {
        start[length] = (uint8_t)number(words[length], 255);
        length++;
    }
    return length;
}

/* Says why a call was refused, and returns whether it was. */
static int refused(uint64_t returned)
{
    uint32_t why = TOQHAYMI_NUMBER(returned), place = TOQHAYMI_PLACE(returned);
    if (why == TOQHAYMI_ACCEPTED)
        return 0;
    printf("refused %" PRIu32 ": %s", why, refusals[why].why);
    if (refusals[why].place != NULL)
        printf(" (%s %" PRIu32 ")", refusals[why].place, place);
    printf("\n");
    return 1;
}

/* Answer i of the call. */
static uint64_t answered(int i)
{
    return TOQHAYMI_VALUE(answer + 8 * i);
}

/* The table of an accepted loading: tone, bits and power, and then the totals. */
static void print_table(size_t length)
{
    uint64_t tone, tones;
    /* The loading has no N among its answers: the check has. */
    uint64_t bits = answered(0), power = answered(1);
    toqhaymi_check(sheet, length, answer, sizeof answer);
    tones = answered(0);
    for (tone = 0; tone < tones; tone++) {
        const uint8_t *entry = table + TOQHAYMI_BYTES_A_TONE * tone;
        printf("%" PRIu64 " %u %" PRIu64 "\n", tone, entry[0], TOQHAYMI_VALUE(entry + 1));
    }
    printf("total %" PRIu64 " %" PRIu64 "\n", bits, power);
}

/* So many bytes in hex, some of them on each line. */
static void print_hex(const uint8_t *bytes, uint64_t count, unsigned line)
{
    uint64_t i;
    for (i = 0; i < count; i++)
        printf("%02x%c", bytes[i], i + 1 == count || i % line == line - 1 ? '\n' : ' ');
}

static int load(size_t length, const char *bits)
{
    uint64_t returned = bits == NULL
        ? toqhaymi_load_most(sheet, length, table, sizeof table, answer, sizeof answer)
        : toqhaymi_load_target(sheet, length, number(bits, 0xffffffffu),
                               table, sizeof table, answer, sizeof answer);
    if (refused(returned))
        return 1;
    print_table(length);
    return 0;
}

static int refit(size_t length, int is_step, char **words)
{
    size_t tones = read_start(words);
    uint64_t moves, returned = is_step
        ? toqhaymi_refit_step(sheet, length, start, tones,
                              table, sizeof table, answer, sizeof answer)
        : toqhaymi_refit(sheet, length, start, tones,
                         table, sizeof table, answer, sizeof answer);
    if (refused(returned))
        return 1;
    moves = answered(2);
    print_table(length);
    printf("moves %" PRIu64 "\n", moves);
    return 0;
}

static int check(size_t length)
{
    if (refused(toqhaymi_check(sheet, length, answer, sizeof answer)))
        return 1;
    printf("tones %" PRIu64 ", described %" PRIu64 ", silenced %" PRIu64 "\n",
           answered(0), answered(1), answered(2));
    return 0;
}

static int make_tidy(size_t length)
{
    if (refused(toqhaymi_tidy(sheet, length, tidy, sizeof tidy, answer, sizeof answer)))
        return 1;
    print_hex(tidy, answered(0), 15);
    return 0;
}

static int make_bytes(size_t length)
{
    if (refused(toqhaymi_load_most(sheet, length, table, sizeof table, answer, sizeof answer)))
        return 1;
    toqhaymi_check(sheet, length, answer, sizeof answer);
    print_hex(table, TOQHAYMI_TABLE_BYTES(answered(0)), TOQHAYMI_BYTES_A_TONE);
    return 0;
}

/* Returns 0 if the call was accepted, 1 if it was refused, 2 if nothing was called. */
int main(int count, char **words)
{
    const char *call = count > 2 ? words[2] : "";
    if (count == 2)
        return load(read_sheet(words[1]), NULL);
    if (count == 4 && strcmp(call, "target") == 0)
        return load(read_sheet(words[1]), words[3]);
    if (count > 3 && (strcmp(call, "refit") == 0 || strcmp(call, "step") == 0))
        return refit(read_sheet(words[1]), call[0] == 's', words + 3);
    if (count == 3 && strcmp(call, "check") == 0)
        return check(read_sheet(words[1]));
    if (count == 3 && strcmp(call, "bytes") == 0)
        return make_bytes(read_sheet(words[1]));
    if (count == 3 && strcmp(call, "tidy") == 0)
        return make_tidy(read_sheet(words[1]));
    fputs(usage, stderr);
    return 2;
}
