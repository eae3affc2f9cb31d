/* Reads the report in the file that is named, or a small one where none is, and lists its segments with their elements and quantities,
** and its levels under their parents. */
#include <stdio.h>
#include <string.h>

#include "stormhlaw.h"

/* Room for every segment of an input of any length, and for as many levels as are read in no time that is noticed. */
#define SEGMENTS (STORMHLAW_LONGEST / 5)
#define LEVELS STORMHLAW_LEVEL_ROOM

static const char *const codes[] = {"?", "RP", "I", "F", "PC", "SN", "RB"};

/* The row of NCA in the table of 79. */
#define NCA 64

/* A line for an element, or for one of its components; none for what is absent. What cannot be printed of a BIN02 is a dot. */
static void print_part(uint64_t number, uint64_t part, const uint8_t *bytes, uint64_t length)
{
    if (length == 0)
        return;
    printf("  %llu", (unsigned long long)number);
    if (part > 0)
        printf(".%llu", (unsigned long long)part);
    printf(": ");
    for (uint64_t k = 0; k < length; k++)
        putchar(bytes[k] >= 32 && bytes[k] < 127 ? bytes[k] : '.');
    putchar('\n');
}

/* What a viewer shows of a segment: each element, or each component of an element that has several. The last component ends where
** its element ends, and the last element where the segment does. */
static void list_elements(const uint8_t *segment, size_t length)
{
    uint64_t whole[2], found[2], number = 0, part;
    do {
        stormhlaw_lookup(segment, length, '*', ':', ++number, 0, whole);
        part = 0;
        do {
            stormhlaw_lookup(segment, length, '*', ':', number, ++part, found);
            print_part(number, found[1] == whole[1] ? 0 : part, segment + found[0], found[1]);
        } while (found[0] + found[1] < whole[0] + whole[1]);
    } while (whole[0] + whole[1] < length);
}

/* The quantity of an NCA, its element 4, if it has one. */
static void list_quantity(const uint8_t *segment, size_t length)
{
    uint64_t span[2];
    int64_t number[5];
    stormhlaw_lookup(segment, length, '*', ':', 4, 0, span);
    stormhlaw_number(segment + span[0], (size_t)span[1], number);
    if (number[STORMHLAW_FIT])
        printf("  quantity: %lld times ten to the power of %lld\n", (long long)number[STORMHLAW_VALUE],
               (long long)(number[STORMHLAW_EXPONENT] - number[STORMHLAW_PLACES]));
}

static void list_segments(const uint8_t *input, const uint64_t *segments, uint64_t count)
{
    for (uint64_t k = 0; k < count; k++) {
        const uint64_t *record = segments + STORMHLAW_SEGMENT_NUMBERS * k;
        const uint8_t *segment = input + record[0];
        const size_t length = (size_t)record[1];
        uint64_t tag[2];
        stormhlaw_lookup(segment, length, '*', ':', 0, 0, tag);
        printf("segment %llu: %.*s, row %llu, level %llu\n", (unsigned long long)(k + 1), (int)tag[1],
               (const char *)segment + tag[0], (unsigned long long)record[2], (unsigned long long)record[3]);
        list_elements(segment, length);
        if (record[2] == NCA)
            list_quantity(segment, length);
    }
}

/* Each level under its parent, two blanks further in. */
static void list_levels(const uint64_t *levels, uint64_t count)
{
    static uint64_t order[LEVELS];
    uint64_t answer[2];
    /* What a reading accepted is never refused: its levels are fit, and there is room for all of them. */
    stormhlaw_walk(levels, STORMHLAW_LEVEL_NUMBERS * LEVELS, count, order, LEVELS, answer);
    for (uint64_t k = 0; k < answer[STORMHLAW_WALKED]; k++) {
        const uint64_t *record = levels + STORMHLAW_LEVEL_NUMBERS * (order[k] - 1);
        printf("%*slevel %llu: %s, parent %llu, depth %llu\n", (int)(2 * (record[2] - 1)), "", (unsigned long long)order[k],
               codes[record[3]], (unsigned long long)record[1], (unsigned long long)record[2]);
    }
}

int main(int count, char **words)
{
    static uint8_t input[STORMHLAW_LONGEST + 1];
    static uint64_t segments[STORMHLAW_SEGMENT_NUMBERS * SEGMENTS];
    static uint64_t levels[STORMHLAW_LEVEL_NUMBERS * LEVELS];
    uint64_t answer[4];
    const char *report = "ST*842*0001~BNR*11*NR7*20240301~HL*1**RP*1~HL*2*1*I*0~NCD*1~NCA**R1**2.50*EA:2:10~SE*7*0001~";
    size_t length = strlen(report);

    memcpy(input, report, length);
    if (count > 1) {
        FILE *file = fopen(words[1], "rb");
        if (file == NULL) {
            perror(words[1]);
            return 2;
        }
        length = fread(input, 1, sizeof input, file);
        if (ferror(file)) {
            perror(words[1]);
            return 2;
        }
        fclose(file);
    }
    /* No flags: line ends between segments are skipped, and the report is no reply. */
    stormhlaw_read(input, length, '*', ':', '~', 0, segments, STORMHLAW_SEGMENT_NUMBERS * SEGMENTS, levels,
                   STORMHLAW_LEVEL_NUMBERS * LEVELS, answer);
    if (answer[STORMHLAW_NUMBER] != STORMHLAW_ACCEPTED) {
        printf("refused %llu segment %llu byte %llu element %llu\n", (unsigned long long)answer[STORMHLAW_NUMBER],
               (unsigned long long)answer[STORMHLAW_SEGMENT], (unsigned long long)answer[STORMHLAW_BYTE],
               (unsigned long long)answer[STORMHLAW_ELEMENT]);
        return 1;
    }
    list_segments(input, segments, answer[STORMHLAW_SEGMENTS]);
    list_levels(levels, answer[STORMHLAW_LEVELS]);
    return 0;
}
