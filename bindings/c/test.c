/* The worked reports of document 01, the lookup, the levels of segments, an attachment, line ends, storage-quality replies, quantities
** and levels under their parents, through the header alone. Says what differs and ends with status 1. */
#include <stdio.h>
#include <string.h>

#include "stormhlaw.h"

#define W1 "ST*842*0001~BNR*11*NR7*20240301~HL*1**RP*1~HL*2*1*I*0~NCD*1~NCA**R1~SE*7*0001~"

/* W1 with an EFI and a BIN behind its NCD: what stands before the BIN, 67 bytes and six segments, the eight bytes of its BIN02, and what
** follows them. Separators of both sets, 0, 255 and a line end are among the eight. */
#define BEFORE "ST*842*0001~BNR*11*NR7*20240301~HL*1**RP*1~HL*2*1*I*0~NCD*1~EFI*00~"
#define ATTACHED "~*:\0\xff|'\n"
#define BEHIND "~NCA**R1~SE*9*0001~"

/* W1 with these line ends behind its first six segments, and with one behind the first. */
#define LINES(first, second, third, fourth, fifth, sixth)                                                                       \
    "ST*842*0001~" first "BNR*11*NR7*20240301~" second "HL*1**RP*1~" third "HL*2*1*I*0~" fourth "NCD*1~" fifth "NCA**R1~" sixth \
    "SE*7*0001~"
#define LINE(end) LINES(end, "", "", "", "", "")

/* Levels down to the fourth, and then an item under the first; no HL01 is the number of its level. */
#define TREE                                                                                                                \
    "ST*842*0001~BNR*11*NR7*20240301~DTM*002*20240301~HL*30**RP*1~DTM*002*20240302~HL*20*30*I*1~HL*10*20*F*1~HL*5*10*PC*0~" \
    "NCD*1~HL*40*30*I*0~NCD*1~NCA**R1~SE*13*0001~"

/* A storage-quality reply; its heading, 32 bytes and two segments; and its heading with the report level, 41 bytes and three. */
#define HEADING "ST*842*0001~BNR*11*NR7*20240301~"
#define REPORT_LEVEL HEADING "HL*1**RP~"
#define REPLY REPORT_LEVEL "HL*2**RB~HL*3**I~NCD*1~NCA**R1~SE*8*0001~"

/* How many numbers a segment table with room for ten has. */
#define TEN (10 * STORMHLAW_SEGMENT_NUMBERS)

/* The bytes of a quoted text, zero bytes among them too. */
#define BYTES(text) (const uint8_t *)(text), sizeof(text) - 1

/* What stands around the numbers of a span or a quantity that are lent, and in them before the call. */
#define GUARD 0x5a5a5a5a5a5a5a5a

static int passed, failed;

static void expect(const char *what, const uint64_t *found, const uint64_t *wanted, size_t count)
{
    if (memcmp(found, wanted, count * sizeof *found) == 0) {
        passed++;
        return;
    }
    failed++;
    printf("%s:", what);
    for (size_t k = 0; k < count; k++)
        printf(" %llu for %llu", (unsigned long long)found[k], (unsigned long long)wanted[k]);
    printf("\n");
}

/* The answer for a report with so much room, and the tables after it. */
static void expect_read(const char *report, size_t segment_numbers, const uint64_t wanted[4])
{
    uint64_t segments[TEN] = {0}, levels[20] = {0}, answer[4];
    stormhlaw_read((const uint8_t *)report, strlen(report), '*', ':', '~', 0, segments, segment_numbers, levels, 20, answer);
    expect(report, answer, wanted, 4);
}

/* A segment's record takes four numbers: three for each of W1's seven segments are too few, and so is one less than it needs. */
static void expect_room(void)
{
    expect_read(W1, 21, (const uint64_t[]){17, 6, 60, 0});
    expect_read(W1, 24, (const uint64_t[]){17, 7, 68, 0});
    expect_read(W1, 27, (const uint64_t[]){17, 7, 68, 0});
    expect_read(W1, 28, (const uint64_t[]){0, 7, 2, 78});
}

static void expect_tables(void)
{
    static const uint64_t wanted_segments[32] = {0,  11, 1,  0, 12, 19, 2,  0, 32, 10, 18, 1, 43, 10, 18, 2,
                                                 54, 5,  46, 2, 60, 7,  64, 2, 68, 9,  79, 0, 9,  9,  9,  9};
    static const uint64_t wanted_levels[12] = {3, 0, 1, 1, 4, 1, 2, 2, 9, 9, 9, 9};
    uint64_t segments[32], levels[12], answer[4];
    for (size_t k = 0; k < 32; k++)
        segments[k] = 9;
    for (size_t k = 0; k < 12; k++)
        levels[k] = 9;
    stormhlaw_read((const uint8_t *)W1, strlen(W1), '*', ':', '~', 0, segments, 32, levels, 12, answer);
    expect("segments of W1", segments, wanted_segments, 32);
    expect("levels of W1", levels, wanted_levels, 12);
}

/* A reading of the first bytes of TREE leaves so many records, each with the level that the segment belongs to, and so many levels. */
static void expect_levels_of(size_t length, uint64_t segment_count, uint64_t level_count)
{
    static const uint64_t wanted[13] = {0, 0, 0, 1, 1, 2, 3, 4, 4, 5, 5, 5, 0};
    uint64_t segments[52], levels[20], answer[4], found[13], counts[2];
    memset(segments, 9, sizeof segments);
    stormhlaw_read((const uint8_t *)TREE, length, '*', ':', '~', 0, segments, 52, levels, 20, answer);
    counts[0] = stormhlaw_valid_segments(answer, segments);
    counts[1] = stormhlaw_valid_levels(answer, segments);
    expect("records of the tree", counts, (const uint64_t[]){segment_count, level_count}, 2);
    for (size_t k = 0; k < segment_count; k++)
        found[k] = segments[4 * k + 3];
    expect("levels of the tree's segments", found, wanted, (size_t)segment_count);
}

/* The heading belongs to no level, an HL to itself, what follows it to the latest HL and not to that one's parent, and the SE to none. */
static void expect_belonging(void)
{
    expect_levels_of(strlen(TREE), 13, 5);
    expect_levels_of(strlen(TREE) - 1, 12, 5);
    expect_levels_of(strlen(TREE) - strlen("NCD*1~NCA**R1~SE*13*0001~"), 10, 5);
    expect_levels_of(strlen(TREE) - strlen("HL*40*30*I*0~NCD*1~NCA**R1~SE*13*0001~"), 9, 4);
    expect_levels_of(strlen("ST*842*0001~BNR*11*NR7*20240301~DTM*002*20240301~HL*30**RP*1~DTM*"), 4, 1);
    expect_levels_of(strlen("ST*842*0001~BNR*11*NR7*20240301~DTM*002*20240301~"), 3, 0);
}

/* How many records are valid after a rewriting with so much room for segments, numbers of the output and other separators. */
static void expect_valid(const char *report, uint8_t element, uint8_t new_element, size_t room, size_t length, uint64_t number,
                         uint64_t segment_count, uint64_t level_count)
{
    uint64_t segments[TEN] = {0}, levels[20] = {0}, answer[4], found[3];
    uint8_t output[80];
    stormhlaw_rewrite((const uint8_t *)report, strlen(report), element, ':', '~', STORMHLAW_STRICT, new_element, '^', '\'', segments, room,
                      levels, 20, output, length, answer);
    found[0] = answer[STORMHLAW_NUMBER];
    found[1] = stormhlaw_valid_segments(answer, segments);
    found[2] = stormhlaw_valid_levels(answer, segments);
    expect("valid records", found, (const uint64_t[]){number, segment_count, level_count}, 3);
}

static void expect_valid_records(void)
{
    expect_valid(W1, '*', '|', TEN, 80, STORMHLAW_ACCEPTED, 7, 2);
    expect_valid(W1, 'A', '|', TEN, 80, STORMHLAW_SEPARATORS_UNFIT, 0, 0);
    expect_valid("", '*', '|', TEN, 80, STORMHLAW_NO_TERMINATOR, 0, 0);
    expect_valid("ST*842*0001~BNR*11*NR7*20240301~HL*1**RP*1~HL*2*1*F*0~", '*', '|', TEN, 80, STORMHLAW_LEVEL_NOT_PERMITTED, 3, 1);
    expect_valid(W1, '*', '|', 24, 80, STORMHLAW_NO_ROOM, 6, 2);
    expect_valid(W1, '*', '7', TEN, 80, STORMHLAW_SEPARATORS_UNFIT, 0, 0);
    expect_valid("ST*842*0001~BNR*11*N|7*20240301~HL*1**RP*1~HL*2*1*I*0~NCD*1~NCA**R1~SE*7*0001~", '*', '|', TEN, 80,
                 STORMHLAW_DATA_EQUALS_SEPARATOR, 7, 2);
    expect_valid(W1, '*', '|', TEN, 77, STORMHLAW_OUTPUT_TOO_SHORT, 7, 2);
}

/* Start and length of a part of so many bytes, cut by these two separators; what stands around the two numbers stays. */
static void expect_span(const char *segment, size_t size, const char *separators, uint64_t number, uint64_t part, uint64_t start,
                        uint64_t length)
{
    uint64_t found[4] = {GUARD, GUARD, GUARD, GUARD}, wanted[4] = {GUARD, start, length, GUARD};
    stormhlaw_lookup((const uint8_t *)segment, size, (uint8_t)separators[0], (uint8_t)separators[1], number, part, found + 1);
    expect(segment, found, wanted, 4);
}

/* The same of a text that is cut by the standard separators. */
static void expect_part(const char *segment, uint64_t number, uint64_t part, uint64_t start, uint64_t length)
{
    expect_span(segment, strlen(segment), "*:", number, part, start, length);
}

/* Component 0 is the whole element; an element past the last is at the segment's end, whatever its component. */
static void expect_elements(void)
{
    static const uint64_t far[] = {0, 1, 2, UINT64_MAX};
    expect_part("HL*2**I", 0, 0, 0, 2);
    expect_part("HL*2**I", 1, 0, 3, 1);
    expect_part("HL*2**I", 2, 0, 5, 0);
    expect_part("HL*2**I", 3, 0, 6, 1);
    expect_part("HL*2*", 2, 0, 5, 0);
    expect_part("NCA**R1**5*EA:2:10", 5, 0, 11, 7);
    for (size_t k = 0; k < sizeof far / sizeof *far; k++) {
        expect_part("HL*2**I", 4, far[k], 7, 0);
        expect_part("HL*2**I", UINT64_MAX, far[k], 7, 0);
        expect_part("NCA*EA:2", 2, far[k], 8, 0);
        expect_part("", 0, far[k], 0, 0);
        expect_part("", 1, far[k], 0, 0);
        expect_part("", UINT64_MAX, far[k], 0, 0);
    }
}

/* A component past the last is at its element's end, and not at the segment's. The tag has components too. */
static void expect_components(void)
{
    expect_part("NCA*EA:25::1*X", 1, 0, 4, 8);
    expect_part("NCA*EA:25::1*X", 1, 1, 4, 2);
    expect_part("NCA*EA:25::1*X", 1, 2, 7, 2);
    expect_part("NCA*EA:25::1*X", 1, 3, 10, 0);
    expect_part("NCA*EA:25::1*X", 1, 4, 11, 1);
    expect_part("NCA*EA:25::1*X", 1, 5, 12, 0);
    expect_part("NCA*EA:25::1*X", 1, UINT64_MAX, 12, 0);
    expect_part("NCA*EA:25::1*X", 2, 1, 13, 1);
    expect_part("NCA*EA:25::1*X", 2, 2, 14, 0);
    expect_part("A*:*B", 1, 1, 2, 0);
    expect_part("A*:*B", 1, 2, 3, 0);
    expect_part("A*:*B", 1, 3, 3, 0);
    expect_part("HL*2**I", 2, 1, 5, 0);
    expect_part("HL*2**I", 2, 2, 5, 0);
    expect_part("A:BC*1", 0, 0, 0, 4);
    expect_part("A:BC*1", 0, 1, 0, 1);
    expect_part("A:BC*1", 0, 2, 2, 2);
    expect_part("A:BC*1", 0, 3, 4, 0);
    expect_part("A:BC*1", 0, UINT64_MAX, 4, 0);
}

/* Any two bytes may separate, also one of them twice. */
static void expect_other_separators(void)
{
    expect_span("A|B^C|*:", 8, "|^", 1, 0, 2, 3);
    expect_span("A|B^C|*:", 8, "|^", 1, 2, 4, 1);
    expect_span("A|B^C|*:", 8, "|^", 1, 3, 5, 0);
    expect_span("A|B^C|*:", 8, "|^", 2, 1, 6, 2);
    expect_span("A|B^C|*:", 8, "|^", 2, 2, 8, 0);
    expect_span("A*B*C", 5, "**", 1, 1, 2, 1);
    expect_span("A*B*C", 5, "**", 1, 2, 3, 0);
    expect_span("A*B*C", 5, "**", 2, 1, 4, 1);
    expect_span("A\0B\xff" "C", 5, "\0\xff", 1, 0, 2, 3);
    expect_span("A\0B\xff" "C", 5, "\0\xff", 1, 2, 4, 1);
    expect_span("A\0B\xff" "C", 5, "\xff\0", 0, 2, 2, 1);
    expect_span("ABA", 3, "BA", 1, 0, 2, 1);
    expect_span("ABA", 3, "BA", 1, 1, 2, 0);
    expect_span("ABA", 3, "BA", 1, 2, 3, 0);
}

/* The answer for a rewriting to | ^ and ', and the output, whose bytes were all '.' before. */
static void expect_rewrite(const char *report, size_t length, const uint64_t wanted[4], const char *wanted_output)
{
    uint64_t segments[TEN], levels[20], answer[4];
    char output[81];
    memset(output, '.', 80);
    output[80] = 0;
    stormhlaw_rewrite((const uint8_t *)report, strlen(report), '*', ':', '~', STORMHLAW_STRICT, '|', '^', '\'', segments, TEN, levels, 20,
                      (uint8_t *)output, length, answer);
    expect(report, answer, wanted, 4);
    if (strcmp(output, wanted_output) == 0) {
        passed++;
        return;
    }
    failed++;
    printf("%s: output %s\n", report, output);
}

static void expect_rewriting(void)
{
    static const char *const untouched =
        "................................................................................";
    expect_rewrite(W1, 80, (const uint64_t[]){0, 7, 2, 78},
                   "ST|842|0001'BNR|11|NR7|20240301'HL|1||RP|1'HL|2|1|I|0'NCD|1'NCA||R1'SE|7|0001'..");
    expect_rewrite(W1, 77, (const uint64_t[]){19, 0, 0, 0}, untouched);
    expect_rewrite("ST*842*0001~BNR*11*N|7*20240301~HL*1**RP*1~HL*2*1*I*0~NCD*1~NCA**R1~SE*7*0001~", 80,
                   (const uint64_t[]){18, 2, 12, 2}, untouched);
    expect_rewrite("", 80, (const uint64_t[]){3, 1, 0, 0}, untouched);
}

/* The same bytes. */
static void expect_bytes(const char *what, const uint8_t *found, const char *wanted, size_t length)
{
    if (memcmp(found, wanted, length) == 0) {
        passed++;
        return;
    }
    failed++;
    printf("%s: other bytes\n", what);
}

/* The answer for the bytes of a report that is read with these flags. */
static void expect_how(const char *what, const uint8_t *report, size_t length, uint64_t how, const uint64_t wanted[4])
{
    uint64_t segments[TEN], levels[20], answer[4];
    stormhlaw_read(report, length, '*', ':', '~', how, segments, TEN, levels, 20, answer);
    expect(what, answer, wanted, 4);
}

/* The answer for the bytes of a report that is read by default. */
static void expect_answer(const char *what, const uint8_t *report, size_t length, const uint64_t wanted[4])
{
    expect_how(what, report, length, 0, wanted);
}

static void expect_attachment_found(void)
{
    static const uint64_t wanted_segments[36] = {0,  11, 1,  0, 12, 19, 2,  0, 32, 10, 18, 1, 43, 10, 18, 2, 54, 5, 46, 2,
                                                 60, 6,  54, 2, 67, 14, 55, 2, 82, 7,  64, 2, 90, 9,  79, 0};
    static const char report[] = BEFORE "BIN*8*" ATTACHED BEHIND;
    uint64_t segments[36] = {0}, levels[8] = {0}, answer[4], span[2];
    stormhlaw_read(BYTES(report), '*', ':', '~', 0, segments, 36, levels, 8, answer);
    expect("an attachment", answer, (const uint64_t[]){0, 9, 2, 100}, 4);
    expect("segments with an attachment", segments, wanted_segments, 36);
    for (uint64_t part = 0; part < 2; part++) {
        stormhlaw_lookup((const uint8_t *)report + segments[24], (size_t)segments[25], '*', ':', 2, part, span);
        expect("where BIN02 is", span, (const uint64_t[]){6, 8}, 2);
        expect_bytes("BIN02", (const uint8_t *)report + segments[24] + span[0], ATTACHED, 8);
    }
}

/* A part of so many bytes of the BIN with its terminator; it is whole at 14. */
static void expect_bin(size_t size, const char *separators, uint64_t number, uint64_t part, uint64_t start, uint64_t length)
{
    expect_span("BIN*8*" ATTACHED "~", size, separators, number, part, start, length);
}

/* Tag, count and attached bytes are one component each, whatever separates components. */
static void expect_whole_bin(void)
{
    static const char *const separators[] = {"*:", "*I", "*8", "**", "*~"};
    for (size_t k = 0; k < sizeof separators / sizeof *separators; k++) {
        for (uint64_t part = 0; part < 2; part++) {
            expect_bin(14, separators[k], 0, part, 0, 3);
            expect_bin(14, separators[k], 1, part, 4, 1);
            expect_bin(14, separators[k], 2, part, 6, 8);
            expect_bin(14, separators[k], 3, part, 14, 0);
            expect_bin(14, separators[k], UINT64_MAX, part, 14, 0);
        }
        expect_bin(14, separators[k], 0, 2, 3, 0);
        expect_bin(14, separators[k], 1, 2, 5, 0);
        expect_bin(14, separators[k], 2, 2, 14, 0);
        expect_bin(14, separators[k], 0, UINT64_MAX, 3, 0);
        expect_bin(14, separators[k], 1, UINT64_MAX, 5, 0);
        expect_bin(14, separators[k], 2, UINT64_MAX, 14, 0);
        expect_bin(14, separators[k], 3, UINT64_MAX, 14, 0);
    }
}

/* With a byte less, or one more, the count does not end with the segment, which is cut at its separators as any other. */
static void expect_broken_bin(void)
{
    for (size_t size = 13; size <= 15; size += 2) {
        expect_bin(size, "*:", 1, 0, 4, 1);
        expect_bin(size, "*:", 2, 0, 6, 1);
        expect_bin(size, "*:", 3, 0, 8, size - 8);
        expect_bin(size, "*:", 3, 1, 8, 0);
        expect_bin(size, "*:", 3, 2, 9, size - 9);
        expect_bin(size, "*:", 3, 3, size, 0);
        expect_bin(size, "*:", 4, 0, size, 0);
        expect_bin(size, "*I", 0, 1, 0, 1);
        expect_bin(size, "*I", 0, 2, 2, 1);
        expect_bin(size, "*8", 1, 1, 4, 0);
        expect_bin(size, "*8", 1, 2, 5, 0);
    }
}

static void expect_attachment_rewritten(void)
{
    static const char report[] = BEFORE "BIN*8*" ATTACHED BEHIND;
    static const char wanted[] =
        "ST|842|0001'BNR|11|NR7|20240301'HL|1||RP|1'HL|2|1|I|0'NCD|1'EFI|00'BIN|8|" ATTACHED "'NCA||R1'SE|9|0001'";
    uint64_t segments[36] = {0}, levels[8] = {0}, segments_again[36] = {0}, levels_again[8] = {0}, answer[4];
    uint8_t output[100] = {0}, again[100] = {0};
    stormhlaw_rewrite(BYTES(report), '*', ':', '~', STORMHLAW_STRICT, '|', '^', '\'', segments, 36, levels, 8, output, 100, answer);
    expect("an attachment rewritten", answer, (const uint64_t[]){0, 9, 2, 100}, 4);
    expect_bytes("an attachment rewritten", output, wanted, 100);
    stormhlaw_read(output, 100, '|', '^', '\'', 0, segments_again, 36, levels_again, 8, answer);
    expect("an attachment read back", answer, (const uint64_t[]){0, 9, 2, 100}, 4);
    expect("segments of an attachment read back", segments_again, segments, 36);
    expect("levels of an attachment read back", levels_again, levels, 8);
    stormhlaw_rewrite(output, 100, '|', '^', '\'', STORMHLAW_STRICT, '*', ':', '~', segments, 36, levels, 8, again, 100, answer);
    expect_bytes("an attachment written back", again, report, 100);
}

static void expect_attachment_refused(void)
{
    expect_answer("a count of 0", BYTES(BEFORE "BIN*0*" ATTACHED BEHIND), (const uint64_t[]){10, 7, 67, 1});
    expect_answer("no count", BYTES(BEFORE "BIN**" ATTACHED BEHIND), (const uint64_t[]){10, 7, 67, 1});
    expect_answer("a count and no BIN02", BYTES(BEFORE "BIN*8~"), (const uint64_t[]){10, 7, 67, 1});
    expect_answer("a count one short", BYTES(BEFORE "BIN*7*" ATTACHED BEHIND), (const uint64_t[]){10, 7, 67, 2});
    expect_answer("a count one long", BYTES(BEFORE "BIN*9*" ATTACHED BEHIND), (const uint64_t[]){10, 7, 67, 2});
    expect_answer("the end in BIN01", BYTES(BEFORE "BIN*8"), (const uint64_t[]){3, 7, 67, 0});
    expect_answer("the end in BIN02", BYTES(BEFORE "BIN*8*~*:"), (const uint64_t[]){3, 7, 67, 0});
    expect_answer("the end behind BIN02", BYTES(BEFORE "BIN*8*" ATTACHED), (const uint64_t[]){3, 7, 67, 0});
    expect_answer("a count beyond the end", BYTES(BEFORE "BIN*999*" ATTACHED BEHIND), (const uint64_t[]){3, 7, 67, 0});
}

static void expect_lines_skipped(void)
{
    static const uint64_t wanted_segments[28] = {0,  11, 1,  0, 14, 19, 2,  0, 35, 10, 18, 1, 47, 10, 18, 2,
                                                 58, 5,  46, 2, 66, 7,  64, 2, 75, 9,  79, 0};
    static const uint64_t wanted_levels[8] = {3, 0, 1, 1, 4, 1, 2, 2};
    static const char report[] = LINES("\r\n", "\n", "\r", "", "\r\n", "\n");
    uint64_t segments[28] = {0}, levels[8] = {0}, answer[4];
    stormhlaw_read(BYTES(report), '*', ':', '~', 0, segments, 28, levels, 8, answer);
    expect("line ends of all kinds", answer, (const uint64_t[]){0, 7, 2, 85}, 4);
    expect("segments with line ends", segments, wanted_segments, 28);
    expect("levels with line ends", levels, wanted_levels, 8);
    expect_answer("CR LF", BYTES(LINES("\r\n", "\r\n", "\r\n", "\r\n", "\r\n", "\r\n") "\r\n"), (const uint64_t[]){0, 7, 2, 90});
    expect_answer("LF", BYTES(LINES("\n", "\n", "\n", "\n", "\n", "\n") "\n"), (const uint64_t[]){0, 7, 2, 84});
    expect_how("bits without a name", BYTES(report), ~(uint64_t)3, (const uint64_t[]){0, 7, 2, 85});
}

static void expect_lines_refused(void)
{
    static const uint64_t second[4] = {5, 2, 12, 0};
    expect_how("CR LF, strictly", BYTES(LINE("\r\n")), STORMHLAW_STRICT, second);
    expect_how("LF, strictly", BYTES(LINE("\n")), STORMHLAW_STRICT, second);
    expect_how("CR, strictly", BYTES(LINE("\r")), STORMHLAW_STRICT, second);
    expect_how("strictly, with bits without a name", BYTES(LINE("\n")), ~(uint64_t)2, second);
    expect_how("none, strictly", BYTES(W1), STORMHLAW_STRICT, (const uint64_t[]){0, 7, 2, 78});
    expect_answer("LF CR", BYTES(LINE("\n\r")), (const uint64_t[]){5, 2, 13, 0});
    expect_answer("an empty line", BYTES(LINES("", "", "", "", "", "\r\n\r\n")), (const uint64_t[]){5, 7, 70, 0});
    expect_answer("a line end before the ST", BYTES("\n" W1), (const uint64_t[]){5, 1, 0, 0});
    expect_answer("the end behind a line end", BYTES("ST*842*0001~\r\n"), (const uint64_t[]){3, 2, 14, 0});
    expect_how("the end behind a line end, strictly", BYTES("ST*842*0001~\r\n"), STORMHLAW_STRICT, (const uint64_t[]){3, 2, 12, 0});
}

/* A rewriting is strict with the flag and without. */
static void expect_lines_not_rewritten(void)
{
    static const char report[] = LINE("\r\n");
    for (uint64_t how = 0; how <= STORMHLAW_STRICT; how++) {
        uint64_t segments[TEN], levels[20], answer[4];
        uint8_t output[80] = "kept";
        stormhlaw_rewrite(BYTES(report), '*', ':', '~', how, '|', '^', '\'', segments, TEN, levels, 20, output, 80, answer);
        expect("line ends rewritten", answer, (const uint64_t[]){5, 2, 12, 0}, 4);
        expect_bytes("line ends rewritten", output, "kept", 4);
    }
}

static void expect_reply(void)
{
    static const uint64_t wanted_segments[32] = {0,  11, 1,  0, 12, 19, 2,  0, 32, 8, 18, 1, 41, 8, 18, 2,
                                                 50, 7,  18, 3, 58, 5,  46, 3, 64, 7, 64, 3, 72, 9, 79, 0};
    static const uint64_t wanted_levels[12] = {3, 0, 1, 1, 4, 0, 1, 6, 5, 0, 1, 2};
    for (uint64_t how = STORMHLAW_REPLY; how <= (STORMHLAW_REPLY | STORMHLAW_STRICT); how++) {
        uint64_t segments[32] = {0}, levels[12] = {0}, answer[4];
        stormhlaw_read(BYTES(REPLY), '*', ':', '~', how, segments, 32, levels, 12, answer);
        expect("a reply", answer, (const uint64_t[]){0, 8, 3, 82}, 4);
        expect("segments of a reply", segments, wanted_segments, 32);
        expect("levels of a reply", levels, wanted_levels, 12);
    }
    expect_how("a reply, with bits without a name", BYTES(REPLY), ~(uint64_t)STORMHLAW_STRICT, (const uint64_t[]){0, 8, 3, 82});
}

/* The answer for the bytes of a reply. */
static void expect_replied(const char *what, const uint8_t *report, size_t length, const uint64_t wanted[4])
{
    expect_how(what, report, length, STORMHLAW_REPLY, wanted);
}

/* Rows 3, 54, 62 and 77 are not in the profile. Of a BIN without an EFI no row fits. */
static void expect_other_rows(void)
{
    expect_replied("a REF in the heading", BYTES(HEADING "REF*TN*S17~"), (const uint64_t[]){24, 3, 32, 0});
    expect_replied("an EFI", BYTES(REPORT_LEVEL "NCD*1~EFI*00~BIN*1*A~"), (const uint64_t[]){24, 5, 47, 0});
    expect_replied("an LM of a fault", BYTES(REPORT_LEVEL "NCD*1~LM*DF~"), (const uint64_t[]){24, 5, 47, 0});
    expect_replied("an LM of an action", BYTES(REPORT_LEVEL "NCD*1~NCA**R1~LM*DF~"), (const uint64_t[]){24, 6, 55, 0});
    expect_replied("a BIN", BYTES(REPORT_LEVEL "NCD*1~BIN*1*A~"), (const uint64_t[]){7, 5, 47, 0});
}

/* In a reply no level has a parent or a mark; its codes are I, RB and RP, and RB is none in other reports. */
static void expect_levels_of_replies(void)
{
    expect_replied("an HL02", BYTES(REPORT_LEVEL "HL*2*1*RB~"), (const uint64_t[]){9, 4, 41, 2});
    expect_replied("an HL04", BYTES(REPORT_LEVEL "HL*2**RB*0~"), (const uint64_t[]){9, 4, 41, 4});
    expect_replied("both", BYTES(REPORT_LEVEL "HL*2*1*RB*0~"), (const uint64_t[]){9, 4, 41, 2});
    expect_replied("a fifth element", BYTES(REPORT_LEVEL "HL*2**RB**X~"), (const uint64_t[]){9, 4, 41, 5});
    expect_replied("F", BYTES(REPORT_LEVEL "HL*2**F~"), (const uint64_t[]){14, 4, 41, 3});
    expect_replied("an HL01 again", BYTES(REPORT_LEVEL "HL*1**RB~"), (const uint64_t[]){12, 4, 41, 1});
    expect_answer("RB in the first profile", BYTES(REPLY), (const uint64_t[]){14, 4, 41, 3});
    expect_how("RB in the first profile, strictly", BYTES(REPLY), STORMHLAW_STRICT, (const uint64_t[]){14, 4, 41, 3});
    expect_replied("W1 as a reply", BYTES(W1), (const uint64_t[]){9, 3, 32, 4});
    expect_replied("line ends in a reply", BYTES("ST*842*0001~\r\nBNR*11*NR7*20240301~\nHL*1**RB~SE*4*0001~"),
                   (const uint64_t[]){0, 4, 1, 54});
    expect_how("line ends in a reply, strictly", BYTES("ST*842*0001~\r\n" REPLY), STORMHLAW_REPLY | STORMHLAW_STRICT,
               (const uint64_t[]){5, 2, 12, 0});
}

/* The answer for a rewriting with these flags, how many records are valid after it, and what the output begins with. */
static void expect_reply_rewritten(const uint8_t *report, size_t length, uint64_t how, const uint64_t wanted[6], const char *begins)
{
    uint64_t segments[TEN] = {0}, levels[20] = {0}, found[6];
    uint8_t output[82] = "kept";
    stormhlaw_rewrite(report, length, '*', ':', '~', how, '|', '^', '\'', segments, TEN, levels, 20, output, 82, found);
    found[4] = stormhlaw_valid_segments(found, segments);
    found[5] = stormhlaw_valid_levels(found, segments);
    expect("a reply rewritten", found, wanted, 6);
    expect_bytes("a reply rewritten", output, begins, strlen(begins));
}

/* A rewriting looks at the profile, and not at whether it is to be strict. */
static void expect_replies_rewritten(void)
{
    for (uint64_t strict = 0; strict <= STORMHLAW_STRICT; strict++) {
        const uint64_t reply = STORMHLAW_REPLY | strict;
        expect_reply_rewritten(BYTES(REPLY), reply, (const uint64_t[]){0, 8, 3, 82, 8, 3},
                               "ST|842|0001'BNR|11|NR7|20240301'HL|1||RP'HL|2||RB'HL|3||I'NCD|1'NCA||R1'SE|8|0001'");
        expect_reply_rewritten(BYTES(REPLY), strict, (const uint64_t[]){14, 4, 41, 3, 3, 1}, "kept");
        expect_reply_rewritten(BYTES(W1), reply, (const uint64_t[]){9, 3, 32, 4, 2, 0}, "kept");
        expect_reply_rewritten(BYTES(REPORT_LEVEL "NCD*1~NCA**R1~LM*DF~"), reply, (const uint64_t[]){24, 6, 55, 0, 5, 1}, "kept");
    }
}

/* The five numbers of so many bytes; what stands around them stays. */
static void expect_numbers(const char *what, const uint8_t *text, size_t length, const int64_t wanted[5])
{
    int64_t found[7], all[7] = {GUARD, wanted[0], wanted[1], wanted[2], wanted[3], wanted[4], GUARD};
    for (size_t k = 0; k < 7; k++)
        found[k] = GUARD;
    stormhlaw_number(text, length, found + 1);
    if (memcmp(found, all, sizeof all) == 0) {
        passed++;
        return;
    }
    failed++;
    printf("the quantity %s:", what);
    for (size_t k = 0; k < 7; k++)
        printf(" %lld for %lld", (long long)found[k], (long long)all[k]);
    printf("\n");
}

/* The text is a quantity, with these numbers. */
static void expect_fit(const char *text, int64_t value, int64_t places, int64_t exponent, int64_t written)
{
    int64_t wanted[5];
    wanted[STORMHLAW_FIT] = 1;
    wanted[STORMHLAW_VALUE] = value;
    wanted[STORMHLAW_PLACES] = places;
    wanted[STORMHLAW_EXPONENT] = exponent;
    wanted[STORMHLAW_WRITTEN] = written;
    expect_numbers(text, (const uint8_t *)text, strlen(text), wanted);
}

static void expect_quantities(void)
{
    expect_fit("-0.50", -50, 2, 0, 0);
    expect_fit("-0", 0, 0, 0, 0);
    expect_fit("25", 25, 0, 0, 0);
    expect_fit("5.", 5, 0, 0, 0);
    expect_fit("-.5", -5, 1, 0, 0);
    expect_fit("1.0", 10, 1, 0, 0);
    expect_fit("5.E1", 5, 0, 1, 1);
    expect_fit(".5E1", 5, 1, 1, 1);
    expect_fit("5E-0", 5, 0, 0, 1);
    expect_fit("5E-07", 5, 0, -7, 1);
    expect_fit("-12.34E99", -1234, 2, 99, 1);
    expect_fit("0E-99", 0, 0, -99, 1);
    expect_fit("999999999999999", 999999999999999, 0, 0, 0);
    expect_fit("-.999999999999999E-99", -999999999999999, 15, -99, 1);
    expect_fit("000000000000007", 7, 0, 0, 0);
}

static void expect_no_quantities(void)
{
    static const char *const texts[] = {
        "", "-", ".", "-.", "E", "E5", "-E5", ".E5", "5E", "5E-", "5E+1", "5e1", "5E123", "5E-007", "5E1.0", "5E1E1", "+1", "--1", "1-",
        "1.2.3", "1,5", " 5", "5 ", "5A", "0x10", "1000000000000000", "0000000000000000", "1.000000000000000", ".0000000000000000",
        "9999999999999999999999999999999999999999"};
    static const int64_t zeros[5] = {0};
    for (size_t k = 0; k < sizeof texts / sizeof *texts; k++)
        expect_numbers(texts[k], (const uint8_t *)texts[k], strlen(texts[k]), zeros);
    expect_numbers("with a zero byte", BYTES("5\0"), zeros);
    expect_numbers("with a byte of 255", BYTES("5\xff"), zeros);
}

/* Only so many bytes are looked at as are given. */
static void expect_first_bytes(void)
{
    static const uint8_t text[] = {'-', '1', '2', '.', '5', 'E', '-', '3', '4', '5'};
    static const int64_t wanted[11][5] = {
        {0}, {0}, {1, -1}, {1, -12}, {1, -12}, {1, -125, 1}, {0}, {0}, {1, -125, 1, -3, 1}, {1, -125, 1, -34, 1}, {0}};
    for (size_t length = 0; length <= sizeof text; length++)
        expect_numbers("in its first bytes", text, length, wanted[length]);
}

/* The answer where this is the NCA of W1. */
static void expect_nca(const char *nca, const uint64_t wanted[4])
{
    char report[200];
    snprintf(report, sizeof report, "ST*842*0001~BNR*11*NR7*20240301~HL*1**RP*1~HL*2*1*I*0~NCD*1~%s~SE*7*0001~", nca);
    expect_read(report, TEN, wanted);
}

/* What is a quantity is accepted in NCA04 and in NCA05, where every third component has at most 10 digits. */
static void expect_quantities_read(void)
{
    static const uint64_t unfit[2][4] = {{10, 6, 60, 4}, {10, 6, 60, 5}};
    expect_nca("NCA**R1**-0.50*EA", (const uint64_t[]){0, 7, 2, 88});
    expect_nca("NCA**R1**5.E1*EA", (const uint64_t[]){0, 7, 2, 87});
    expect_nca("NCA**R1**123456789012345E-99*EA", (const uint64_t[]){0, 7, 2, 102});
    expect_nca("NCA**R1**5*EA:1E1:1234567890E-10", (const uint64_t[]){0, 7, 2, 103});
    expect_nca("NCA**R1**E5*EA", unfit[0]);
    expect_nca("NCA**R1**5E*EA", unfit[0]);
    expect_nca("NCA**R1**5e1*EA", unfit[0]);
    expect_nca("NCA**R1**5E123*EA", unfit[0]);
    expect_nca("NCA**R1**1234567890123456*EA", unfit[0]);
    expect_nca("NCA**R1**5*EA:E1", unfit[1]);
    expect_nca("NCA**R1**5*EA:1:12345678901", unfit[1]);
    expect_nca("NCA**R1**5*EA:1:1E123", unfit[1]);
}

/* The two numbers of a walk over so many numbers of the table, and an output of so many numbers after it, of which the first are these
** and the others are kept; what stands around both stays. */
static void expect_walk(const char *what, const uint64_t *levels, size_t numbers, uint64_t count, size_t length, const uint64_t wanted[2],
                        const uint64_t *order, size_t listed)
{
    uint64_t answer[4] = {GUARD, GUARD, GUARD, GUARD}, output[12], wanted_output[12];
    for (size_t k = 0; k < 12; k++)
        output[k] = wanted_output[k] = GUARD;
    for (size_t k = 0; k < listed; k++)
        wanted_output[1 + k] = order[k];
    stormhlaw_walk(levels, numbers, count, output + 1, length, answer + 1);
    expect(what, answer, (const uint64_t[]){GUARD, wanted[0], wanted[1], GUARD}, 4);
    expect(what, output, wanted_output, 12);
}

/* A walk that is refused with this answer and level. */
static void expect_not_walked(const char *what, const uint64_t *levels, size_t numbers, uint64_t count, size_t length, uint64_t number,
                              uint64_t level)
{
    expect_walk(what, levels, numbers, count, length, (const uint64_t[]){number, level}, NULL, 0);
}

/* Two reports; the second has 3, 5 and 8, the first 4 and 7; 4 has 6, and 6 has 9; 8 has 10. Segments and codes are any numbers. */
static const uint64_t scattered[40] = {3, 0, 1, 1,  4,          0, 1, 1,          5, 2, 2, 2, 6, 1, 2, 2, 7, 2, 2, 2,
                                       0, 4, 3, 99, UINT64_MAX, 1, 2, UINT64_MAX, 9, 2, 2, 2, 9, 6, 4, 0, 1, 8, 3, 3};

static void expect_walks(void)
{
    static const uint64_t order[] = {1, 4, 6, 9, 7, 2, 3, 5, 8, 10};
    expect_walk("scattered levels", scattered, 40, 10, 10, (const uint64_t[]){0, 10}, order, 10);
    expect_walk("the first eight", scattered, 40, 8, 10, (const uint64_t[]){0, 8}, (const uint64_t[]){1, 4, 6, 7, 2, 3, 5, 8}, 8);
    expect_walk("the first four", scattered, 40, 4, 4, (const uint64_t[]){0, 4}, (const uint64_t[]){1, 4, 2, 3}, 4);
    expect_walk("the first alone", scattered, 7, 1, 10, (const uint64_t[]){0, 1}, order, 1);
    expect_walk("no level", scattered, 40, 0, 10, (const uint64_t[]){0, 0}, order, 0);
    expect_walk("no level, no table, no output", scattered, 0, 0, 0, (const uint64_t[]){0, 0}, order, 0);
}

/* Room is a quarter of the length; four times some counts is small again in 64 bits. */
static void expect_room_to_walk(void)
{
    static const uint64_t counts[] = {11, 12, 40, UINT64_C(1) << 61, UINT64_C(1) << 62, (UINT64_C(1) << 62) + 10, UINT64_MAX};
    for (size_t k = 0; k < sizeof counts / sizeof *counts; k++) {
        expect_not_walked("a count above the room", scattered, 40, counts[k], 10, STORMHLAW_LEVELS_UNFIT, 0);
        expect_not_walked("a count above the room, no output", scattered, 40, counts[k], 0, STORMHLAW_LEVELS_UNFIT, 0);
    }
    expect_not_walked("a number short of ten levels", scattered, 39, 10, 10, STORMHLAW_LEVELS_UNFIT, 0);
    expect_not_walked("no room", scattered, 3, 1, 10, STORMHLAW_LEVELS_UNFIT, 0);
    for (size_t length = 0; length < 10; length++)
        expect_not_walked("a short output", scattered, 40, 10, length, STORMHLAW_WALK_OUTPUT_TOO_SHORT, 0);
}

/* The scattered levels with this parent and this depth in the place of a level's: it is refused, and before a short output is. What is
** past the count is not judged. */
static void expect_unfit_level(uint64_t level, uint64_t parent, uint64_t depth)
{
    uint64_t levels[40];
    memcpy(levels, scattered, sizeof levels);
    levels[STORMHLAW_LEVEL_NUMBERS * (level - 1) + 1] = parent;
    levels[STORMHLAW_LEVEL_NUMBERS * (level - 1) + 2] = depth;
    expect_not_walked("an unfit level", levels, 40, 10, 10, STORMHLAW_LEVELS_UNFIT, level);
    expect_not_walked("an unfit level, no output", levels, 40, 10, 0, STORMHLAW_LEVELS_UNFIT, level);
    expect_not_walked("an unfit level at the end", levels, 40, level, 10, STORMHLAW_LEVELS_UNFIT, level);
    expect_not_walked("an unfit level past the count", levels, 40, level - 1, (size_t)level - 2, STORMHLAW_WALK_OUTPUT_TOO_SHORT, 0);
}

static void expect_unfit_levels(void)
{
    static const uint64_t depths[] = {0, 1, 2, 4, 5, UINT64_MAX};
    expect_unfit_level(4, 4, 2);
    expect_unfit_level(4, 5, 2);
    expect_unfit_level(4, 11, 2);
    expect_unfit_level(4, UINT64_MAX, 2);
    expect_unfit_level(4, UINT64_MAX, 1);
    expect_unfit_level(4, 0, 2);
    expect_unfit_level(2, 0, 0);
    expect_unfit_level(2, 2, 2);
    expect_unfit_level(10, 9, 5);
    expect_unfit_level(10, 9, 4);
    expect_unfit_level(10, 10, 3);
    for (size_t k = 0; k < sizeof depths / sizeof *depths; k++)
        expect_unfit_level(10, 8, depths[k]);
    expect_not_walked("the first level under itself", (const uint64_t[]){3, 1, 2, 1}, 4, 1, 1, STORMHLAW_LEVELS_UNFIT, 1);
    expect_not_walked("the first level at depth 2", (const uint64_t[]){3, 0, 2, 1}, 4, 1, 1, STORMHLAW_LEVELS_UNFIT, 1);
    expect_not_walked("one more than the greatest depth", (const uint64_t[]){3, 0, UINT64_MAX, 1, 4, 1, 0, 2}, 8, 2, 2,
                      STORMHLAW_LEVELS_UNFIT, 1);
}

/* What a reading leaves is walked, of a report, of a refused one, and of a reply. */
static void expect_levels_walked(const char *report, size_t length, uint64_t how, const uint64_t *order, size_t count)
{
    uint64_t segments[4 * 20] = {0}, levels[4 * 10] = {0}, answer[4], found[1];
    stormhlaw_read((const uint8_t *)report, length, '*', ':', '~', how, segments, 4 * 20, levels, 4 * 10, answer);
    found[0] = stormhlaw_valid_levels(answer, segments);
    expect("levels to walk", found, (const uint64_t[]){count}, 1);
    expect_walk(report, levels, 4 * 10, found[0], 10, (const uint64_t[]){0, count}, order, count);
}

static void expect_walks_of_reports(void)
{
    static const char far[] = HEADING "HL*A**RP~HL*B**RP~HL*C*B*I~HL*D*A*I~HL*E*C*F~HL*F*D*SN~SE*9*0001~";
    static const uint64_t in_file_order[] = {1, 2, 3, 4, 5};
    expect_levels_walked(W1, strlen(W1), 0, in_file_order, 2);
    expect_levels_walked(TREE, strlen(TREE), 0, in_file_order, 5);
    expect_levels_walked(TREE, strlen(TREE) - 1, 0, in_file_order, 5);
    expect_levels_walked(TREE, strlen(HEADING), 0, in_file_order, 0);
    expect_levels_walked(REPLY, strlen(REPLY), STORMHLAW_REPLY, in_file_order, 3);
    expect_levels_walked(far, strlen(far), 0, (const uint64_t[]){1, 4, 6, 2, 3, 5}, 6);
    expect_levels_walked(far, strlen(far) - strlen("HL*F*D*SN~SE*9*0001~"), 0, (const uint64_t[]){1, 4, 2, 3, 5}, 5);
}

int main(void)
{
    expect_read(W1, TEN, (const uint64_t[]){0, 7, 2, 78});
    expect_read("ST*842*0001~BNR*11*NR7*20240301~HL*1**RP*1~HL*2*1*F*0~NCD*1~NCA**R1~SE*7*0001~", TEN,
                (const uint64_t[]){14, 4, 43, 2});
    expect_read("", TEN, (const uint64_t[]){3, 1, 0, 0});
    expect_room();
    expect_tables();
    expect_belonging();
    expect_elements();
    expect_components();
    expect_other_separators();
    expect_whole_bin();
    expect_broken_bin();
    expect_rewriting();
    expect_valid_records();
    expect_attachment_found();
    expect_attachment_rewritten();
    expect_attachment_refused();
    expect_lines_skipped();
    expect_lines_refused();
    expect_lines_not_rewritten();
    expect_reply();
    expect_other_rows();
    expect_levels_of_replies();
    expect_replies_rewritten();
    expect_quantities();
    expect_no_quantities();
    expect_first_bytes();
    expect_quantities_read();
    expect_walks();
    expect_room_to_walk();
    expect_unfit_levels();
    expect_walks_of_reports();
    printf("C: %d passed, %d failed\n", passed, failed);
    return failed != 0;
}
