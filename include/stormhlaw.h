/*
** stormhlaw.h: a reading gate for X12 842 nonconformance reports whose verdicts are proved.
**
** Link with libstormhlaw.a or libstormhlaw.so.
**
** What holds of every function here:
**
**   - Every call returns. No argument makes a function fail: whatever the bytes, the separators and the sizes are, the
**     answer is one of the list below.
**   - Nothing is allocated, nothing is kept between calls, and nothing is read or written but what the arguments name
**     and less than 16 KB of stack. The only function of the C library that is called is memset.
**   - Any number of threads may call at once, as long as no memory that one call writes is used by another.
**   - No pointer may be null, not even with a length of 0: give the address of any object then. A length is how many
**     bytes (uint8_t) or numbers (uint64_t) the pointer has behind it, and not how many records.
**   - What a call writes must not overlap with what the call reads, nor with anything else that it writes.
**
** A report is one transaction, from ST to SE. Its bytes are cut by three separators, which the caller gives: element,
** component and terminator; the standard ones are '*', ':' and '~'. Each must be a byte from 1 to 126 that is no letter,
** digit, space, '.' or '-', and the three must differ. A segment runs to the next terminator; its first piece is the tag, the
** others are its elements 1, 2, .. Between segments there may be line ends: see "How a report is read". Segments, elements,
** components, levels and rows are counted from 1, bytes from 0.
**
** A BIN, which carries an attachment, is ended by its count instead: BIN, the element separator, BIN01, the element separator,
** BIN02, the terminator. BIN01 is 1 to 15 digits that give the number of bytes of BIN02, 1 at least, and BIN02 is exactly that
** many bytes of any kind, separators, line ends and zero bytes among them. So it is wherever BIN and the element separator begin
** a segment. Its bytes are got by stormhlaw_lookup as element 2; in the segment table a BIN has row 55.
*/
#ifndef STORMHLAW_H
#define STORMHLAW_H

#include <stddef.h>
#include <stdint.h>

#ifdef __cplusplus
extern "C" {
#endif

/* The most bytes an input may have. */
#define STORMHLAW_LONGEST 1048576

/*
** How a report is read: `how` is the sum of the flags named here, and 0 is the default. Bits without a name are not looked at.
**
** By default line ends between segments are skipped: behind a terminator and before the next segment at most one CR (13) and then
** at most one LF (10), each unless it is itself a separator. Nothing is skipped before the first segment or behind the SE, and what
** is more than one line end belongs to the next segment. What is skipped belongs to no segment: starts in tables and answers come
** behind it. It counts among the bytes that the transaction takes.
**
** With STORMHLAW_STRICT nothing is skipped. A line end belongs to the segment that it stands before: the answer is 5 there, with
** element 0, unless it is 3. stormhlaw_rewrite reads so with this flag and without.
*/
#define STORMHLAW_STRICT 1

/*
** By default a report is read by the first profile: it may have all 79 rows, and its levels have the codes RP, I, F, PC and SN.
**
** With STORMHLAW_REPLY it is read as a storage-quality reply, by the second profile:
**
**   - Its rows are 1, 2, 12, 17 to 19, 23 to 26, 30, 31, 46 to 49, 51, 56, 64, 71 and 79. A segment gets its row among all 79, or is
**     refused with 7; where that row is none of these the answer is 24, right behind 7. So a reply has no BIN: the EFI before it,
**     row 54, is refused.
**   - HL02 and HL04 are absent. Where they are not, the answer is 9 with the first element that is too many: 2, 4 or 5.
**   - HL03 is I, RB or RP, and no level asks for a parent. Any other code is refused with 14, element 3.
**   - No HL01 repeats. Every level has parent 0 and depth 1.
**
** So 13 and 15 are not given then. Every other rule is the same in both profiles, those of line ends, of BIN and of the SE too, and so
** is what the tables hold. stormhlaw_rewrite heeds this flag.
*/
#define STORMHLAW_REPLY 2

/*
** The four numbers of an answer.
**
**   answer[STORMHLAW_NUMBER]    0 for acceptance, else one of the refusals below
**
** After an acceptance:
**
**   answer[STORMHLAW_SEGMENTS]  how many segments there are, ST and SE counted
**   answer[STORMHLAW_LEVELS]    how many levels there are
**   answer[STORMHLAW_BYTES]     how many bytes the transaction takes, with the line ends between its segments and the
**                               terminator of its SE; what comes after it was not looked at
**
** After a refusal:
**
**   answer[STORMHLAW_SEGMENT]   the segment that is refused
**   answer[STORMHLAW_BYTE]      the byte where that segment starts, behind the line end that was skipped before it
**   answer[STORMHLAW_ELEMENT]   the element that is meant; 0 for the tag or for no element in particular
**
** Refusals 1, 2 and 19 point at no segment: segment and byte are 0.
*/
#define STORMHLAW_NUMBER 0
#define STORMHLAW_SEGMENTS 1
#define STORMHLAW_LEVELS 2
#define STORMHLAW_BYTES 3
#define STORMHLAW_SEGMENT 1
#define STORMHLAW_BYTE 2
#define STORMHLAW_ELEMENT 3

/* The report is accepted: every rule holds. */
#define STORMHLAW_ACCEPTED 0
/* A separator is unfit, or two of the three are the same. Element 0; 1 for the new set of a rewriting. */
#define STORMHLAW_SEPARATORS_UNFIT 1
/* The input has more than STORMHLAW_LONGEST bytes. */
#define STORMHLAW_INPUT_TOO_LONG 2
/* No terminator from this byte on; the byte comes behind a line end that was skipped, and may be the input's length. Or the input
** ends inside the BIN that starts at this byte: in its count or behind it, in BIN02, or where its terminator is due. */
#define STORMHLAW_NO_TERMINATOR 3
/* The tag is none of the 34. */
#define STORMHLAW_TAG_UNKNOWN 4
/* A byte that is neither data (32 to 126) nor a separator, in the element named; 0 is the tag. A line end that is not skipped is
** such a byte; behind a terminator it stands in the tag of the next segment. BIN02 may hold any byte. */
#define STORMHLAW_BYTE_UNFIT 5
/* Element 0: the segment has no element. Else the element named is the last and empty, or its last component is empty. */
#define STORMHLAW_EMPTY_AT_THE_END 6
/* No row of the table fits here: a segment out of order, once too often, or one that is mandatory is missing before it. */
#define STORMHLAW_NO_ROW_FITS 7
/* The mandatory element named is missing, or the first component of NCA05 is. */
#define STORMHLAW_ELEMENT_MISSING 8
/* Too many elements, or too many components in NCA05: the first that is too many. In a reply HL02 and HL04 are too many: element 2 or
** 4. */
#define STORMHLAW_TOO_MANY 9
/* Type or length of the element named does not fit, or ST01 is not 842. A quantity, type R, is an optional '-', 1 to 15 digits with
** at most one '.', and optionally an exponent: 'E', an optional '-' and one or two digits, which do not count for the length. See "How
** a quantity is written". Of a BIN, before 4 to 7 are looked for: element 1, BIN01 is no count, or another byte than the element
** separator follows it; element 2, another byte stands where the terminator is due. */
#define STORMHLAW_VALUE_UNFIT 10
/* A note is broken: all or none of some elements, at least one of some, or one that asks for others. The note's first. */
#define STORMHLAW_NOTE_BROKEN 11
/* HL01 was used by an earlier level. Element 1. */
#define STORMHLAW_LEVEL_USED_BEFORE 12
/* HL02 names no earlier level; it is the text of an earlier HL01 and not a position. Element 2. */
#define STORMHLAW_PARENT_UNKNOWN 13
/* Element 3: no such code, or the level needs a parent. Element 2: the level may not hang under that parent. In a reply only that the
** code is none of I, RB and RP: element 3. */
#define STORMHLAW_LEVEL_NOT_PERMITTED 14
/* Element 2: the parent is marked 0. Element 4: the level's own mark does not fit. Element 0, at the SE: a level marked 1
** has no child. */
#define STORMHLAW_MARK_UNFIT 15
/* Element 1: SE01 is not the number of segments. Element 2: SE02 is not ST02. */
#define STORMHLAW_CLOSING_WRONG 16
/* Every rule holds so far, and a table has no room for this segment's records. Lend more and read again. */
#define STORMHLAW_NO_ROOM 17
/* Rewriting only: a data byte equals a new separator. The first such segment and element. The bytes of BIN02 may equal one. */
#define STORMHLAW_DATA_EQUALS_SEPARATOR 18
/* Rewriting only: the output is shorter than the bytes that the transaction takes. */
#define STORMHLAW_OUTPUT_TOO_SHORT 19
/* Walking only: the count exceeds the room of the level table (level 0), or a level's parent or depth is unfit: the first such level. */
#define STORMHLAW_LEVELS_UNFIT 20
/* Walking only: the output is shorter than the count. Level 0. */
#define STORMHLAW_WALK_OUTPUT_TOO_SHORT 21
/* Replies only: the segment has a row of the table, and it is no row of this profile. Element 0. Tested right behind 7. */
#define STORMHLAW_ROW_NOT_IN_PROFILE 24

/*
** The segment table holds four numbers a segment, one record behind the other:
**
**   segments[4 * k]      the byte where segment k + 1 starts, behind the line end that was skipped before it
**   segments[4 * k + 1]  how many bytes it has, without its terminator
**   segments[4 * k + 2]  its row in the table of 79, 1 to 79
**   segments[4 * k + 3]  the number of the level that it belongs to; 0 before the first HL and for the SE
**
** A segment belongs to the level of the latest HL, and an HL to the level that it makes itself. The record of level n begins at
** levels[4 * (n - 1)] and names that HL: nobody need search backwards for it.
**
** The level table holds four numbers a level:
**
**   levels[4 * k]        the segment of the HL that makes level k + 1
**   levels[4 * k + 1]    the level number of its parent; 0 for none, as in every reply
**   levels[4 * k + 2]    its depth, 1 to 4; 1 in every reply
**   levels[4 * k + 3]    its code: 1 RP report, 2 I item, 3 F component, 4 PC product characteristic, 5 SN serial number, 6 RB response;
**                        3 to 5 in no reply, 6 only there
**
** A report of n bytes has at most n / 5 segments, and fewer levels than that. Tables may be of any size; with too little room the
** answer is STORMHLAW_NO_ROOM.
**
** Time: 1 to 3 nanoseconds a byte of a large report. Reports of levels alone, on an AMD EPYC, whatever order names and parents
** come in; and where the HL01 names are made to fall together, which takes 3 nanoseconds for every two of them:
**
**   1,000 levels    0.05 to 0.07 milliseconds     1.6 milliseconds
**   4,096 levels    0.3 to 0.6 milliseconds       25 milliseconds
**   20,000 levels   4.3 to 10.3 milliseconds      0.6 seconds
**
** The room that is lent bounds the number of levels, and with it the time: lend what you expect. STORMHLAW_LEVEL_ROOM is what the
** example lends, and the other bindings where their caller names no room.
*/
#define STORMHLAW_SEGMENT_NUMBERS 4
#define STORMHLAW_LEVEL_NUMBERS 4
#define STORMHLAW_LEVEL_ROOM 4096

/*
** Reads one transaction from the start of `input`.
**
**   input, input_length        the bytes
**   element, component, terminator   the three separators
**   how                        the sum of the flags, or 0
**   segments, segments_length  the segment table; it has room for segments_length / 4 segments
**   levels, levels_length      the level table; it has room for levels_length / 4 levels
**   answer                     the four numbers of the answer, always written
**
** Answers 0 to 17 and 24. Acceptance leaves the records of all segments and levels in the tables. A refusal at segment k leaves
** the records of segments 1 to k - 1, and of their levels, as an acceptance would. Refusals 1 and 2 write to neither
** table. In every case, every other number of both tables keeps what it held.
**
** A refusal 4 to 16 or 24 is final: it stands whatever bytes follow that segment, up to STORMHLAW_LONGEST in all, and however much
** larger the tables are; that of a BIN whose count or end is broken, whatever follows the byte that breaks it. Acceptance stands
** likewise. This holds of readings with the same `how`.
*/
void stormhlaw_read(
    const uint8_t *input, size_t input_length,
    uint8_t element, uint8_t component, uint8_t terminator,
    uint64_t how,
    uint64_t *segments, size_t segments_length,
    uint64_t *levels, size_t levels_length,
    uint64_t answer[4]);

/*
** Reads one transaction from the start of `input` and writes it to `output` with other separators: each separator of the
** old set becomes that of the new set, and every data byte stays. The bytes of BIN02 stay too, whatever they are. The reading is
** strict: a report with line ends between its segments is refused.
**
**   input, input_length        the bytes
**   element, component, terminator   the separators of the input
**   how                        as for stormhlaw_read: STORMHLAW_REPLY is heeded, but STORMHLAW_STRICT is not looked at
**   new_element, new_component, new_terminator   those of the output
**   segments, segments_length  the segment table, as for stormhlaw_read
**   levels, levels_length      the level table, as for stormhlaw_read
**   output, output_length      where the bytes go; as many are needed as the transaction takes
**   answer                     the four numbers of the answer, always written
**
** Tested in this order: the old set (1, element 0), the new set (1, element 1), the reading (its answers 2 to 17 and 24 as they
** are), then 18 and 19. Acceptance writes exactly answer[STORMHLAW_BYTES] bytes of the output; on any refusal the output keeps
** its bytes. What lies beyond in the output keeps what it held.
**
** The tables are left as a strict stormhlaw_read by the same profile would leave them, also at 18 and 19, and are not touched at 1.
** With the old separators given again the output is the same bytes as the input.
*/
void stormhlaw_rewrite(
    const uint8_t *input, size_t input_length,
    uint8_t element, uint8_t component, uint8_t terminator,
    uint64_t how,
    uint8_t new_element, uint8_t new_component, uint8_t new_terminator,
    uint64_t *segments, size_t segments_length,
    uint64_t *levels, size_t levels_length,
    uint8_t *output, size_t output_length,
    uint64_t answer[4]);

/*
** How many segment records, and how many level records, are valid after stormhlaw_read or stormhlaw_rewrite gave `answer` and left
** `segments`: all after an acceptance and after answers 18 and 19, those before the segment named after answers 3 to 17 and 24, none
** after 1 and 2. `segments` is the table that was lent in that call, as the call left it.
*/
static inline size_t stormhlaw_valid_segments(const uint64_t answer[4], const uint64_t *segments)
{
    const uint64_t row_of_se = 79;
    size_t k = 0;
    if (answer[STORMHLAW_NUMBER] == STORMHLAW_ACCEPTED)
        return (size_t)answer[STORMHLAW_SEGMENTS];
    if (answer[STORMHLAW_NUMBER] <= STORMHLAW_INPUT_TOO_LONG)
        return 0;
    if (answer[STORMHLAW_NUMBER] <= STORMHLAW_NO_ROOM || answer[STORMHLAW_NUMBER] == STORMHLAW_ROW_NOT_IN_PROFILE)
        return (size_t)answer[STORMHLAW_SEGMENT] - 1;
    while (segments[STORMHLAW_SEGMENT_NUMBERS * k + 2] != row_of_se)
        k++;
    return k + 1;
}

static inline size_t stormhlaw_valid_levels(const uint64_t answer[4], const uint64_t *segments)
{
    size_t k = stormhlaw_valid_segments(answer, segments);
    uint64_t level = 0;
    /* Levels are numbered in order: the last segment that belongs to one tells how many there are. */
    while (level == 0 && k > 0) {
        k--;
        level = segments[STORMHLAW_SEGMENT_NUMBERS * k + 3];
    }
    return (size_t)level;
}

/*
** Finds an element of a segment, or a component of it: span[0] is where it starts within `segment`, span[1] how many bytes it has.
**
**   segment, segment_length   the bytes of one segment, without its terminator
**   element, component        the two separators, any bytes
**   number                    the element; 0 is the tag
**   part                      the component, from 1; 0 is the whole element
**   span                      always written
**
** The segment is cut at every element separator, and each element, the tag too, at every component separator. What is absent is an
** empty part at its place. A component past the last gives the empty part at its element's end; an element past the last, with any
** component, the empty part at the segment's end: segment_length and 0.
**
** Of a BIN element 1 is the count and element 2 all the bytes that it counts, where the count ends exactly with the segment, as it
** does in every accepted report. Tag, count and these bytes are one component each, whatever bytes they hold: component 1 is all of
** it, as component 0 is. Bytes that begin like a BIN and do not end so are cut at their separators.
**
** The last element is the first that ends where the segment ends, and the last component the first that ends where its element does:
** so list_elements in the example knows where to stop.
*/
void stormhlaw_lookup(
    const uint8_t *segment, size_t segment_length,
    uint8_t element, uint8_t component,
    uint64_t number, uint64_t part,
    uint64_t span[2]);

/*
** How a quantity is written: an optional '-'; then digits, 1 to 15 with leading zeros counted, and at most one '.' before, among or
** behind them; then optionally an exponent, which is 'E', an optional '-' and one or two digits. Nothing else belongs to it: no '+',
** no small 'e', no blank.
**
** Quantities are NCA04 and, of NCA05, components 2, 3, 5, 6, 8, 9, 11, 12, 14 and 15. In an accepted report each of them that is not
** empty is one; components 3, 6, 9, 12 and 15 have at most 10 digits before the exponent.
**
** The five numbers of a quantity:
**
**   number[STORMHLAW_FIT]       1 where the text is a quantity; 0 where it is none, and the other four are 0 then
**   number[STORMHLAW_VALUE]     the digits before the exponent as one whole number, without the '.' and with the '-'
**   number[STORMHLAW_PLACES]    how many of these digits stand behind the '.', 0 to 15
**   number[STORMHLAW_EXPONENT]  the exponent, -99 to 99; 0 where none is written
**   number[STORMHLAW_WRITTEN]   1 where an exponent is written, also one of 0; else 0
**
** The quantity is worth value times ten to the power of exponent - places.
**
**   text     the five numbers   worth
**   -0.50    1, -50, 2, 0, 0    -0.50
**   -0       1, 0, 0, 0, 0      0
**   5.E1     1, 5, 0, 1, 1      50
**   .5E-07   1, 5, 1, -7, 1     0.00000005
**   5E-0     1, 5, 0, 0, 1      5
**   E5       0, 0, 0, 0, 0      nothing: no digit stands before the exponent
**
** Texts that are worth the same may have other numbers: 1 has value 1 and places 0, 1.0 has value 10 and places 1. Compare what they
** are worth. Other texts may have the same numbers: 5, 05 and 5. do.
*/
#define STORMHLAW_FIT 0
#define STORMHLAW_VALUE 1
#define STORMHLAW_PLACES 2
#define STORMHLAW_EXPONENT 3
#define STORMHLAW_WRITTEN 4

/*
** Tells whether a text is a quantity, and its numbers.
**
**   text, text_length   the bytes of the text, however many and of any kind: an element or a component for example
**   number              the five numbers, always written
**
** Every text gets an answer; the empty one is no quantity.
*/
void stormhlaw_number(const uint8_t *text, size_t text_length, int64_t number[5]);

/*
** The two numbers of a walk's answer.
**
**   answer[STORMHLAW_NUMBER]      0 where the levels are listed, else STORMHLAW_LEVELS_UNFIT or STORMHLAW_WALK_OUTPUT_TOO_SHORT
**
** After a 0:
**
**   answer[STORMHLAW_WALKED]      how many levels are listed, which is the count
**
** After a refusal:
**
**   answer[STORMHLAW_LEVEL]       the number of the level that is refused; 0 where no level is meant
*/
#define STORMHLAW_WALKED 1
#define STORMHLAW_LEVEL 1

/*
** Lists the levels of a report under their parents: each level without a parent in file order, and behind it its children, each
** followed by its own. Every level appears exactly once, and children of one parent stand in file order.
**
**   levels, levels_length   the level table; it has room for levels_length / 4 levels
**   count                   how many levels it holds, as answer[STORMHLAW_LEVELS] tells after an acceptance, and
**                           stormhlaw_valid_levels after every answer
**   output, output_length   where the numbers of the levels go, from 1 on; as many are needed as the count
**   answer                  the two numbers of the answer, always written
**
** Any level table may be given, not only what a reading left: it is judged first. Of each level up to the count the parent and the
** depth are looked at, and nothing else. A level is fit where its parent is 0 and its depth 1, or where its parent is at least 1 and
** below its own number and its depth is one more than the parent's and at most 4. Every level that a reading leaves is fit.
**
** Tested in this order:
**
**   20   STORMHLAW_LEVELS_UNFIT: the count exceeds the room, with level 0; else a level is unfit, with the first that is
**   21   STORMHLAW_WALK_OUTPUT_TOO_SHORT: the output has fewer numbers than the count, with level 0
**   0    output[k] is the number of the level in line k + 1, for every k below the count
**
** A refusal leaves the output as it was. Output past the count keeps what it held, and so does the level table always. A count of 0 is
** answered with 0 and 0.
**
** The record of the level in line k + 1 begins at levels[4 * (output[k] - 1)], and its depth tells how far to indent the line. The
** segments that belong to it stand together: its HL, and those behind it up to the next HL or the SE.
**
** Time: in proportion to the count where the levels stand in the order of the outline, which is that X12 gives HLs; at worst the
** square of the count.
*/
void stormhlaw_walk(
    const uint64_t *levels, size_t levels_length,
    uint64_t count,
    uint64_t *output, size_t output_length,
    uint64_t answer[2]);

#ifdef __cplusplus
}
#endif

#endif
