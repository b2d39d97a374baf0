/* Calls each function of birdaghol.h and compares its answer with an example of the rules, or one worked out by hand. */
#include "birdaghol.h"
#include <stdio.h>
#include <string.h>

enum { VB = 16, MOST_WORDS = 65536 };

static const uint32_t SUMOPA = 0xA0A00000, UMOPA_2WAY = 0xA1800008, ZERO = 0xC00800FF, UNLISTED = 0x81000010;

/* usmop4s za7.d, z0.h, z16.h, which needs two features, 2 and 4. */
static const uint32_t USMOP4S = 0xA1C0001F;

static uint8_t z[32 * VB], p[2 * VB], za[VB * VB];

static uint32_t list_too_long[MOST_WORDS + 1];

static int wrong;

static void expect(const char *what, uint64_t answer, uint64_t right) {
    if (answer != right) {
        printf("%s: %llx, not %llx\n", what, (unsigned long long)answer, (unsigned long long)right);
        wrong = 1;
    }
}

/* An answer, which the header's macros must take apart again. */
static uint64_t packed(uint64_t value, uint64_t missing, uint64_t refusal) {
    const uint64_t answer = value * 65536 + missing * 256 + refusal;
    expect("BIRDAGHOL_VALUE", BIRDAGHOL_VALUE(answer), value);
    expect("BIRDAGHOL_MISSING", BIRDAGHOL_MISSING(answer), missing);
    expect("BIRDAGHOL_REFUSAL", BIRDAGHOL_REFUSAL(answer), refusal);
    return answer;
}

static void words(void) {
    uint8_t room[47];
    const char *text = "usmop4s za2.s, { z10.b-z11.b }, { z30.b-z31.b }";
    const char *two_way = "umopa za0.s, p0/m, p0/m, z0.h, z0.h";
    const char *tiles = "zero { za0.h, za1.d }";
    expect("decode", birdaghol_decode(6, USMOP4S), packed(0, 0, 0));
    expect("decode, a feature off", birdaghol_decode(4, USMOP4S), packed(0, 2, 8));
    expect("decode, 2-way", birdaghol_decode(8, UMOPA_2WAY), packed(0, 0, 0));
    expect("decode, 2-way, SME2 off", birdaghol_decode(7, UMOPA_2WAY), packed(0, 8, 8));
    expect("decode, 2-way, mixed signs", birdaghol_decode(15, 0xA0A00008), packed(0, 0, 7));
    expect("print", birdaghol_print(7, 0x811E8352, room, sizeof room), packed(strlen(text), 0, 0));
    expect("print, its text", (uint64_t)memcmp(room, text, strlen(text)), 0);
    expect("print, no room", birdaghol_print(7, 0x811E8352, room, sizeof room - 1), packed(0, 0, 12));
    expect("print, 2-way", birdaghol_print(15, UMOPA_2WAY, room, sizeof room), packed(strlen(two_way), 0, 0));
    expect("print, its 2-way text", (uint64_t)memcmp(room, two_way, strlen(two_way)), 0);
    expect("print, ZERO", birdaghol_print(1, 0xC0080057, room, sizeof room), packed(strlen(tiles), 0, 0));
    expect("print, its tiles", (uint64_t)memcmp(room, tiles, strlen(tiles)), 0);
}

/* Reads a line without the 0 after it. */
static uint64_t read_line(uint32_t flags, const char *line) {
    return birdaghol_read(flags, (const uint8_t *)line, strlen(line));
}

static void lines(void) {
    const char *sumops = "sumops za3.s, p2/m, p5/m, z3.b, z17.b";
    const char *pairs = "usmop4s za2.s, { z10.b-z11.b }, { z30.b-z31.b }";
    const char *usmop4s = "usmop4s za7.d, z0.h, z16.h";
    const char *two_way = "umopa za0.s, p0/m, p0/m, z0.h, z0.h";
    expect("read, predicated", read_line(1, sumops), packed(0xA0B1A873, 0, 0));
    expect("read, predicated, 64-bit", read_line(2, "umopa za7.d, p1/m, p2/m, z4.h, z31.h"), packed(0xA1FF4487, 0, 0));
    expect("read, predicated, 2-way", read_line(8, two_way), packed(UMOPA_2WAY, 0, 0));
    expect("read, quarter-tile", read_line(4, pairs), packed(0x811E8352, 0, 0));
    expect("read, quarter-tile, 64-bit", read_line(6, usmop4s), packed(USMOP4S, 0, 0));
    expect("read, quarter-tile, 2-way", read_line(4, "smop4s za2.s, z12.h, { z18.h-z19.h }"), packed(0x8012819A, 0, 0));
    expect("read, ZERO", read_line(1, "zero { za0.h, za1.d }"), packed(0xC0080057, 0, 0));
    expect("read, ZERO of all", read_line(1, "zero { za }"), packed(ZERO, 0, 0));
    expect("read, ZERO of nothing", read_line(1, "zero {}"), packed(0xC0080000, 0, 0));
    expect("read, a feature off", read_line(4, usmop4s), packed(0, 2, 8));
    expect("read, SME2 off", read_line(7, two_way), packed(0, 8, 8));
    expect("read, flags", read_line(16, "no text"), packed(0, 0, 1));
    expect("read, a feature off, no text", read_line(0, "sumops za3.s, p2/m, p5/m, z3.b, z17"), packed(0, 0, 13));
    expect("read, nothing", read_line(15, ""), packed(0, 0, 13));
    expect("read, a leading zero", read_line(15, "sumops za3.s, p2/m, p5/m, z03.b, z17.b"), packed(0, 0, 13));
    expect("read, capitals", read_line(15, "SUMOPS ZA3.S, P2/M, P5/M, Z3.B, Z17.B"), packed(0, 0, 13));
    expect("read, a space behind", read_line(15, "zero {} "), packed(0, 0, 13));
    expect("read, tiles falling", read_line(15, "zero { za1.d, za0.h }"), packed(0, 0, 13));
    expect("read, more tiles than need be", read_line(15, "zero { za0.d, za4.d }"), packed(0, 0, 13));
    expect("read, its 0 too", birdaghol_read(15, (const uint8_t *)sumops, strlen(sumops) + 1), packed(0, 0, 13));
    expect("read, its start", birdaghol_read(15, (const uint8_t *)sumops, strlen(sumops) - 1), packed(0, 0, 13));
}

static void encodings(void) {
    const uint64_t refused = packed(0, 0, 11);
    expect("encode_predicated", birdaghol_encode_predicated(4, 4, false, true, true, 3, 2, 5, 3, 17), packed(0xA0B1A873, 0, 0));
    expect("encode_predicated, 2-way", birdaghol_encode_predicated(4, 2, true, true, true, 3, 2, 5, 3, 17), packed(0xA191A87B, 0, 0));
    expect("encode_predicated, a size", birdaghol_encode_predicated(5, 4, false, true, true, 3, 2, 5, 3, 17), refused);
    expect("encode_predicated, 3 products", birdaghol_encode_predicated(4, 3, true, true, true, 3, 2, 5, 3, 17), refused);
    expect("encode_predicated, 2-way, mixed signs", birdaghol_encode_predicated(4, 2, false, true, true, 3, 2, 5, 3, 17), refused);
    expect("encode_predicated, 2-way, 64-bit", birdaghol_encode_predicated(8, 2, true, true, true, 3, 2, 5, 3, 17), refused);
    expect("encode_quarter", birdaghol_encode_quarter(8, 4, false, true, true, 4, 12, false, 18, true), packed(0xA0F2019C, 0, 0));
    expect("encode_quarter, a pair", birdaghol_encode_quarter(4, 4, true, false, true, 2, 10, true, 30, true), packed(0x811E8352, 0, 0));
    expect("encode_quarter, 2-way", birdaghol_encode_quarter(4, 2, false, false, true, 2, 12, false, 18, true), packed(0x8012819A, 0, 0));
    expect("encode_quarter, 0 products", birdaghol_encode_quarter(4, 0, false, false, true, 2, 12, false, 18, true), refused);
    expect("encode_quarter, 2-way, mixed signs", birdaghol_encode_quarter(4, 2, true, false, true, 2, 12, false, 18, true), refused);
    expect("encode_quarter, 2-way, 64-bit", birdaghol_encode_quarter(8, 2, false, false, true, 2, 12, false, 18, true), refused);
    expect("encode_zero", birdaghol_encode_zero(0x11), packed(0xC0080011, 0, 0));
}

/* Describes a word with room for so many numbers, and compares the answer and every number, those past the room too. */
static void describe(const char *what, uint32_t flags, uint32_t word, size_t room, uint64_t answer, const uint32_t *right) {
    uint32_t fields[BIRDAGHOL_FIELDS + 2], expected[BIRDAGHOL_FIELDS + 2];
    memset(fields, 0xA5, sizeof fields);
    memset(expected, 0xA5, sizeof expected);
    if (answer == 0) {
        memcpy(expected, right, BIRDAGHOL_FIELDS * sizeof *right);
    }
    expect(what, birdaghol_describe(flags, word, fields, room), answer);
    expect(what, (uint64_t)memcmp(fields, expected, sizeof fields), 0);
}

static void descriptions(void) {
    const uint32_t sumops[BIRDAGHOL_FIELDS] = {BIRDAGHOL_PREDICATED, 4, 4, 0, 1, 1, 3, 2, 5, 3, 17};
    const uint32_t umops_2way[BIRDAGHOL_FIELDS] = {BIRDAGHOL_PREDICATED, 4, 2, 1, 1, 1, 3, 2, 5, 3, 17};
    const uint32_t sumop4s[BIRDAGHOL_FIELDS] = {BIRDAGHOL_QUARTER, 8, 4, 0, 1, 1, 4, 12, 0, 18, 1};
    const uint32_t smop4a_2way[BIRDAGHOL_FIELDS] = {BIRDAGHOL_QUARTER, 4, 2, 0, 0, 0, 2, 10, 1, 30, 0};
    const uint32_t zero[BIRDAGHOL_FIELDS] = {BIRDAGHOL_ZERO, 0x11};
    describe("describe, predicated", 15, 0xA0B1A873, BIRDAGHOL_FIELDS, 0, sumops);
    describe("describe, predicated, 2-way", 8, 0xA191A87B, BIRDAGHOL_FIELDS, 0, umops_2way);
    describe("describe, quarter-tile", 15, 0xA0F2019C, BIRDAGHOL_FIELDS, 0, sumop4s);
    describe("describe, quarter-tile, 2-way", 4, 0x800E834A, BIRDAGHOL_FIELDS, 0, smop4a_2way);
    describe("describe, ZERO", 15, 0xC0080011, BIRDAGHOL_FIELDS, 0, zero);
    describe("describe, more room", 15, 0xA0B1A873, BIRDAGHOL_FIELDS + 2, 0, sumops);
    describe("describe, flags", 16, UNLISTED, 0, packed(0, 0, 1), NULL);
    describe("describe, unlisted", 15, UNLISTED, 0, packed(0, 0, 7), NULL);
    describe("describe, a feature off", 7, UMOPA_2WAY, 0, packed(0, 8, 8), NULL);
    describe("describe, no room", 8, UMOPA_2WAY, BIRDAGHOL_FIELDS - 1, packed(0, 0, 12), NULL);
}

/* A word on vectors of 16 bytes, all of them FF. */
static uint64_t execute(uint32_t flags, bool streaming, bool za_on, size_t vb, uint32_t word) {
    return birdaghol_execute(flags, streaming, za_on, vb, z, sizeof z, p, sizeof p, za, sizeof za, word);
}

/* A list of words on the same. */
static uint64_t run(uint32_t flags, const uint32_t *list, size_t length) {
    return birdaghol_run(flags, true, true, VB, z, sizeof z, p, sizeof p, za, sizeof za, list, length);
}

static void bench(void) {
    const uint32_t list[] = {ZERO, SUMOPA, UNLISTED, SUMOPA}, two_way[] = {ZERO, UMOPA_2WAY};
    const uint8_t sum[] = {0x04, 0xFC, 0xFF, 0xFF};
    const uint8_t two_way_sum[] = {0x02, 0x00, 0xFC, 0xFF};
    memset(z, 0xFF, sizeof z);
    memset(p, 0xFF, sizeof p);
    expect("execute", execute(7, true, true, VB, SUMOPA), packed(0, 0, 0));
    expect("execute, its sum", (uint64_t)memcmp(za, sum, sizeof sum), 0);
    expect("execute, flags", execute(16, true, true, VB, ZERO), packed(0, 0, 1));
    expect("execute, a length", execute(7, true, true, 15, ZERO), packed(0, 0, 2));
    expect("execute, streaming off", execute(7, false, true, VB, SUMOPA), packed(0, 0, 9));
    expect("execute, ZA off", execute(7, true, false, VB, SUMOPA), packed(0, 0, 10));
    expect("run, Z too short", birdaghol_run(7, true, true, VB, z, 511, p, sizeof p, za, sizeof za, list, 4), packed(0, 0, 3));
    expect("run", run(7, list, 4), packed(2, 0, 7));
    expect("run, its sum", (uint64_t)memcmp(za, sum, sizeof sum), 0);
    expect("run, 2-way", run(15, two_way, 2), packed(2, 0, 0));
    expect("run, its 2-way sum", (uint64_t)memcmp(za, two_way_sum, sizeof two_way_sum), 0);
}

/* A word with features off: calls that take it or its line hand back the sum of them, whatever the modes and the room are,
   and write nothing.
   With these on as well, the word is decoded. */
static void lacking(uint32_t flags, uint32_t word, const char *line, uint32_t missing) {
    struct {
        uint32_t fields[BIRDAGHOL_FIELDS];
        uint8_t room[47];
    } lent, before;
    uint8_t za_before[sizeof za];
    memset(&lent, 0xA5, sizeof lent);
    memset(&before, 0xA5, sizeof before);
    memcpy(za_before, za, sizeof za);
    const struct {
        const char *call;
        uint64_t answer;
    } calls[] = {
        {"decode", birdaghol_decode(flags, word)},
        {"describe", birdaghol_describe(flags, word, lent.fields, BIRDAGHOL_FIELDS)},
        {"describe, no room", birdaghol_describe(flags, word, lent.fields, 0)},
        {"print", birdaghol_print(flags, word, lent.room, sizeof lent.room)},
        {"print, no room", birdaghol_print(flags, word, lent.room, 0)},
        {"read", read_line(flags, line)},
        {"execute", execute(flags, true, true, VB, word)},
        {"execute, both modes off", execute(flags, false, false, VB, word)},
        {"run", run(flags, &word, 1)},
    };
    for (size_t i = 0; i < sizeof calls / sizeof *calls; i++) {
        char what[128];
        snprintf(what, sizeof what, "%s, `%s` with flags %u", calls[i].call, line, (unsigned)flags);
        expect(what, calls[i].answer, packed(0, missing, 8));
    }
    expect(line, birdaghol_decode(flags + missing, word), packed(0, 0, 0));
    expect("describe and print, their rooms", (uint64_t)memcmp(&lent, &before, sizeof lent), 0);
    expect("execute and run, their ZA", (uint64_t)memcmp(za, za_before, sizeof za), 0);
}

/* With no feature on, then with every one that the word does not need; where it needs two, with either of them too. */
static void features(void) {
    const char *usmop4s = "usmop4s za7.d, z0.h, z16.h", *usmop4s_32 = "usmop4s za2.s, { z10.b-z11.b }, { z30.b-z31.b }";
    const char *sumopa = "sumopa za0.s, p0/m, p0/m, z0.b, z0.b", *umopa_64 = "umopa za7.d, p1/m, p2/m, z4.h, z31.h";
    const char *umopa_2way = "umopa za0.s, p0/m, p0/m, z0.h, z0.h", *smop4s_2way = "smop4s za2.s, z12.h, { z18.h-z19.h }";
    lacking(0, USMOP4S, usmop4s, 2 + 4);
    lacking(1 + 8, USMOP4S, usmop4s, 2 + 4);
    lacking(4, USMOP4S, usmop4s, 2);
    lacking(1 + 4 + 8, USMOP4S, usmop4s, 2);
    lacking(2, USMOP4S, usmop4s, 4);
    lacking(1 + 2 + 8, USMOP4S, usmop4s, 4);
    lacking(0, SUMOPA, sumopa, 1);
    lacking(2 + 4 + 8, SUMOPA, sumopa, 1);
    lacking(0, 0xA1FF4487, umopa_64, 2);
    lacking(1 + 4 + 8, 0xA1FF4487, umopa_64, 2);
    lacking(0, UMOPA_2WAY, umopa_2way, 8);
    lacking(1 + 2 + 4, UMOPA_2WAY, umopa_2way, 8);
    lacking(0, 0x811E8352, usmop4s_32, 4);
    lacking(1 + 2 + 8, 0x811E8352, usmop4s_32, 4);
    lacking(0, 0x8012819A, smop4s_2way, 4);
    lacking(1 + 2 + 8, 0x8012819A, smop4s_2way, 4);
    lacking(0, ZERO, "zero { za }", 1);
    lacking(2 + 4 + 8, ZERO, "zero { za }", 1);
}

/* The other refusals have no sum beside them, though features are off: all of them, or all that the word does not need. */
static void other_refusals(void) {
    const uint32_t list[] = {ZERO, UNLISTED};
    uint8_t room[46];
    expect("decode, flags, features off", birdaghol_decode(16, USMOP4S), packed(0, 0, 1));
    expect("print, flags, features off", birdaghol_print(16, USMOP4S, room, 0), packed(0, 0, 1));
    expect("read, flags, features off", read_line(16, "usmop4s za7.d, z0.h, z16.h"), packed(0, 0, 1));
    expect("execute, flags, features off", execute(16, true, true, VB, USMOP4S), packed(0, 0, 1));
    expect("run, flags, features off", run(16, &USMOP4S, 1), packed(0, 0, 1));
    expect("execute, a length, features off", execute(0, true, true, 15, USMOP4S), packed(0, 0, 2));
    expect("decode, unlisted, features off", birdaghol_decode(0, UNLISTED), packed(0, 0, 7));
    expect("print, unlisted, features off", birdaghol_print(0, UNLISTED, room, 0), packed(0, 0, 7));
    expect("execute, unlisted, features off", execute(0, false, false, VB, UNLISTED), packed(0, 0, 7));
    expect("run, unlisted, features off", run(1, list, 2), packed(1, 0, 7));
    expect("execute, streaming off, others off", execute(1, false, false, VB, SUMOPA), packed(0, 0, 9));
    expect("execute, ZA off, others off", execute(1, true, false, VB, SUMOPA), packed(0, 0, 10));
    expect("execute, ZERO, ZA off, others off", execute(1, false, false, VB, ZERO), packed(0, 0, 10));
    expect("print, no room, others off", birdaghol_print(4, 0x811E8352, room, sizeof room), packed(0, 0, 12));
    expect("read, no text, features off", read_line(0, "usmop4s za8.d, z0.h, z16.h"), packed(0, 0, 13));
}

/* Lists that stop at a word with features off: the count, the sum and the refusal in one answer. */
static void stopped_lists(void) {
    const uint32_t list[] = {ZERO, SUMOPA, USMOP4S, UMOPA_2WAY};
    const uint8_t sum[] = {0x04, 0xFC, 0xFF, 0xFF};
    expect("run, two features off", run(1, list, 4), packed(2, 2 + 4, 8));
    expect("run, its sum", (uint64_t)memcmp(za, sum, sizeof sum), 0);
    expect("run, I16I64 off", run(1 + 4, list, 4), packed(2, 2, 8));
    expect("run, MOP4 off", run(1 + 2, list, 4), packed(2, 4, 8));
    expect("run, SME2 off", run(1 + 2 + 4, list, 4), packed(3, 8, 8));
    expect("run, SME off", run(2 + 4 + 8, list, 4), packed(0, 1, 8));
    expect("run, the second word", run(1 + 2 + 4, (const uint32_t[]){ZERO, UMOPA_2WAY}, 2), packed(1, 8, 8));
}

/* Lists that stop at a tile with a row that no ZERO before it cleared; tile ZA0.S has the rows of ZA0.D and ZA4.D. */
static void lists_not_cleared(void) {
    const uint8_t sum[] = {0x04, 0xFC, 0xFF, 0xFF};
    uint8_t before[sizeof za];
    memset(za, 0xA5, sizeof za);
    memcpy(before, za, sizeof za);
    expect("run, no ZERO", run(7, (const uint32_t[]){SUMOPA, ZERO}, 2), packed(0, 0, 14));
    expect("run, its ZA", (uint64_t)memcmp(za, before, sizeof za), 0);
    expect("run, half of the rows cleared", run(7, (const uint32_t[]){0xC0080001, SUMOPA}, 2), packed(1, 0, 14));
    expect("run, the other half", run(7, (const uint32_t[]){0xC00800FE, SUMOPA}, 2), packed(1, 0, 14));
    expect("run, both halves", run(7, (const uint32_t[]){0xC0080001, 0xC0080010, SUMOPA}, 3), packed(3, 0, 0));
    expect("run, its sum", (uint64_t)memcmp(za, sum, sizeof sum), 0);
    expect("execute, nothing cleared", execute(7, true, true, VB, SUMOPA), packed(0, 0, 0));
}

/* The longest list: ZERO, then SUMOPA. With one word more, nothing of it is executed, not even ZERO. */
static void longest_lists(void) {
    const uint8_t sum[] = {0xFC, 0x03, 0x04, 0xFC};
    uint8_t before[sizeof za];
    memset(before, 0xA5, sizeof before);
    list_too_long[0] = ZERO;
    for (size_t i = 1; i <= MOST_WORDS; i++) {
        list_too_long[i] = SUMOPA;
    }
    expect("run, 65,536 words", run(7, list_too_long, MOST_WORDS), packed(MOST_WORDS, 0, 0));
    expect("run, their sum", (uint64_t)memcmp(za, sum, sizeof sum), 0);
    memcpy(za, before, sizeof za);
    expect("run, 65,537 words", run(7, list_too_long, MOST_WORDS + 1), packed(0, 0, 6));
    expect("run, 65,537 words, features off", run(0, list_too_long, MOST_WORDS + 1), packed(0, 0, 6));
    expect("run, its ZA", (uint64_t)memcmp(za, before, sizeof za), 0);
}

/* Words on ZA3.S, ZA7.D, ZA3.D and ZA2.D: a 32-bit tile t has the rows of 64-bit tiles t and t + 4. */
static void orders(void) {
    const uint32_t za3_s = 0xA0B9D783, za7_d = 0xA1FAD2E7, za3_d = 0xA0EB9DC3, za2_d = 0xA0D67B12;
    expect("order_matters", birdaghol_order_matters(15, za3_s, za7_d), true);
    expect("order_matters, the other way", birdaghol_order_matters(15, za7_d, za3_s), true);
    expect("order_matters, one number", birdaghol_order_matters(15, za3_s, za3_d), true);
    expect("order_matters, 2-way and quarter-tile", birdaghol_order_matters(15, 0xA1811FEA, 0xA0E402CE), true);
    expect("order_matters, rows apart", birdaghol_order_matters(15, za3_s, za2_d), false);
    expect("order_matters, one width", birdaghol_order_matters(15, za3_d, za7_d), false);
    expect("order_matters, ZERO", birdaghol_order_matters(15, ZERO, za7_d), false);
    expect("order_matters, unlisted", birdaghol_order_matters(15, za3_s, UNLISTED), false);
    expect("order_matters, a feature off", birdaghol_order_matters(1, za3_s, za7_d), false);
    expect("order_matters, flags", birdaghol_order_matters(16, za3_s, za7_d), false);
}

enum { CAPTURE = 25 + 2 * 4 + 32 * VB + 2 * VB + VB * VB };

/* What a capture of two words holds, and room for a third. */
struct contents {
    uint32_t words[3];
    uint8_t z[32 * VB], p[2 * VB], za[VB * VB];
};

/* The file of two words, Z, P and ZA. */
static uint64_t capture_write(uint32_t flags, size_t vb, const struct contents *c, uint8_t *file, size_t room) {
    return birdaghol_capture_write(flags, true, true, vb, c->words, 2, c->z, sizeof c->z, c->p, sizeof c->p, c->za,
                                   sizeof c->za, file, room);
}

/* The contents of a file, with room for so many words. */
static uint64_t capture_read(const uint8_t *file, size_t length, struct contents *c, size_t words_len) {
    return birdaghol_capture_read(file, length, c->words, words_len, c->z, sizeof c->z, c->p, sizeof c->p, c->za,
                                  sizeof c->za);
}

/* A capture is written to a room with a byte to spare; where it is refused, the room stays as it was. */
static void captures_written(const struct contents *held, uint8_t file[CAPTURE + 1]) {
    const uint8_t head[] = {1,    0,    0,    0,    4,    7,    3,    0x00, 0x10, 0, 0, 0, 8,
                            0xC0, 0x08, 0x00, 0xFF, 0xA0, 0xA0, 0x00, 0x00, 0,    0, 2, 0};
    uint8_t before[CAPTURE + 1];
    memset(file, 0xA5, CAPTURE + 1);
    memset(before, 0xA5, CAPTURE + 1);
    expect("capture_write, flags", capture_write(16, 15, held, file, 0), packed(0, 0, 1));
    expect("capture_write, a length", capture_write(7, 15, held, file, 0), packed(0, 0, 2));
    expect("capture_write, no room", capture_write(7, VB, held, file, CAPTURE - 1), packed(0, 0, 12));
    expect("capture_write, its room", (uint64_t)memcmp(file, before, CAPTURE + 1), 0);
    expect("capture_write", capture_write(7, VB, held, file, CAPTURE + 1), packed(CAPTURE, 0, 0));
    expect("capture_write, its head", (uint64_t)memcmp(file, head, sizeof head), 0);
    expect("capture_write, its Z", (uint64_t)memcmp(file + sizeof head, held->z, sizeof held->z), 0);
    expect("capture_write, its ZA", (uint64_t)memcmp(file + CAPTURE - sizeof held->za, held->za, sizeof held->za), 0);
    expect("capture_write, the byte behind", file[CAPTURE], 0xA5);
}

/* The same file is read back; where it is refused, all four buffers stay as they were. */
static void captures_read(const struct contents *held, const uint8_t file[CAPTURE + 1]) {
    struct contents lent, before;
    memset(&lent, 0xA5, sizeof lent);
    memset(&before, 0xA5, sizeof before);
    expect("capture_read, another version", capture_read(file + 1, CAPTURE - 1, &lent, 1), packed(0, 0, 15));
    expect("capture_read, nothing", capture_read(file, 0, &lent, 1), packed(0, 0, 16));
    expect("capture_read, a byte missing", capture_read(file, CAPTURE - 1, &lent, 1), packed(0, 0, 16));
    expect("capture_read, a byte left over", capture_read(file, CAPTURE + 1, &lent, 1), packed(0, 0, 16));
    expect("capture_read, no room", capture_read(file, CAPTURE, &lent, 1), packed(0, 0, 12));
    expect("capture_read, its buffers", (uint64_t)memcmp(&lent, &before, sizeof lent), 0);
    expect("capture_read", capture_read(file, CAPTURE, &lent, 3), packed(2 * 65536 + VB * 64 + 3 * 16 + 7, 0, 0));
    expect("capture_read, its contents", (uint64_t)memcmp(&lent, held, sizeof lent), 0);
}

/* Two words, and what the third holds from the start. */
static void captures(void) {
    struct contents held = {{ZERO, SUMOPA, 0xA5A5A5A5}, {0}, {0}, {0}};
    uint8_t file[CAPTURE + 1];
    memset(held.z, 0x11, sizeof held.z);
    memset(held.p, 0x22, sizeof held.p);
    memset(held.za, 0x33, sizeof held.za);
    captures_written(&held, file);
    captures_read(&held, file);
}

/* The longest file, of the list above with ZA on and streaming mode off, whose answer the header's macros take apart. */
static void longest_capture(void) {
    static uint8_t file[BIRDAGHOL_LONGEST_CAPTURE], z256[32 * 256], p256[2 * 256], za256[256 * 256];
    static uint32_t list[MOST_WORDS];
    uint64_t answer = birdaghol_capture_write(15, false, true, 256, list_too_long, MOST_WORDS, z256, sizeof z256, p256,
                                              sizeof p256, za256, sizeof za256, file, sizeof file);
    expect("capture_write, the longest", answer, packed(BIRDAGHOL_LONGEST_CAPTURE, 0, 0));
    answer = birdaghol_capture_read(file, sizeof file, list, MOST_WORDS, z256, sizeof z256, p256, sizeof p256, za256,
                                    sizeof za256);
    expect("BIRDAGHOL_REFUSAL", BIRDAGHOL_REFUSAL(answer), 0);
    expect("BIRDAGHOL_CAPTURE_WORDS", BIRDAGHOL_CAPTURE_WORDS(answer), MOST_WORDS);
    expect("BIRDAGHOL_CAPTURE_VB", BIRDAGHOL_CAPTURE_VB(answer), 256);
    expect("BIRDAGHOL_CAPTURE_MODES", BIRDAGHOL_CAPTURE_MODES(answer), 2);
    expect("BIRDAGHOL_CAPTURE_FLAGS", BIRDAGHOL_CAPTURE_FLAGS(answer), 15);
    expect("capture_read, the longest list", (uint64_t)memcmp(list, list_too_long, sizeof list), 0);
    answer = birdaghol_capture_write(15, false, true, 256, list_too_long, MOST_WORDS + 1, z256, sizeof z256, p256,
                                     sizeof p256, za256, sizeof za256, file, 0);
    expect("capture_write, 65,537 words", answer, packed(0, 0, 6));
}

int main(void) {
    words();
    lines();
    encodings();
    descriptions();
    bench();
    features();
    other_refusals();
    stopped_lists();
    lists_not_cleared();
    longest_lists();
    orders();
    captures();
    longest_capture();
    puts(wrong ? "calls from C: wrong" : "calls from C: as they should be");
    return wrong;
}
