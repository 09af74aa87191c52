/* Document 01's sheet for file A, with places and order by document 02, W-206, units by W-207, what
 * is left out by W-203, clause files by W-202, hand-typed files and the canonical text by W-205,
 * conditions by W-208, the index of rules by W-209, through the C interface. Prints what fails and
 * ends with status 1 then. Compile with
 *     gcc -Wall -Wextra -Werror -Iinclude tests/c/sheet.c target/staticlib/librigtomato.a */
#include "rigtomato.h"

#include <inttypes.h>
#include <stdio.h>
#include <string.h>

static int checks;
static int failures;

static void check(int holds, const char *what)
{
    checks++;
    if (!holds) {
        failures++;
        printf("FAILED: %s\n", what);
    }
}

#define CHECK(condition) check((condition), #condition)

static const char RULES[] = "(rule (head sensor lamp) (body) (not))\n"
                            "(rule (head dark) (body lamp) (not))\n";

/* A program's two stores. */
struct stores {
    uint16_t rules[RIGTOMATO_RULES_LIMIT];
    size_t rules_len;
    uint8_t names[RIGTOMATO_NAMES_LIMIT];
    size_t names_len;
};

static struct stores file; /* large, so not on the stack */

static struct rigtomato_read_answer read_text(const char *text, size_t length)
{
    struct rigtomato_read_answer answer =
        rigtomato_read((const uint8_t *)text, length, file.rules, RIGTOMATO_RULES_LIMIT,
                       file.names, RIGTOMATO_NAMES_LIMIT);
    file.rules_len = answer.words;
    file.names_len = answer.bytes;
    return answer;
}

/* Reads the declarations with file A's rules behind them. */
static void read_declared(const char *declarations)
{
    char text[1024];
    snprintf(text, sizeof text, "%s%s", declarations, RULES);
    struct rigtomato_read_answer answer = read_text(text, strlen(text));
    CHECK(answer.refusal == 0 && answer.line == 0);
}

static int is(struct rigtomato_verdict answer, uint64_t kind, uint64_t value, uint64_t units)
{
    if (answer.kind == kind && answer.value == value && answer.units == units)
        return 1;
    printf("kind %" PRIu64 ", value %" PRIu64 ", units %" PRIu64 "\n", answer.kind, answer.value,
           answer.units);
    return 0;
}

static struct rigtomato_verdict preferred(uint64_t set, uint64_t budget)
{
    return rigtomato_preferred(file.rules, file.rules_len, set, budget);
}

static struct rigtomato_verdict stable(uint64_t set, uint64_t budget)
{
    return rigtomato_stable(file.rules, file.rules_len, set, budget);
}

static struct rigtomato_verdict next_state(uint64_t start, uint64_t budget)
{
    return rigtomato_next_state(file.rules, file.rules_len, start, budget);
}

static int place_is(uint64_t set, uint64_t refusal, uint64_t value)
{
    struct rigtomato_value_answer answer = rigtomato_place(file.rules, file.rules_len, set);
    if (answer.refusal == refusal && answer.value == value)
        return 1;
    printf("refusal %" PRIu64 ", value %" PRIu64 "\n", answer.refusal, answer.value);
    return 0;
}

/* Are these, in this order, all the preferred states of the file? */
static int states_are(size_t count, const uint64_t *states)
{
    uint64_t start = 0;
    for (size_t i = 0; i < count; i++) {
        struct rigtomato_verdict next = next_state(start, RIGTOMATO_BUDGET_LIMIT);
        if (next.kind != RIGTOMATO_STATE || next.value != states[i])
            return 0;
        struct rigtomato_value_answer place =
            rigtomato_place(file.rules, file.rules_len, next.value);
        if (place.refusal != 0)
            return 0;
        start = place.value + 1;
    }
    return next_state(start, RIGTOMATO_BUDGET_LIMIT).kind == RIGTOMATO_NONE;
}

static void file_a(void)
{
    const uint64_t most = RIGTOMATO_BUDGET_LIMIT;
    static const uint16_t words[] = {1, 3, 2, 2, 1, 2, 17, 2, 0, 0, 0, 1, 1, 1, 0, 2, 1};
    static const char names[] = "\x06sensor\x04lamp\x04" "dark";

    read_declared("(min sensor)\n(min lamp)\n(vary dark)\n(fix)\n");
    CHECK(file.rules_len == sizeof words / sizeof words[0]);
    CHECK(memcmp(file.rules, words, sizeof words) == 0);
    CHECK(file.names_len == sizeof names - 1);
    CHECK(memcmp(file.names, names, sizeof names - 1) == 0);

    CHECK(is(preferred(6, most), RIGTOMATO_YES, 0, 13));
    CHECK(is(preferred(1, most), RIGTOMATO_BEATEN, 6, 6));
    CHECK(is(preferred(0, most), RIGTOMATO_BROKEN, 0, 0));
    CHECK(is(preferred(2, most), RIGTOMATO_BROKEN, 1, 0));
    CHECK(is(preferred(1, 5), RIGTOMATO_SPENT, 0, 5));
    CHECK(is(preferred(1, 6), RIGTOMATO_BEATEN, 6, 6));
    CHECK(is(preferred(8, most), RIGTOMATO_REFUSED, RIGTOMATO_SET_TOO_LARGE, 0));
    CHECK(is(preferred(7, most + 1), RIGTOMATO_REFUSED, RIGTOMATO_BUDGET_TOO_LARGE, 0));
    CHECK(is(next_state(0, most), RIGTOMATO_STATE, 6, 19));
    CHECK(is(next_state(0, 18), RIGTOMATO_SPENT, 0, 18));
    CHECK(is(next_state(3, most), RIGTOMATO_STATE, 6, 17));
    CHECK(is(next_state(4, most), RIGTOMATO_NONE, 0, 26));
    CHECK(is(next_state(4, 25), RIGTOMATO_SPENT, 0, 25));
    CHECK(is(next_state(8, 0), RIGTOMATO_NONE, 0, 0));
    CHECK(is(next_state(9, 0), RIGTOMATO_REFUSED, RIGTOMATO_SET_TOO_LARGE, 0));
    CHECK(is(stable(0, 0), RIGTOMATO_REFUSED, RIGTOMATO_RULE_STORE, 0));
    CHECK(states_are(1, (const uint64_t[]){6}));
}

static void file_a_declared_otherwise(void)
{
    read_declared("(min sensor lamp)\n(vary dark)\n(fix)\n");
    CHECK(states_are(3, (const uint64_t[]){6, 1, 5}));
    read_declared("(min lamp)\n(min sensor)\n(vary dark)\n(fix)\n");
    CHECK(states_are(2, (const uint64_t[]){2, 6}));
    read_declared("(min sensor)\n(min lamp)\n(vary)\n(fix dark)\n");
    CHECK(states_are(2, (const uint64_t[]){6, 1}));
    CHECK(is(preferred(1, RIGTOMATO_BUDGET_LIMIT), RIGTOMATO_YES, 0, 10));
}

/* Writes the names a0, a1 .., each with a space before it; gives their length. */
static size_t print_atoms(char *text, int count)
{
    size_t length = 0;
    for (int i = 0; i < count; i++)
        length += (size_t)sprintf(text + length, " a%d", i);
    return length;
}

/* Reads a preference file of so many fixed atoms, all in the head and the body of one rule. */
static void read_atoms(int count)
{
    char text[4096];
    size_t length = (size_t)sprintf(text, "(vary)\n(fix");
    length += print_atoms(text + length, count);
    length += (size_t)sprintf(text + length, ")\n(rule (head");
    length += print_atoms(text + length, count);
    length += (size_t)sprintf(text + length, ") (body");
    length += print_atoms(text + length, count);
    length += (size_t)sprintf(text + length, ") (not))\n");
    CHECK(read_text(text, length).refusal == 0);
    CHECK(file.rules[1] == count);
}

/* Each set's place, and the refusals in their sequence. */
static void places(void)
{
    static const uint64_t order[] = {0, 4, 2, 6, 1, 5, 3, 7};
    read_declared("(min sensor)\n(min lamp)\n(vary dark)\n(fix)\n");
    for (uint64_t place = 0; place < 8; place++)
        CHECK(place_is(order[place], 0, place));
    CHECK(place_is(8, RIGTOMATO_SET_TOO_LARGE, 0));
    CHECK(place_is(UINT64_MAX, RIGTOMATO_SET_TOO_LARGE, 0));
    read_atoms(0);
    CHECK(place_is(0, 0, 0));
    CHECK(place_is(1, RIGTOMATO_SET_TOO_LARGE, 0));
    read_atoms(60);
    CHECK(place_is(1, 0, UINT64_C(1) << 59));
    CHECK(place_is(UINT64_C(1) << 59, 0, 1));
    CHECK(place_is((UINT64_C(1) << 60) - 1, 0, (UINT64_C(1) << 60) - 1));
    CHECK(place_is(UINT64_C(1) << 60, RIGTOMATO_SET_TOO_LARGE, 0));
    read_atoms(61);
    CHECK(place_is(0, RIGTOMATO_TOO_MANY_ATOMS, 0));
    CHECK(place_is(UINT64_MAX, RIGTOMATO_TOO_MANY_ATOMS, 0));
    CHECK(read_text("(atoms a)\n", 10).refusal == 0);
    CHECK(place_is(0, RIGTOMATO_RULE_STORE, 0));
    CHECK(rigtomato_place(NULL, 0, 0).refusal == RIGTOMATO_RULE_STORE);
}

/* One of the two writers. */
typedef struct rigtomato_text_answer writer(const uint16_t *rules, size_t rules_len,
                                            const uint8_t *names, size_t names_len,
                                            uint8_t *out, size_t out_len);

/* From the file's stores the writer makes the text expected, into an output exact, one byte short
 * and longer. */
static void stores_written_as(writer *write, const char *text)
{
    static uint8_t out[4096];
    size_t length = strlen(text);
    for (size_t lent = length - 1; lent <= length + 2; lent++) {
        memset(out, 0xa5, sizeof out);
        struct rigtomato_text_answer answer =
            write(file.rules, file.rules_len, file.names, file.names_len, out, lent);
        size_t done = 0;
        if (lent < length) {
            CHECK(answer.refusal == RIGTOMATO_OUTPUT_SHORT && answer.bytes == 0);
        } else {
            CHECK(answer.refusal == 0 && answer.bytes == length);
            CHECK(memcmp(out, text, length) == 0);
            done = length;
        }
        int kept = 1;
        for (size_t i = done; i < sizeof out; i++)
            kept = kept && out[i] == 0xa5;
        CHECK(kept);
    }
}

/* The same from the stores of a text. */
static void written_as(const char *read, const char *text)
{
    CHECK(read_text(read, strlen(read)).refusal == 0);
    stores_written_as(rigtomato_write, text);
}

/* The text comes back from its stores. */
static void written(const char *text)
{
    written_as(text, text);
}

/* Translates, reads the delivered text again and gives its atoms, rules and occurrences. */
static void translated(const char *text, unsigned atoms, unsigned rules, unsigned occurrences)
{
    static uint8_t out[RIGTOMATO_TEXT_LIMIT];
    CHECK(read_text(text, strlen(text)).refusal == 0);
    struct rigtomato_text_answer answer = rigtomato_translate(
        file.rules, file.rules_len, file.names, file.names_len, out, sizeof out);
    CHECK(answer.refusal == 0);
    CHECK(read_text((const char *)out, answer.bytes).refusal == 0);
    CHECK(file.rules[0] == 0 && file.rules[1] == atoms && file.rules[3] == rules);
    CHECK(file.rules_len == 4 + 3 * rules + occurrences);
    answer = rigtomato_translate(file.rules, file.rules_len, file.names, file.names_len, out,
                                 sizeof out);
    CHECK(answer.refusal == RIGTOMATO_RULE_STORE && answer.bytes == 0);
}

static void small_files(void)
{
    CHECK(read_text("(vary)\n(fix)\n", 13).refusal == 0);
    CHECK(states_are(1, (const uint64_t[]){0}));
    translated("(vary)\n(fix)\n", 2, 4, 7);
    const char *broken = "(vary)\n(fix)\n(rule (head) (body) (not))\n";
    CHECK(read_text(broken, strlen(broken)).refusal == 0);
    CHECK(next_state(0, RIGTOMATO_BUDGET_LIMIT).kind == RIGTOMATO_NONE);
    translated("(min sensor)\n(vary dark)\n(fix)\n(rule (head sensor dark) (body) (not))\n", 10, 18,
               44);
}

static void stable_sets(void)
{
    const uint64_t most = RIGTOMATO_BUDGET_LIMIT;
    const char *plain = "(atoms a b c)\n(rule (head a b) (body) (not c))\n"
                        "(rule (head b) (body a) (not))\n";
    CHECK(read_text(plain, strlen(plain)).refusal == 0);
    CHECK(is(stable(2, most), RIGTOMATO_YES, 0, 4));
    CHECK(is(stable(2, 4), RIGTOMATO_YES, 0, 4));
    CHECK(is(stable(2, 3), RIGTOMATO_SPENT, 0, 3));
    CHECK(is(stable(3, most), RIGTOMATO_BEATEN, 2, 5));
    CHECK(is(stable(4, most), RIGTOMATO_BEATEN, 0, 4));
    CHECK(is(stable(0, 0), RIGTOMATO_BROKEN, 0, 0));
    CHECK(is(stable(1, 0), RIGTOMATO_BROKEN, 1, 0));
    CHECK(read_text("(atoms)\n", 8).refusal == 0);
    CHECK(is(stable(0, 0), RIGTOMATO_YES, 0, 0));
}

static void refusals(void)
{
    struct rigtomato_read_answer answer = rigtomato_read(NULL, 0, NULL, 0, NULL, 0);
    CHECK(answer.refusal == RIGTOMATO_FORM && answer.line == 1);
    answer = read_text("(min a)\n(vary a)\n(fix)\n", 23);
    CHECK(answer.refusal == RIGTOMATO_DECLARED_TWICE && answer.line == 2);
    CHECK(answer.words == 0 && answer.bytes == 0);
    CHECK(is(rigtomato_preferred(NULL, 0, 0, 0), RIGTOMATO_REFUSED, RIGTOMATO_RULE_STORE, 0));
    CHECK(read_text("(atoms a)\n", 10).refusal == 0);
    CHECK(is(preferred(0, 0), RIGTOMATO_REFUSED, RIGTOMATO_RULE_STORE, 0));
}

static int read_gives(const char *text, uint64_t refusal, uint64_t line)
{
    struct rigtomato_read_answer answer = read_text(text, strlen(text));
    return answer.refusal == refusal && answer.line == line;
}

/* Document 02, W-201: names of 24 and 25 bytes, and numbers as names. */
static void names(void)
{
    CHECK(read_gives("(vary 7 1999_12)\n(fix 1999_12_31_lender_000417)\n", 0, 0));
    CHECK(read_gives("(vary)\n(fix 1999_12_31_lender_0004175)\n", RIGTOMATO_NAME, 2));
    CHECK(read_gives("(vary _a)\n(fix)\n", RIGTOMATO_FORM, 1));
    CHECK(read_gives("(atoms abcdefghijklmnopqrstuvwx N.abcdefghijklmnopqrstuvwx "
                     "S.7bcdefghijklmnopqrstuvwx D.abcdefghijklmnopqrstuvwx)\n", 0, 0));
    CHECK(file.names_len == 4 + 24 + 3 * 26);
    CHECK(read_gives("(atoms abcdefghijklmnopqrstuvwxy)\n", RIGTOMATO_NAME, 1));
    CHECK(read_gives("(atoms N.abcdefghijklmnopqrstuvwxy)\n", RIGTOMATO_NAME, 1));
    CHECK(read_gives("(atoms S.abcdefghijklmnopqrstuvwxy)\n", RIGTOMATO_NAME, 1));
    CHECK(read_gives("(atoms D.7bcdefghijklmnopqrstuvwxy)\n", RIGTOMATO_NAME, 1));
}

/* Document 02, W-203: what a text's stores leave out. */
static void unused_atoms(void)
{
    static const uint16_t words[] = {1, 3, 3, 2, 1, 3, 17, 2, 0, 0, 0, 1, 1, 1, 0, 2, 1};
    static const char names[] = "\x06sensor\x04lamp\x04" "dark";
    const char *catalogue = "(min pad1 sensor pad2)\n(min pad3)\n(min lamp)\n(vary pad4 dark)\n"
                            "(fix pad5)\n(rule (head sensor lamp) (body) (not))\n"
                            "(rule (head dark) (body lamp) (not))\n";
    written_as(catalogue, "(min sensor)\n(min)\n(min lamp)\n(vary dark)\n(fix)\n"
                          "(rule (head sensor lamp) (body) (not))\n"
                          "(rule (head dark) (body lamp) (not))\n");
    CHECK(file.rules_len == sizeof words / sizeof words[0]);
    CHECK(memcmp(file.rules, words, sizeof words) == 0);
    CHECK(file.names_len == sizeof names - 1);
    CHECK(memcmp(file.names, names, sizeof names - 1) == 0);
    CHECK(states_are(1, (const uint64_t[]){6}));
    CHECK(place_is(8, RIGTOMATO_SET_TOO_LARGE, 0));
    /* 3n - f + p + k + 2, 3n - f + 2r + 4p + 2k + 4, 6n - 2f + 2L + r + 15p + 5k + 7 */
    translated(catalogue, 16, 31, 80);
    /* outputs need room for what remains */
    const uint8_t *text = (const uint8_t *)catalogue;
    struct rigtomato_read_answer answer =
        rigtomato_read(text, strlen(catalogue), file.rules, 17, file.names, 17);
    CHECK(answer.refusal == 0 && answer.words == 17 && answer.bytes == 17);
    answer = rigtomato_read(text, strlen(catalogue), file.rules, 16, file.names, 17);
    CHECK(answer.refusal == RIGTOMATO_OUTPUT_SHORT && answer.line == 0);
    /* no rule has an atom */
    written_as("(min a b)\n(vary c)\n(fix d)\n", "(min)\n(vary)\n(fix)\n");
    CHECK(states_are(1, (const uint64_t[]){0}));
    /* unused names are checked */
    CHECK(read_gives("(vary a)\n(fix abcdefghijklmnopqrstuvwxy)\n(rule (head a) (body) (not))\n",
                     RIGTOMATO_NAME, 2));
    CHECK(read_gives("(min b)\n(vary a)\n(fix b)\n(rule (head a) (body) (not))\n",
                     RIGTOMATO_DECLARED_TWICE, 3));
    /* a plain program keeps its atoms */
    written("(atoms a b c)\n(rule (head b) (body) (not))\n");
    CHECK(file.rules[1] == 3);
}

/* Stores handed in are taken as they stand: a, v and f stand in no rule. */
static void stores_handed_in(void)
{
    static const uint16_t words[] = {1, 4, 2, 1, 1, 2, 17, 18, 1, 0, 0, 1};
    static const char names[] = "\x01" "a\x01" "b\x01" "v\x01" "f";
    static const char text[] =
        "(min a)\n(min b)\n(vary v)\n(fix f)\n(rule (head b) (body) (not))\n";
    static uint8_t out[4096];
    file.rules_len = sizeof words / sizeof words[0];
    memcpy(file.rules, words, sizeof words);
    file.names_len = sizeof names - 1;
    memcpy(file.names, names, sizeof names - 1);
    CHECK(states_are(4, (const uint64_t[]){2, 10, 6, 14}));
    CHECK(place_is(14, 0, 7));
    CHECK(place_is(16, RIGTOMATO_SET_TOO_LARGE, 0));
    struct rigtomato_text_answer answer =
        rigtomato_write(file.rules, file.rules_len, file.names, file.names_len, out, sizeof out);
    CHECK(answer.refusal == 0 && answer.bytes == sizeof text - 1);
    CHECK(memcmp(out, text, sizeof text - 1) == 0);
    answer = rigtomato_translate(file.rules, file.rules_len, file.names, file.names_len, out,
                                 sizeof out);
    CHECK(answer.refusal == 0 && memcmp(out, "(atoms a b v f N.a ", 19) == 0);
}

static struct rigtomato_read_answer read_clauses(const char *text, size_t length)
{
    struct rigtomato_read_answer answer =
        rigtomato_read_clauses((const uint8_t *)text, length, file.rules, RIGTOMATO_RULES_LIMIT,
                               file.names, RIGTOMATO_NAMES_LIMIT);
    file.rules_len = answer.words;
    file.names_len = answer.bytes;
    return answer;
}

static int clauses_give(const char *text, uint64_t refusal, uint64_t line)
{
    struct rigtomato_read_answer answer = read_clauses(text, strlen(text));
    if (answer.refusal == refusal && answer.line == line)
        return refusal == 0 || (answer.words == 0 && answer.bytes == 0);
    printf("refusal %" PRIu64 ", line %" PRIu64 "\n", answer.refusal, answer.line);
    return 0;
}

/* Document 02, W-202: what a clause file gives. */
static void clauses(void)
{
    static const uint16_t words[] = {1, 3, 1, 2, 1, 1, 1, 1, 2, 0, 1, 0, 2, 1, 1, 0, 2, 1};
    static const char names[] = "\x02v2\x02v7\x02v9";
    const char *text = "c three of nine atoms\np cnf 9 2\n 7 -2 -9 7\n0\n\nc\n9 -7 0\n";
    CHECK(clauses_give(text, 0, 0));
    CHECK(file.rules_len == sizeof words / sizeof words[0]);
    CHECK(memcmp(file.rules, words, sizeof words) == 0);
    CHECK(file.names_len == sizeof names - 1);
    CHECK(memcmp(file.names, names, sizeof names - 1) == 0);
    CHECK(states_are(1, (const uint64_t[]){0}));
    /* outputs exact and one short; nothing is written on a refusal */
    uint16_t rules[18];
    uint8_t bytes[9];
    memset(rules, 0xa5, sizeof rules);
    memset(bytes, 0xa5, sizeof bytes);
    const uint8_t *lent = (const uint8_t *)text;
    size_t length = strlen(text);
    struct rigtomato_read_answer answer = rigtomato_read_clauses(lent, length, rules, 17, bytes, 9);
    CHECK(answer.refusal == RIGTOMATO_OUTPUT_SHORT && answer.line == 0);
    answer = rigtomato_read_clauses(lent, length, rules, 18, bytes, 8);
    CHECK(answer.refusal == RIGTOMATO_OUTPUT_SHORT && answer.words == 0 && answer.bytes == 0);
    CHECK(rules[0] == 0xa5a5 && rules[17] == 0xa5a5 && bytes[0] == 0xa5 && bytes[8] == 0xa5);
    answer = rigtomato_read_clauses(lent, length, rules, 18, bytes, 9);
    CHECK(answer.refusal == 0 && answer.line == 0 && answer.words == 18 && answer.bytes == 9);
    CHECK(memcmp(rules, words, sizeof words) == 0);
    /* the least sets that satisfy the clauses */
    CHECK(clauses_give("p cnf 4 4\n1 2 0 3 4 0\n-1 -2 0\n-1 -3 0\n", 0, 0));
    CHECK(states_are(3, (const uint64_t[]){10, 6, 9}));
    CHECK(clauses_give("p cnf 1 2\n1 0\n-1 0\n", 0, 0));
    CHECK(states_are(0, NULL));
    CHECK(clauses_give("p cnf 0 0\n", 0, 0));
    CHECK(file.rules_len == 4 && file.rules[2] == 1 && file.names_len == 0);
    CHECK(states_are(1, (const uint64_t[]){0}));
}

static void clause_refusals(void)
{
    static char text[RIGTOMATO_TEXT_LIMIT + 1];
    struct rigtomato_read_answer answer = rigtomato_read_clauses(NULL, 0, NULL, 0, NULL, 0);
    CHECK(answer.refusal == RIGTOMATO_BROKEN_CLAUSES && answer.line == 1);
    CHECK(clauses_give("c\np cnf 1\n", RIGTOMATO_BROKEN_CLAUSES, 2));
    CHECK(clauses_give("p cnf 1 1\n1 -0\n", RIGTOMATO_BROKEN_CLAUSES, 2));
    CHECK(clauses_give("p cnf 1 1\n1 0", RIGTOMATO_BROKEN_CLAUSES, 2));
    CHECK(clauses_give("p cnf 1 1\n1\n", RIGTOMATO_BROKEN_CLAUSES, 3));
    CHECK(clauses_give("p cnf 1 2\n1 0\n", RIGTOMATO_BROKEN_CLAUSES, 3));
    CHECK(clauses_give("p cnf 1 1\n1 0\n1\n0\n", RIGTOMATO_BROKEN_CLAUSES, 3));
    CHECK(clauses_give("p cnf 2 1\n1\n-3 0\n", RIGTOMATO_LITERAL_BEYOND, 3));
    CHECK(clauses_give("p cnf 2 1\n1\n3 x 0\n", RIGTOMATO_BROKEN_CLAUSES, 3));
    CHECK(clauses_give("p cnf 2 1\n99999999999999999999 0\n", RIGTOMATO_LITERAL_BEYOND, 2));
    CHECK(clauses_give("p cnf 257 1\n", RIGTOMATO_LIMIT, 1));
    CHECK(clauses_give("p cnf 1 1025\n", RIGTOMATO_LIMIT, 1));
    CHECK(clauses_give("p cnf 256 1024\n", RIGTOMATO_BROKEN_CLAUSES, 2));
    /* 8,192 occurrences on lines 2 to 33 */
    size_t length = (size_t)sprintf(text, "p cnf 256 33\n");
    for (int i = 0; i < 32; i++) {
        for (int atom = 1; atom <= 256; atom++)
            length += (size_t)sprintf(text + length, "%d ", i % 2 ? -atom : atom);
        length += (size_t)sprintf(text + length, "0\n");
    }
    sprintf(text + length, "0\n");
    CHECK(clauses_give(text, 0, 0));
    CHECK(file.rules_len == 4 + 256 + 3 * 33 + 8192);
    sprintf(text + length, "\n5 0\n");
    CHECK(clauses_give(text, RIGTOMATO_LIMIT, 35));
    sprintf(text + length, "5 257 0\n");
    CHECK(clauses_give(text, RIGTOMATO_LITERAL_BEYOND, 34));
    memset(text, 'c', sizeof text);
    answer = read_clauses(text, sizeof text - 1);
    CHECK(answer.refusal == RIGTOMATO_BROKEN_CLAUSES && answer.line == 1);
    answer = read_clauses(text, sizeof text);
    CHECK(answer.refusal == RIGTOMATO_TEXT_TOO_LONG && answer.line == 0);
}

/* Document 02, W-205: spaces, comments and blank lines. */
static void hand_typed(void)
{
    const char *file_a = "(min sensor)\n(min lamp)\n(vary dark)\n(fix)\n"
                         "(rule (head sensor lamp) (body) (not))\n"
                         "(rule (head dark) (body lamp) (not))\n";
    written_as("; one of two parts is at fault\n\n  ( min sensor )\n(min lamp)   ; the lesser\n"
               "(vary  dark)\n(fix)\n     \n(rule (head sensor lamp) (body)      (not))\n"
               "(rule(head dark)(body lamp)(not));no light\n;\n", file_a);
    CHECK(states_are(1, (const uint64_t[]){6}));
    written_as("\n;\n ( atoms a N.a )\n\n(rule(head a)(body)(not N.a))\n",
               "(atoms a N.a)\n(rule (head a) (body) (not N.a))\n");
    CHECK(file.rules[0] == 0);
    /* lines are counted as typed, and a missing one stands one past the last */
    CHECK(read_gives("\n\n(vary a) ; one\n(fix a)\n", RIGTOMATO_DECLARED_TWICE, 4));
    CHECK(read_gives("(vary)\n(fix)\n;\n\n(rule(head a)(body)(not))\n", RIGTOMATO_NOT_DECLARED, 5));
    CHECK(read_gives("\n; nothing\n  \n", RIGTOMATO_FORM, 4));
    CHECK(read_gives("(vary)\n\n", RIGTOMATO_FORM, 3));
    /* one form a line, and no form over two */
    CHECK(read_gives("(vary)(fix)\n", RIGTOMATO_FORM, 1));
    CHECK(read_gives("(vary)\n(fix) (rule (head) (body) (not))\n", RIGTOMATO_FORM, 2));
    CHECK(read_gives("(vary\n)\n(fix)\n", RIGTOMATO_FORM, 1));
    /* byte 10 ends the last line too, a comment or a blank one */
    CHECK(read_gives("(vary)\n(fix)\n; end", RIGTOMATO_FORM, 3));
    CHECK(read_gives("(vary)\n(fix)\n ", RIGTOMATO_FORM, 3));
    /* only byte 32 is a space */
    CHECK(read_gives("(vary\ta)\n(fix)\n", RIGTOMATO_FORM, 1));
    CHECK(read_gives("(vary)\r\n(fix)\r\n", RIGTOMATO_FORM, 1));
    CHECK(read_gives("(vary) ;\t\r\n(fix)\n", 0, 0));
    /* what a comment cuts off is lacking */
    CHECK(read_gives("(vary a;)\n(fix)\n", RIGTOMATO_FORM, 1));
    CHECK(read_gives("(vary);(fix)\n", RIGTOMATO_FORM, 2));
    /* the first form's first word tells the kind */
    CHECK(read_gives("; (atoms a)\n(vary)\n(fix)\n(rule (head) (body) (not a))\n",
                     RIGTOMATO_NOT_DECLARED, 4));
    CHECK(read_gives("(atomsx)\n", RIGTOMATO_FORM, 1));
    CHECK(read_gives("(min(a))\n(vary)\n(fix)\n", RIGTOMATO_FORM, 1));
}

/* The longest texts of spaces, comments, blank lines and brackets. */
static void longest_texts(void)
{
    static char text[RIGTOMATO_TEXT_LIMIT];
    struct rigtomato_read_answer answer;
    memset(text, ' ', sizeof text);
    answer = read_text(text, sizeof text);
    CHECK(answer.refusal == RIGTOMATO_FORM && answer.line == 1);
    text[sizeof text - 1] = '\n';
    answer = read_text(text, sizeof text);
    CHECK(answer.refusal == RIGTOMATO_FORM && answer.line == 2);
    memcpy(text + 400000, "(vary)\n(fix)\n", 13);
    CHECK(read_text(text, sizeof text).refusal == 0 && file.rules_len == 4);
    memset(text, '\n', sizeof text);
    answer = read_text(text, sizeof text);
    CHECK(answer.refusal == RIGTOMATO_FORM && answer.line == sizeof text + 1);
    for (size_t i = 0; i < sizeof text; i += 2)
        text[i] = ';';
    answer = read_text(text, sizeof text);
    CHECK(answer.refusal == RIGTOMATO_FORM && answer.line == sizeof text / 2 + 1);
    memset(text, '(', sizeof text);
    answer = read_text(text, sizeof text);
    CHECK(answer.refusal == RIGTOMATO_FORM && answer.line == 1);
}

/* The canonical text of the stores of a text. */
static void canonical_is(const char *read, const char *text)
{
    CHECK(read_text(read, strlen(read)).refusal == 0);
    stores_written_as(rigtomato_write_canonical, text);
}

static uint64_t canonical_refusal(const uint16_t *rules, size_t rules_len, const char *names,
                                  size_t names_len, size_t lent)
{
    static uint8_t out[4096];
    memset(out, 0xa5, sizeof out);
    struct rigtomato_text_answer answer = rigtomato_write_canonical(
        rules, rules_len, (const uint8_t *)names, names_len, out, lent);
    CHECK(answer.bytes == 0);
    int kept = 1;
    for (size_t i = 0; i < sizeof out; i++)
        kept = kept && out[i] == 0xa5;
    CHECK(kept);
    return answer.refusal;
}

/* Document 02, W-205: the canonical text. */
static void canonical(void)
{
    /* lists by number and not by name, rules by head, body and not, one of equal rules */
    const char *sorted = "(atoms c b a)\n"
                         "(rule (head) (body) (not))\n"
                         "(rule (head) (body) (not c))\n"
                         "(rule (head) (body b) (not))\n"
                         "(rule (head c) (body) (not))\n"
                         "(rule (head c) (body b) (not a))\n"
                         "(rule (head c) (body b a) (not))\n"
                         "(rule (head c b a) (body) (not))\n"
                         "(rule (head b) (body) (not))\n";
    canonical_is(sorted, sorted);
    canonical_is("; the same\n(atoms c b a)\n"
                 "(rule(head b)(body)(not))\n"
                 "(rule(head a b c)(body)(not))\n"
                 "(rule(head c)(body a b)(not))\n"
                 "(rule(head c)(body b)(not a))\n"
                 "(rule(head c)(body)(not))\n\n"
                 "(rule(head)(body b)(not))\n"
                 "(rule(head)(body)(not c))\n"
                 "(rule(head)(body)(not))\n"
                 "(rule(head c)(body b a)(not)) ; once more\n"
                 "(rule(head b)(body)(not)) ; once more\n", sorted);
    canonical_is("(atoms)\n", "(atoms)\n");
    canonical_is("(min b x)\n(min)\n(vary)\n(fix a)\n(rule (head a b) (body) (not))\n",
                 "(min b)\n(min)\n(vary)\n(fix a)\n(rule (head b a) (body) (not))\n");
    /* in stores handed in the atoms that no rule has are written */
    static const uint16_t words[] = {1, 4, 2, 2, 1, 2, 17, 18, 2, 0, 0, 3, 1, 2, 0, 0, 1, 3};
    static const char names[] = "\x01" "a\x01" "b\x01" "v\x01" "f";
    size_t count = sizeof words / sizeof words[0], length = sizeof names - 1;
    file.rules_len = count;
    memcpy(file.rules, words, sizeof words);
    file.names_len = length;
    memcpy(file.names, names, length);
    stores_written_as(rigtomato_write_canonical, "(min a)\n(min b)\n(vary v)\n(fix f)\n"
                                                 "(rule (head b f) (body) (not))\n");
    /* 10, then 14, then 9; nothing is written on a refusal */
    CHECK(canonical_refusal(words, count, names, length, 63) == RIGTOMATO_OUTPUT_SHORT);
    CHECK(canonical_refusal(words, count, names, length, 0) == RIGTOMATO_OUTPUT_SHORT);
    CHECK(canonical_refusal(words, count, names, length - 1, 4096) == RIGTOMATO_NAME_STORE);
    CHECK(canonical_refusal(words, count, names, 0, 0) == RIGTOMATO_NAME_STORE);
    CHECK(canonical_refusal(words, count - 1, names, length, 4096) == RIGTOMATO_RULE_STORE);
    CHECK(canonical_refusal(words, count - 1, names, 0, 0) == RIGTOMATO_RULE_STORE);
    CHECK(rigtomato_write_canonical(NULL, 0, NULL, 0, NULL, 0).refusal == RIGTOMATO_RULE_STORE);
}

/* The most rules: from the last to the first, and all of them equal. */
static void canonical_of_the_most_rules(void)
{
    static char text[RIGTOMATO_TEXT_LIMIT];
    static uint8_t out[RIGTOMATO_TEXT_LIMIT], again[RIGTOMATO_TEXT_LIMIT];
    size_t declared = (size_t)sprintf(text, "(atoms");
    declared += print_atoms(text + declared, 1100);
    declared += (size_t)sprintf(text + declared, ")\n");
    size_t length = declared;
    for (int i = 4199; i >= 0; i--)
        length += (size_t)sprintf(text + length, "(rule (head a%d) (body a%d) (not))\n", i % 1100,
                                  i / 1100);
    CHECK(read_text(text, length).refusal == 0);
    struct rigtomato_text_answer answer = rigtomato_write_canonical(
        file.rules, file.rules_len, file.names, file.names_len, out, sizeof out);
    CHECK(answer.refusal == 0 && answer.bytes == length);
    CHECK(memcmp(out + declared, "(rule (head a0) (body a0) (not))\n", 33) == 0);
    CHECK(memcmp(out + declared + 33, "(rule (head a0) (body a1) (not))\n", 33) == 0);
    CHECK(read_text((const char *)out, answer.bytes).refusal == 0);
    answer = rigtomato_write_canonical(file.rules, file.rules_len, file.names, file.names_len,
                                       again, sizeof again);
    CHECK(answer.refusal == 0 && answer.bytes == length && memcmp(out, again, length) == 0);
    length = declared;
    for (int i = 0; i < 4200; i++)
        length += (size_t)sprintf(text + length, "(rule (head) (body a7) (not))\n");
    CHECK(read_text(text, length).refusal == 0);
    answer = rigtomato_write_canonical(file.rules, file.rules_len, file.names, file.names_len, out,
                                       declared + 30);
    CHECK(answer.refusal == 0 && answer.bytes == declared + 30);
    CHECK(memcmp(out, text, declared + 30) == 0);
}

/* Document 02, W-208: what a condition becomes, and the names `T.1` to `T.256`. */
static void conditions(void)
{
    written_as("(vary a b c d)\n(fix)\n(when not (a and b) or c (then d))\n",
               "(vary a b c d T.1 T.2 T.3)\n(fix)\n"
               "(rule (head T.1 T.2) (body) (not))\n(rule (head) (body T.1 T.2) (not))\n"
               "(rule (head T.2) (body a b) (not))\n(rule (head a) (body T.2) (not))\n"
               "(rule (head b) (body T.2) (not))\n(rule (head T.1 c) (body T.3) (not))\n"
               "(rule (head T.3) (body T.1) (not))\n(rule (head T.3) (body c) (not))\n"
               "(rule (head d) (body T.3) (not))\n");
    /* a name alone gets no atom; an atom stands once in a list; the new atoms stand before the fixed */
    written_as("(vary a)\n(fix b)\n(when (a) (then b)) ; typed\n(when a and a (then b))\n",
               "(vary a T.1)\n(fix b)\n(rule (head b) (body a) (not))\n"
               "(rule (head T.1) (body a) (not))\n(rule (head a) (body T.1) (not))\n"
               "(rule (head a) (body T.1) (not))\n(rule (head b) (body T.1) (not))\n");
    /* a, b, T.1, T.2, c: neither `not b` nor c; then b; then b and c */
    const char *states = "(min a)\n(vary b)\n(fix c)\n(when not b and c (then a))\n";
    CHECK(read_text(states, strlen(states)).refusal == 0);
    CHECK(file.rules[1] == 5 && file.rules[3] == 6);
    CHECK(states_are(3, (const uint64_t[]){4, 2, 18}));
    written("(atoms T.1 T.256 N.T.1 S.T.256 D.T.9)\n");
    CHECK(read_gives("(vary T.0)\n(fix)\n", RIGTOMATO_FORM, 1));
    CHECK(read_gives("(vary T.01)\n(fix)\n", RIGTOMATO_FORM, 1));
    CHECK(read_gives("(atoms T.257)\n", RIGTOMATO_FORM, 1));
    CHECK(read_gives("(atoms N.T.257)\n", RIGTOMATO_FORM, 1));
    CHECK(read_gives("(vary N.T.1)\n(fix)\n", RIGTOMATO_NAME, 1));
}

/* A file whose third line has this between `(when ` and ` (then a))`. */
static int condition_gives(const char *condition, uint64_t refusal)
{
    char text[256];
    snprintf(text, sizeof text, "(vary a b T.2)\n(fix)\n(when %s (then a))\n", condition);
    return read_gives(text, refusal, refusal ? 3 : 0);
}

static void condition_refusals(void)
{
    CHECK(RIGTOMATO_BROKEN_CONDITION == 17 && RIGTOMATO_DEEP_BRACKETS == 18);
    CHECK(condition_gives("a", 0));
    CHECK(condition_gives("", RIGTOMATO_BROKEN_CONDITION));
    CHECK(condition_gives("a b", RIGTOMATO_BROKEN_CONDITION));
    CHECK(condition_gives("a and or b", RIGTOMATO_BROKEN_CONDITION));
    CHECK(condition_gives("not ()", RIGTOMATO_BROKEN_CONDITION));
    CHECK(condition_gives("((((((((((((((((((((((((((((((((a))))))))))))))))))))))))))))))))", 0));
    CHECK(condition_gives("(((((((((((((((((((((((((((((((((a)))))))))))))))))))))))))))))))))",
                          RIGTOMATO_DEEP_BRACKETS));
    CHECK(condition_gives("(((((((((((((((((((((((((((((((((A)))))))))))))))))))))))))))))))))",
                          RIGTOMATO_FORM));
    CHECK(condition_gives("(a", RIGTOMATO_FORM));
    CHECK(condition_gives("a) and (b", RIGTOMATO_FORM));
    CHECK(condition_gives("a and N.b", RIGTOMATO_NAME));
    CHECK(condition_gives("a and c or b", RIGTOMATO_DECLARED_TWICE));
    CHECK(condition_gives("a and c", RIGTOMATO_NOT_DECLARED));
    CHECK(condition_gives("T.1", RIGTOMATO_NOT_DECLARED));
    CHECK(condition_gives("not T.2", 0));
    CHECK(read_gives("(vary a)\n(fix)\n(when a)\n", RIGTOMATO_FORM, 3));
    CHECK(read_gives("(vary a)\n(when a (then a))\n(fix)\n", RIGTOMATO_FORM, 2));
    CHECK(read_gives("(atoms a)\n(when a (then a))\n", RIGTOMATO_FORM, 2));
}

/* Lines as long as a text may be: they are refused, whatever they nest. */
static void longest_conditions(void)
{
    static char text[RIGTOMATO_TEXT_LIMIT + 1];
    struct rigtomato_read_answer answer;
    const size_t parts = 900000;
    size_t length = (size_t)sprintf(text, "(vary a)\n(fix)\n(when ");
    const size_t first = length;
    for (; length < first + parts; length += 4)
        memcpy(text + length, "not ", 4);
    length += (size_t)sprintf(text + length, "a (then a))\n");
    answer = read_text(text, length);
    CHECK(answer.refusal == RIGTOMATO_LIMIT && answer.line == 3);
    memset(text + first, '(', parts / 2);
    text[first + parts / 2] = 'a';
    memset(text + first + parts / 2 + 1, ')', parts / 2);
    length = first + parts + 1;
    length += (size_t)sprintf(text + length, " (then a))\n");
    answer = read_text(text, length);
    CHECK(answer.refusal == RIGTOMATO_DEEP_BRACKETS && answer.line == 3);
    memset(text + first, '(', parts);
    answer = read_text(text, length);
    CHECK(answer.refusal == RIGTOMATO_FORM && answer.line == 3);
}

#define COUNT(array) (sizeof(array) / sizeof(array)[0])
/* The array and its length, as two parameters. */
#define WORDS(array) (array), COUNT(array)
#define SMALL 40

/* File A: sensor or lamp; dark if lamp. */
static const uint16_t A_RULES[] = {1, 3, 2, 2, 1, 2, 17, 2, 0, 0, 0, 1, 1, 1, 0, 2, 1};
static const uint16_t A_INDEX[] = {1, 0, 2, 0, 1, 1, 1};
/* Four atoms: 0 or 1 if not 2; 1 if 0; no head if 2, not 0; 2 if not 2; three empty lists. */
static const uint16_t PLAIN_RULES[] = {0, 4, 0, 5, 2, 0, 1, 0, 1, 2, 1, 1, 0, 1,
                                       0, 0, 1, 1, 2, 0, 1, 0, 1, 2, 2, 0, 0, 0};
static const uint16_t PLAIN_INDEX[] = {3, 0, 1, 2, 2, 0, 1, 3, 0, 2, 3, 0};

/* Two outputs of words, marked before each call so that it shows what was written. */
static uint16_t words_out[SMALL], index_out[SMALL];

static void mark(void)
{
    memset(words_out, 0xa5, sizeof words_out);
    memset(index_out, 0xa5, sizeof index_out);
}

/* Has the output these words at its front and marks behind? */
static int wrote(const uint16_t *out, const uint16_t *words, size_t count)
{
    for (size_t i = 0; i < SMALL; i++)
        if (out[i] != (i < count ? words[i] : 0xa5a5))
            return 0;
    return 1;
}

/* The store's index is this, in an output exact and longer. */
static int indexed(const uint16_t *rules, size_t rules_len, const uint16_t *index, size_t index_len)
{
    for (size_t room = index_len; room <= index_len + 2; room++) {
        mark();
        struct rigtomato_value_answer answer =
            rigtomato_index_rules(rules, rules_len, words_out, room);
        if (answer.refusal != 0 || answer.value != index_len || !wrote(words_out, index, index_len))
            return 0;
    }
    return 1;
}

static int index_refused(const uint16_t *rules, size_t rules_len, size_t room, uint64_t refusal)
{
    mark();
    struct rigtomato_value_answer answer =
        rigtomato_index_rules(rules, rules_len, words_out, room);
    return answer.refusal == refusal && answer.value == 0 && wrote(words_out, NULL, 0);
}

/* A rule store and an index, as they are handed in. */
struct handed {
    const uint16_t *rules;
    size_t rules_len;
    const uint16_t *index;
    size_t index_len;
};

static const struct handed FILE_A = {WORDS(A_RULES), WORDS(A_INDEX)};
static const struct handed PLAIN = {WORDS(PLAIN_RULES), WORDS(PLAIN_INDEX)};

static struct rigtomato_value_answer flip_into(struct handed h, const uint16_t *list,
                                               size_t list_len, uint64_t set, uint64_t atom,
                                               size_t room)
{
    mark();
    return rigtomato_flip(h.rules, h.rules_len, h.index, h.index_len, list, list_len, set, atom,
                          words_out, room);
}

static int flip_refused(struct handed h, const uint16_t *list, size_t list_len, uint64_t set,
                        uint64_t atom, size_t room, uint64_t refusal)
{
    struct rigtomato_value_answer answer = flip_into(h, list, list_len, set, atom, room);
    return answer.refusal == refusal && answer.value == 0 && wrote(words_out, NULL, 0);
}

/* The flip gives these rules, into an output exact and longer, and is refused one word short. */
static int flipped(struct handed h, const uint16_t *list, size_t list_len, uint64_t set,
                   uint64_t atom, const uint16_t *expected, size_t count)
{
    for (size_t room = count; room <= count + 2; room++) {
        struct rigtomato_value_answer answer = flip_into(h, list, list_len, set, atom, room);
        if (answer.refusal != 0 || answer.value != count || !wrote(words_out, expected, count))
            return 0;
    }
    return count == 0 ||
           flip_refused(h, list, list_len, set, atom, count - 1, RIGTOMATO_OUTPUT_SHORT);
}

static struct rigtomato_grown_answer add_into(struct handed h, const uint16_t *rule,
                                              size_t rule_len, size_t room, size_t index_room)
{
    mark();
    return rigtomato_add_rule(h.rules, h.rules_len, h.index, h.index_len, rule, rule_len, words_out,
                              room, index_out, index_room);
}

static int add_refused(struct handed h, const uint16_t *rule, size_t rule_len, size_t room,
                       size_t index_room, uint64_t refusal)
{
    struct rigtomato_grown_answer answer = add_into(h, rule, rule_len, room, index_room);
    return answer.refusal == refusal && answer.words == 0 && answer.index_words == 0 &&
           wrote(words_out, NULL, 0) && wrote(index_out, NULL, 0);
}

/* Into outputs exact and longer and, of either, one word short. */
static int added(struct handed h, const uint16_t *rule, size_t rule_len, struct handed expected)
{
    const size_t words = expected.rules_len, index_words = expected.index_len;
    for (size_t more = 0; more <= 2; more++) {
        struct rigtomato_grown_answer answer =
            add_into(h, rule, rule_len, words + more, index_words + more);
        if (answer.refusal != 0 || answer.words != words || answer.index_words != index_words)
            return 0;
        if (!wrote(words_out, expected.rules, words) ||
            !wrote(index_out, expected.index, index_words))
            return 0;
    }
    return add_refused(h, rule, rule_len, words - 1, index_words, RIGTOMATO_OUTPUT_SHORT) &&
           add_refused(h, rule, rule_len, words, index_words - 1, RIGTOMATO_OUTPUT_SHORT);
}

#define LIST(...) (const uint16_t[]){__VA_ARGS__}, COUNT(((const uint16_t[]){__VA_ARGS__}))
#define NOTHING NULL, 0

/* Document 02, W-209: the index of a store of each kind. */
static void rule_indexes(void)
{
    CHECK(indexed(WORDS(A_RULES), WORDS(A_INDEX)));
    CHECK(indexed(WORDS(PLAIN_RULES), WORDS(PLAIN_INDEX)));
    CHECK(indexed(LIST(0, 0, 0, 0), NOTHING));
    CHECK(indexed(LIST(0, 0, 0, 1, 0, 0, 0), NOTHING));
    CHECK(indexed(LIST(1, 2, 0, 0, 17, 18), LIST(0, 0)));
    CHECK(index_refused(WORDS(A_RULES), COUNT(A_INDEX) - 1, RIGTOMATO_OUTPUT_SHORT));
    CHECK(index_refused(WORDS(PLAIN_RULES), COUNT(PLAIN_INDEX) - 1, RIGTOMATO_OUTPUT_SHORT));
    CHECK(index_refused(WORDS(PLAIN_RULES), 0, RIGTOMATO_OUTPUT_SHORT));
    CHECK(index_refused(A_RULES, COUNT(A_RULES) - 1, SMALL, RIGTOMATO_RULE_STORE));
    CHECK(index_refused(PLAIN_RULES, COUNT(PLAIN_RULES) - 1, 0, RIGTOMATO_RULE_STORE));
    CHECK(index_refused(NOTHING, SMALL, RIGTOMATO_RULE_STORE));
}

static void flips(void)
{
    CHECK(flipped(FILE_A, LIST(0), 0, 1, LIST(1)));
    CHECK(flipped(FILE_A, LIST(1), 2, 2, NOTHING));
    CHECK(flipped(FILE_A, NOTHING, 6, 1, LIST(0)));
    CHECK(flipped(PLAIN, LIST(0, 3, 4), 0, 0, LIST(1, 3, 4)));
    CHECK(flipped(PLAIN, LIST(1, 3, 4), 1, 2, LIST(1, 4)));
    CHECK(flipped(PLAIN, LIST(1, 4), 5, 0, LIST(2, 4)));
    CHECK(flipped(PLAIN, LIST(2, 4), 4, 3, LIST(2, 4)));
    /* lists that are no set's broken rules */
    CHECK(flipped(PLAIN, NOTHING, 0, 2, LIST(2)));
    CHECK(flipped(PLAIN, LIST(0, 2, 4), 0, 1, LIST(2, 4)));
    CHECK(flipped(PLAIN, LIST(0, 1, 2, 3, 4), 0, 3, LIST(0, 1, 2, 3, 4)));
    CHECK(flipped(PLAIN, LIST(1), 4, 2, LIST(0, 1, 3)));
}

/* The refusals in their sequence, 10, 19, 11, 12, 9; nothing is written. */
static void flip_refusals(void)
{
    const uint64_t last = UINT64_MAX;
    struct handed h = PLAIN;
    CHECK(RIGTOMATO_RULE_INDEX == 19);
    h.rules_len--;
    CHECK(flip_refused(h, LIST(0), 1, 1, SMALL, RIGTOMATO_RULE_STORE));
    CHECK(flip_refused(h, LIST(1, 0), last, last, 0, RIGTOMATO_RULE_STORE));
    h = (struct handed){NOTHING, NOTHING};
    CHECK(flip_refused(h, NOTHING, 0, 0, 0, RIGTOMATO_RULE_STORE));
    h = PLAIN;
    h.index_len--;
    CHECK(flip_refused(h, LIST(0), 1, 1, SMALL, RIGTOMATO_RULE_INDEX));
    h = (struct handed){WORDS(PLAIN_RULES), WORDS(A_INDEX)};
    CHECK(flip_refused(h, LIST(0), last, last, 0, RIGTOMATO_RULE_INDEX));
    h = (struct handed){WORDS(PLAIN_RULES), NOTHING};
    CHECK(flip_refused(h, LIST(0), 1, 1, SMALL, RIGTOMATO_RULE_INDEX));
    /* each word of the index, and one word more */
    uint16_t index[COUNT(PLAIN_INDEX) + 1];
    memcpy(index, PLAIN_INDEX, sizeof PLAIN_INDEX);
    index[COUNT(PLAIN_INDEX)] = 0;
    h = (struct handed){WORDS(PLAIN_RULES), WORDS(index)};
    CHECK(flip_refused(h, LIST(0), 1, 1, SMALL, RIGTOMATO_RULE_INDEX));
    h.index_len--;
    CHECK(flipped(h, LIST(0), 1, 1, NOTHING));
    for (size_t i = 0; i < COUNT(PLAIN_INDEX); i++) {
        index[i]++;
        CHECK(flip_refused(h, LIST(0), 1, 1, SMALL, RIGTOMATO_RULE_INDEX));
        index[i] -= 2;
        CHECK(flip_refused(h, LIST(0), 1, 1, SMALL, RIGTOMATO_RULE_INDEX));
        index[i]++;
    }
    /* the list */
    CHECK(flip_refused(PLAIN, LIST(5), 1, 1, SMALL, RIGTOMATO_RULE_INDEX));
    CHECK(flip_refused(PLAIN, LIST(0, 65535), 1, 1, SMALL, RIGTOMATO_RULE_INDEX));
    CHECK(flip_refused(PLAIN, LIST(2, 2), 1, 1, SMALL, RIGTOMATO_RULE_INDEX));
    CHECK(flip_refused(PLAIN, LIST(0, 3, 1), 1, 1, SMALL, RIGTOMATO_RULE_INDEX));
    CHECK(flip_refused(PLAIN, LIST(0, 1, 2, 3, 4, 5), last, last, 0, RIGTOMATO_RULE_INDEX));
    /* the set and the atom */
    CHECK(flip_refused(PLAIN, LIST(0), 16, 1, SMALL, RIGTOMATO_SET_TOO_LARGE));
    CHECK(flip_refused(PLAIN, LIST(0), last, 1, 0, RIGTOMATO_SET_TOO_LARGE));
    CHECK(flip_refused(PLAIN, LIST(0), 1, 4, SMALL, RIGTOMATO_SET_TOO_LARGE));
    CHECK(flip_refused(PLAIN, LIST(0), 1, 65536, SMALL, RIGTOMATO_SET_TOO_LARGE));
    CHECK(flip_refused(PLAIN, LIST(0), 1, last, 0, RIGTOMATO_SET_TOO_LARGE));
    CHECK(flip_refused(FILE_A, LIST(0), 8, 1, SMALL, RIGTOMATO_SET_TOO_LARGE));
    CHECK(flip_refused(FILE_A, LIST(0), 1, 3, SMALL, RIGTOMATO_SET_TOO_LARGE));
    CHECK(flip_refused(PLAIN, LIST(4), 15, 3, 0, RIGTOMATO_OUTPUT_SHORT));
    /* over 60 atoms, behind the index and the list */
    static const uint16_t sixty[] = {0, 60, 0, 1, 0, 1, 0, 59};
    static const uint16_t over[] = {0, 61, 0, 1, 0, 1, 0, 60};
    uint16_t counts[62] = {0};
    counts[59] = 1;
    h = (struct handed){WORDS(sixty), counts, 61};
    CHECK(flipped(h, NOTHING, 0, 59, LIST(0)));
    CHECK(flipped(h, LIST(0), (UINT64_C(1) << 60) - 1, 59, NOTHING));
    CHECK(flip_refused(h, LIST(0), UINT64_C(1) << 60, 59, SMALL, RIGTOMATO_SET_TOO_LARGE));
    CHECK(flip_refused(h, LIST(0), 0, 60, SMALL, RIGTOMATO_SET_TOO_LARGE));
    counts[59] = 0;
    counts[60] = 1;
    h = (struct handed){WORDS(over), counts, 62};
    CHECK(flip_refused(h, LIST(0), 0, 0, SMALL, RIGTOMATO_TOO_MANY_ATOMS));
    CHECK(flip_refused(h, LIST(0), last, last, 0, RIGTOMATO_TOO_MANY_ATOMS));
    CHECK(flip_refused(h, LIST(1), 0, 0, SMALL, RIGTOMATO_RULE_INDEX));
    h.index_len--;
    CHECK(flip_refused(h, LIST(0), 0, 0, SMALL, RIGTOMATO_RULE_INDEX));
}

static void added_rules(void)
{
    /* sensor if dark; no head if 3, not 3 and 1 */
    static const uint16_t rules[] = {1, 3, 2, 3, 1, 2, 17, 2, 0, 0, 0,
                                     1, 1, 1, 0, 2, 1, 1, 1, 0, 0, 2};
    static const uint16_t index[] = {2, 0, 2, 2, 0, 1, 2, 1, 2};
    CHECK(added(FILE_A, LIST(1, 1, 0, 0, 2), (struct handed){WORDS(rules), WORDS(index)}));
    static const uint16_t more[] = {0, 4, 0, 6, 2, 0, 1, 0, 1, 2, 1, 1, 0, 1, 0, 0, 1,
                                    1, 2, 0, 1, 0, 1, 2, 2, 0, 0, 0, 0, 1, 2, 3, 3, 1};
    static const uint16_t longer[] = {3, 0, 1, 2, 3, 0, 1, 5, 3, 0, 2, 3, 1, 5};
    CHECK(added(PLAIN, LIST(0, 1, 2, 3, 3, 1), (struct handed){WORDS(more), WORDS(longer)}));
    /* from no rule on, between two stores and two indexes */
    static uint16_t stores[2][SMALL] = {{0, 4, 0, 0}}, indexes[2][SMALL];
    size_t words = 4, index_words = 4, from = 4;
    for (int i = 0; i < 5; i++) {
        const uint16_t *rule = PLAIN_RULES + from;
        size_t size = 3u + rule[0] + rule[1] + rule[2];
        struct rigtomato_grown_answer grown = rigtomato_add_rule(
            stores[i % 2], words, indexes[i % 2], index_words, rule, size, stores[1 - i % 2], SMALL,
            indexes[1 - i % 2], SMALL);
        CHECK(grown.refusal == 0);
        from += size;
        words = grown.words;
        index_words = grown.index_words;
        CHECK(indexed(stores[1 - i % 2], words, indexes[1 - i % 2], index_words));
    }
    CHECK(words == COUNT(PLAIN_RULES));
    CHECK(memcmp(stores[1], PLAIN_RULES, sizeof PLAIN_RULES) == 0);
    CHECK(index_words == COUNT(PLAIN_INDEX));
    CHECK(memcmp(indexes[1], PLAIN_INDEX, sizeof PLAIN_INDEX) == 0);
}

/* The refusals in their sequence, 10, 19, 9; nothing is written. */
static void added_rule_refusals(void)
{
    struct handed h = PLAIN;
    h.rules_len--;
    CHECK(add_refused(h, LIST(0, 0, 0), SMALL, SMALL, RIGTOMATO_RULE_STORE));
    h = (struct handed){NOTHING, NOTHING};
    CHECK(add_refused(h, LIST(0, 0, 0), 0, 0, RIGTOMATO_RULE_STORE));
    /* the rule, also beside an index of another store */
    const struct handed both[] = {PLAIN, {WORDS(PLAIN_RULES), WORDS(A_INDEX)}};
    for (size_t i = 0; i < 2; i++) {
        size_t room = i == 0 ? SMALL : 0;
        CHECK(add_refused(both[i], NOTHING, room, room, RIGTOMATO_RULE_STORE));
        CHECK(add_refused(both[i], LIST(0, 0), room, room, RIGTOMATO_RULE_STORE));
        CHECK(add_refused(both[i], LIST(1, 0, 0), room, room, RIGTOMATO_RULE_STORE));
        CHECK(add_refused(both[i], LIST(0, 0, 0, 0), room, room, RIGTOMATO_RULE_STORE));
        CHECK(add_refused(both[i], LIST(0, 0, 0, 0, 0, 0), room, room, RIGTOMATO_RULE_STORE));
        CHECK(add_refused(both[i], LIST(1, 0, 0, 4), room, room, RIGTOMATO_RULE_STORE));
        CHECK(add_refused(both[i], LIST(0, 2, 0, 1, 1), room, room, RIGTOMATO_RULE_STORE));
        CHECK(add_refused(both[i], LIST(65535, 65535, 2), room, room, RIGTOMATO_RULE_STORE));
    }
    CHECK(add_refused(FILE_A, LIST(0, 0, 1, 0), SMALL, SMALL, RIGTOMATO_RULE_STORE));
    CHECK(add_refused(both[1], LIST(0, 0, 0), SMALL, SMALL, RIGTOMATO_RULE_INDEX));
    CHECK(add_refused(both[1], LIST(0, 0, 0), 0, 0, RIGTOMATO_RULE_INDEX));
    h = FILE_A;
    h.index_len--;
    CHECK(add_refused(h, LIST(0, 0, 0), SMALL, SMALL, RIGTOMATO_RULE_INDEX));
    CHECK(add_refused(FILE_A, LIST(0, 0, 0), 0, 0, RIGTOMATO_OUTPUT_SHORT));
}

/* The most rules and the most occurrences, met and passed by one; the longest index. */
static void index_limits(void)
{
    static uint16_t rules[RIGTOMATO_RULES_LIMIT], grown[RIGTOMATO_RULES_LIMIT];
    static uint16_t index[RIGTOMATO_INDEX_LIMIT], longer[RIGTOMATO_INDEX_LIMIT];
    static const uint16_t empty[] = {0, 0, 0}, one[] = {0, 0, 1, 7};
    struct rigtomato_grown_answer answer;
    for (uint16_t kind = 0; kind < 2; kind++) {
        const uint16_t most = kind == 0 ? 4200 : 1024;
        memset(rules, 0, sizeof rules);
        rules[0] = kind;
        rules[3] = most - 1;
        const size_t full = 4 + 3u * most;
        answer = rigtomato_add_rule(rules, full - 3, NOTHING, WORDS(empty), WORDS(grown), NOTHING);
        CHECK(answer.refusal == 0 && answer.words == full && grown[3] == most);
        answer = rigtomato_add_rule(grown, full, NOTHING, WORDS(empty), WORDS(rules), NOTHING);
        CHECK(answer.refusal == RIGTOMATO_RULE_STORE && rules[3] == most - 1);
    }
    /* 4,000 rules with six atoms each */
    static const uint16_t header[] = {0, 1100, 0, 4000};
    memcpy(rules, header, sizeof header);
    size_t words = 4;
    for (unsigned i = 0; i < 4000; i++) {
        for (unsigned list = 0; list < 3; list++)
            rules[words++] = 2;
        for (unsigned atom = 0; atom < 6; atom++)
            rules[words++] = (uint16_t)((6 * i + atom) % 1100);
    }
    struct rigtomato_value_answer built = rigtomato_index_rules(rules, words, WORDS(index));
    CHECK(built.refusal == 0 && built.value == RIGTOMATO_INDEX_LIMIT);
    answer = rigtomato_add_rule(rules, words, WORDS(index), WORDS(empty), WORDS(grown),
                                WORDS(longer));
    CHECK(answer.refusal == 0 && answer.words == words + 3);
    CHECK(answer.index_words == RIGTOMATO_INDEX_LIMIT && memcmp(index, longer, sizeof index) == 0);
    answer =
        rigtomato_add_rule(rules, words, WORDS(index), WORDS(one), WORDS(grown), WORDS(longer));
    CHECK(answer.refusal == RIGTOMATO_RULE_STORE);
}

/* A run of numbers that is always the same. */
static uint64_t random_below(uint64_t bound)
{
    static uint64_t state = 209;
    state = state * UINT64_C(6364136223846793005) + UINT64_C(1442695040888963407);
    return (state >> 33) % bound;
}

/* Writes the numbers of the rules that the set breaks, by testing each of them; gives how many. */
static size_t broken_rules(const uint16_t *rules, uint64_t set, uint16_t *broken)
{
    const uint16_t *rule = rules + 4 + (rules[0] == 1 ? rules[1] : 0);
    size_t count = 0;
    for (uint16_t i = 0; i < rules[3]; i++) {
        const uint16_t *atom = rule + 3;
        int holds = 0;
        for (uint16_t j = 0; j < rule[0]; j++)
            holds |= (set >> *atom++) & 1;
        for (uint16_t j = 0; j < rule[1]; j++)
            holds |= !((set >> *atom++) & 1);
        for (uint16_t j = 0; j < rule[2]; j++)
            holds |= (set >> *atom++) & 1;
        if (!holds)
            broken[count++] = i;
        rule = atom;
    }
    return count;
}

/* From the rules that a set breaks each flip gives those that the flipped set breaks. */
static int run_of_flips(const uint16_t *rules, size_t rules_len, int turns)
{
    static uint16_t index[RIGTOMATO_INDEX_LIMIT], lists[2][SMALL], expected[SMALL];
    struct rigtomato_value_answer built = rigtomato_index_rules(rules, rules_len, WORDS(index));
    if (built.refusal != 0)
        return 0;
    uint64_t set = 0;
    size_t count = broken_rules(rules, set, lists[0]);
    for (int turn = 0; turn < turns; turn++) {
        uint64_t atom = random_below(rules[1]);
        uint16_t *out = lists[1 - turn % 2];
        struct rigtomato_value_answer answer =
            rigtomato_flip(rules, rules_len, index, built.value, lists[turn % 2], count, set, atom,
                           out, SMALL);
        set ^= UINT64_C(1) << atom;
        count = broken_rules(rules, set, expected);
        if (answer.refusal != 0 || answer.value != count ||
            memcmp(out, expected, count * sizeof out[0]) != 0)
            return 0;
    }
    return 1;
}

static void runs_of_flips(void)
{
    CHECK(run_of_flips(WORDS(A_RULES), 1000));
    CHECK(run_of_flips(WORDS(PLAIN_RULES), 1000));
    /* 40 rules of ten atoms, one or two in each list */
    static uint16_t rules[400] = {0, 10, 0, SMALL};
    size_t words = 4;
    for (int i = 0; i < SMALL; i++) {
        uint16_t *counts = rules + words;
        words += 3;
        for (int list = 0; list < 3; list++) {
            uint64_t atom = random_below(10);
            counts[list] = (uint16_t)(1 + random_below(2));
            rules[words++] = (uint16_t)atom;
            if (counts[list] == 2)
                rules[words++] = (uint16_t)((atom + 1 + random_below(9)) % 10);
        }
    }
    CHECK(run_of_flips(rules, words, 1000));
}

/* The sizes that the header names, met and passed by one. */
static void sizes(void)
{
    static char text[RIGTOMATO_TEXT_LIMIT + 1];
    memset(text, 'a', sizeof text);
    CHECK(read_text(text, sizeof text - 1).refusal == RIGTOMATO_FORM);
    CHECK(read_text(text, sizeof text).refusal == RIGTOMATO_TEXT_TOO_LONG);
    size_t length = (size_t)sprintf(text, "(atoms");
    for (int i = 0; i < 1100; i++)
        length += (size_t)sprintf(text + length, " N.%024d", i);
    length += (size_t)sprintf(text + length, ")\n");
    CHECK(read_text(text, length).refusal == 0);
    CHECK(file.names_len == RIGTOMATO_NAMES_LIMIT);
}

int main(void)
{
    file_a();
    file_a_declared_otherwise();
    places();
    written("(min sensor)\n(min lamp)\n(vary dark)\n(fix)\n"
            "(rule (head sensor lamp) (body) (not))\n(rule (head dark) (body lamp) (not))\n");
    small_files();
    stable_sets();
    refusals();
    names();
    unused_atoms();
    stores_handed_in();
    clauses();
    clause_refusals();
    hand_typed();
    longest_texts();
    canonical();
    canonical_of_the_most_rules();
    conditions();
    condition_refusals();
    longest_conditions();
    rule_indexes();
    flips();
    flip_refusals();
    added_rules();
    added_rule_refusals();
    index_limits();
    runs_of_flips();
    sizes();
    printf("tests/c/sheet.c: %d checks, %d failed\n", checks, failures);
    return failures != 0;
}
