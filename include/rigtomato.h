/*
 * Rigtomato for C programs.
 *
 * Link with target/staticlib/librigtomato.a, which `tools/build` makes at the repository's
 * root:
 *
 *     gcc -Iinclude program.c target/staticlib/librigtomato.a -o program
 *
 * What the functions do is worded in document 01, the request, and proved for every input that
 * the parameters can carry. In short:
 *
 * - A text is a preference file (`(min ..)` lines, `(vary ..)`, `(fix ..)`, rules) or a plain
 *   program (`(atoms ..)`, rules), typed with any spaces, comments and blank lines. rigtomato_read
 *   turns it into two stores. rigtomato_write turns the stores back into text, into the same one if
 *   it had one space between items and no other spacing, but for the names that were left out.
 *   rigtomato_write_canonical gives files that say the same the same text.
 * - Only atoms that stand in some rule belong to a preference file's program. rigtomato_read leaves
 *   the others out. Stores handed in may hold such atoms: they are taken as they stand, and n and
 *   sets count them.
 * - Among a preference file's rules conditions may stand, `(when COND (then a))`, where COND joins
 *   names by `not`, `and`, `or` and brackets. rigtomato_read makes rules of them, with an atom `T.1`,
 *   `T.2`, .. for each `not`, `and` and `or`. From there on they are rules and atoms like all others.
 * - A clause file (DIMACS CNF) is a third kind of text: rigtomato_read_clauses gives the two stores of
 *   a preference file whose models are the sets that satisfy the clauses.
 * - A rule store is an array of uint16_t: kind (0 plain, 1 preference), atom count n, class count
 *   k, rule count r; in a preference store n class words (1 to 16 the class, 17 varying, 18
 *   fixed, never falling); then for each rule the lengths of its lists head, body and not, and
 *   the atom numbers of the three lists.
 * - A name store is an array of bytes: for each atom its name's length in one byte, then the name.
 * - A set of atoms is a number: the sum of 2^i over its atoms i, numbered from 0 in declared
 *   order.
 * - Of two sets, the earlier is the one lacking the first declared atom on which they differ. A
 *   set's place in this order, from 0, is the sum of 2^(n-1-i) over its atoms i: rigtomato_place.
 * - A walk decides the atoms one after another in declared order, out before in, and goes no deeper
 *   once some rule has all its body in and all its head out. So it meets sets in this order. A unit
 *   is one partial choice visited, the empty one and each final one included.
 * - An index of rules is an array of uint16_t beside a rule store: for each atom a count, and then the
 *   rules that hold it. With it rigtomato_flip tells which rules a set breaks once an atom flips, and
 *   tests only that atom's rules.
 *
 * Memory. A pointer and the length after it, in elements and not in bytes, are one array. The
 * library reads only inside the arrays that it is handed and writes only inside the outputs that
 * it is lent; it keeps no pointer, allocates nothing and has no state, so it may be called from
 * several threads at once with outputs of their own. An output must not overlap an input or the
 * other output. With length 0 a pointer is not followed. The functions keep some hundred kilobytes
 * of arrays on the caller's stack: give a thread a megabyte or more.
 *
 * Refusals. On a refusal no element of an output is written. After success the elements past the
 * written part keep their content.
 */
#ifndef RIGTOMATO_H
#define RIGTOMATO_H

#include <stddef.h>
#include <stdint.h>

#ifdef __cplusplus
extern "C" {
#endif

/* ---- The refusals ---- */

/* Of a text, with the line (from 1) on which it shows. The earliest faulty line counts; on it, the
 * lowest number, but in a clause file 15, then 16, then 7, and on a condition's line 2, 17, 18, 3, 4,
 * 5, 7. A missing line stands one past the last. */
#define RIGTOMATO_TEXT_TOO_LONG 1    /* more than RIGTOMATO_TEXT_LIMIT bytes; line 0 */
#define RIGTOMATO_FORM 2             /* form, a name's bytes or line order broken, or a line missing */
#define RIGTOMATO_NAME 3             /* house name too long, or a generated name in a preference file */
#define RIGTOMATO_DECLARED_TWICE 4   /* atom declared twice, or declared and made by a condition */
#define RIGTOMATO_NOT_DECLARED 5     /* atom not declared */
#define RIGTOMATO_TWICE_IN_LIST 6    /* atom twice in one list of a rule */
#define RIGTOMATO_LIMIT 7            /* too many atoms, rules, atom occurrences or classes */
#define RIGTOMATO_FILLED_NOT 8       /* a filled `not` list in a preference file */
#define RIGTOMATO_BROKEN_CLAUSES 15  /* header, clause or a line's end broken, or clause count differs */
#define RIGTOMATO_LITERAL_BEYOND 16  /* literal beyond the header's atoms */
#define RIGTOMATO_BROKEN_CONDITION 17 /* no condition between `(when` and its `(then ..)` */
#define RIGTOMATO_DEEP_BRACKETS 18   /* a condition's brackets deeper than 32 */

/* Of what the caller handed in. They are tested in the sequence 10, 14, 19, 11, 12, 13, 9; the two
 * readers test 9 after all refusals of the text. */
#define RIGTOMATO_OUTPUT_SHORT 9     /* a lent output is shorter than the result */
#define RIGTOMATO_RULE_STORE 10      /* rule store not of the form, or of the other kind, or no longer of
                                      * the form with the rule to add */
#define RIGTOMATO_TOO_MANY_ATOMS 11  /* more than 60 atoms */
#define RIGTOMATO_SET_TOO_LARGE 12   /* set number 2^n or more, start above 2^n, or atom n or more */
#define RIGTOMATO_BUDGET_TOO_LARGE 13 /* budget over 2^40 */
#define RIGTOMATO_NAME_STORE 14      /* name store does not fit the rule store */
#define RIGTOMATO_RULE_INDEX 19      /* index not that of the rule store, or list not of rising numbers of
                                      * its rules */

/* ---- Sizes ---- */

/* The most bytes of a text; what the two writers and the translator give is never longer. */
#define RIGTOMATO_TEXT_LIMIT 917504
/* The most words of a rule store: 4, and three lengths for each of 4,200 rules, and 24,000 atoms. */
#define RIGTOMATO_RULES_LIMIT 36604
/* The most bytes of a name store: 1,100 names of 26 bytes, each with its length. */
#define RIGTOMATO_NAMES_LIMIT 29700
/* The most words of an index of rules: a count for each of 1,100 atoms, and 24,000 rule numbers. */
#define RIGTOMATO_INDEX_LIMIT 25100
/* The largest budget, 2^40. */
#define RIGTOMATO_BUDGET_LIMIT (UINT64_C(1) << 40)

/* ---- Reading and writing ---- */

struct rigtomato_read_answer {
    uint64_t refusal; /* 0 accepted, else the refusal's number: 1 to 9, 17, 18; of clauses 1, 7, 9, 15,
                       * 16 */
    uint64_t line;    /* the line of refusals 2 to 8 and 15 to 18, from 1; else 0 */
    uint64_t words;   /* accepted: the words written to `rules`; else 0 */
    uint64_t bytes;   /* accepted: the bytes written to `names`; else 0 */
};

/* Reads a text of either kind into a rule store and a name store. rules[0] tells the kind.
 *
 * Lines end with byte 10, the last one too. A line is cut at its first `;`; what is left is brackets
 * and words, which are runs of bytes other than spaces (byte 32) and brackets. Spaces mean nothing
 * else, and none is needed beside a bracket. One bracket form stands on a line; a line with nothing
 * left is blank, and counts as a line. A tab or a carriage return belongs to a word and so breaks it.
 * The text is a plain program exactly when its first form's first word is `atoms`.
 *
 * Behind its `fix` line a preference file may have lines `(when COND (then a))` among its rules. COND
 * is a name, `not` before a COND, two of them with `and` or `or` between, or one in brackets, at most 32
 * deep; `not` binds before `and`, `and` before `or`, and equals group to the left. Each of the three
 * words, where it stands, gets a varying atom T: `T.1`, `T.2` and so on through the whole file, after
 * the varying atoms and before the fixed ones. In the line's place stand the rules of these atoms, in
 * that sequence, and then the rule of `a`:
 *
 *     l and r    (rule (head T) (body l r) (not))  (rule (head l) (body T) (not))
 *                (rule (head r) (body T) (not))
 *     l or r     (rule (head l r) (body T) (not))  (rule (head T) (body l) (not))
 *                (rule (head T) (body r) (not))
 *     not c      (rule (head T c) (body) (not))    (rule (head) (body T c) (not))
 *     then a     (rule (head a) (body COND) (not))
 *
 * An atom stands once in a list. The limits count these atoms and rules. So the preferred states, cut
 * to the declared atoms, are those of the conditions as they are read, each from just one state. `T.1`
 * to `T.256` may be declared like other names, but a condition that would get such an atom is refusal
 * 4; a rule or a condition that names one not declared is 5.
 *
 * A preference file's atoms that stand in no rule are checked with the others: a name too long, an
 * atom declared twice or a 257th is refused. Then they are left out of both stores. The remaining
 * atoms keep their declared order and are numbered from 0; class words and rules are of them alone,
 * and the outputs need room for nothing else. A class stays, even if it is emptied: rigtomato_write
 * then gives it the line `(min)`. A plain program keeps all its atoms. */
struct rigtomato_read_answer rigtomato_read(const uint8_t *text, size_t text_len,
                                            uint16_t *rules, size_t rules_len,
                                            uint8_t *names, size_t names_len);

/* Reads a clause file (DIMACS CNF) into the stores of a preference file.
 *
 * Lines end with byte 10, the last one too. A line whose first byte is `c` is a comment, wherever it
 * stands. On the others items stand between runs of spaces (byte 32); without items a line is blank.
 * The first line that is neither is the header, `p cnf ATOMS CLAUSES`. Then come the clauses, each over
 * any lines: literals, that is an atom's number from 1 or `-` and the number, and a 0 that ends it. No
 * number has a plus or a leading zero, and there is no `-0`; it may have any length.
 *
 * Written are one class and no varying or fixed atom. Atom i is called `v` and its number; atoms that no
 * clause has are left out, as rigtomato_read does. Each clause is a rule: its positive literals are the
 * head, its negative ones the body, in file order; a literal that its clause repeats counts once. So the
 * models are the sets that satisfy the clauses, and the preferred states the least of them by subset.
 *
 * At most 256 atoms and 1,024 clauses in the header, and 8,192 occurrences, else refusal 7 on the line
 * of the header or of the literal. A missing clause, or a last one without its 0, is refusal 15 one past
 * the last line; a surplus one is 15 on the line where it starts. */
struct rigtomato_read_answer rigtomato_read_clauses(const uint8_t *text, size_t text_len,
                                                    uint16_t *rules, size_t rules_len,
                                                    uint8_t *names, size_t names_len);

struct rigtomato_text_answer {
    uint64_t refusal; /* 0 written, else the refusal's number: 10, 14 or 9 */
    uint64_t bytes;   /* written: the bytes written to `out`; else 0 */
};

/* Writes the text of a rule store of either kind and its name store, atoms that no rule has
 * included: one space between items, no other spacing, no comment and no blank line. */
struct rigtomato_text_answer rigtomato_write(const uint16_t *rules, size_t rules_len,
                                             const uint8_t *names, size_t names_len,
                                             uint8_t *out, size_t out_len);

/* Writes the canonical text of a rule store of either kind and its name store: the same form, with
 * the atoms inside each of a rule's lists sorted by number, then the rules by the first difference of
 * their heads, bodies and `not` lists (a list that ends first stands before), and one of equal rules
 * kept. The declarations stay as they are, atoms that no rule has included.
 *
 * Two stores with their names give equal bytes exactly when they declare the same in the same order
 * and have the same rules as sets. The text read and written canonically again is the same, unless it
 * is that of a preference store with atoms in no rule, which rigtomato_read leaves out. */
struct rigtomato_text_answer rigtomato_write_canonical(const uint16_t *rules, size_t rules_len,
                                                       const uint8_t *names, size_t names_len,
                                                       uint8_t *out, size_t out_len);

/* Writes the text of a preference file's plain program, whose stable sets, cut down to the file's
 * atoms, are the file's preferred states, each from one stable set. */
struct rigtomato_text_answer rigtomato_translate(const uint16_t *rules, size_t rules_len,
                                                 const uint8_t *names, size_t names_len,
                                                 uint8_t *out, size_t out_len);

/* ---- Verdicts ---- */

/* The kind of an answer, and what its value and units then are (0 where nothing is said). */
#define RIGTOMATO_YES 0     /* preferred, or stable; units: those the walk took */
#define RIGTOMATO_BROKEN 1  /* no model; value: the number, from 0, of the first broken rule */
#define RIGTOMATO_BEATEN 2  /* value: the first better set; units: choices visited, it included */
#define RIGTOMATO_SPENT 3   /* more units needed than the budget; units: the budget */
#define RIGTOMATO_REFUSED 4 /* value: the refusal's number: 10, 11, 12 or 13 */

/* Of rigtomato_next_state, beside RIGTOMATO_SPENT and RIGTOMATO_REFUSED: */
#define RIGTOMATO_STATE 0   /* value: the first preferred set at or after the start; units: taken */
#define RIGTOMATO_NONE 1    /* no preferred set at or after the start; units: those it took */

struct rigtomato_verdict {
    uint64_t kind;
    uint64_t value;
    uint64_t units;
};

/* Is the set preferred in this preference store? In the walk fixed atoms, in their turn, take only
 * the set's value. */
struct rigtomato_verdict rigtomato_preferred(const uint16_t *rules, size_t rules_len,
                                             uint64_t set, uint64_t budget);

/* Is the set stable in this plain store? In the walk atoms outside the set are only out, and the
 * rules are the reduct's; the set itself, a final choice, is neither visited nor counted. */
struct rigtomato_verdict rigtomato_stable(const uint16_t *rules, size_t rules_len,
                                          uint64_t set, uint64_t budget);

/* The first preferred set at or after the start. The start is a place, from 0 to 2^n; the answer is
 * a set's number. In the walk fixed atoms are free, and no choice lying wholly before the start is
 * visited; a final choice that is a model costs its one unit and the units of its verdict.
 * Starting from 0, then from rigtomato_place of each answer plus one, until RIGTOMATO_NONE, gives
 * every preferred set once, the earlier first. */
struct rigtomato_verdict rigtomato_next_state(const uint16_t *rules, size_t rules_len,
                                              uint64_t start, uint64_t budget);

struct rigtomato_value_answer {
    uint64_t refusal; /* 0, else the refusal's number: of rigtomato_place 10, 11 or 12, of
                       * rigtomato_index_rules 10 or 9, of rigtomato_flip 10, 19, 11, 12 or 9 */
    uint64_t value;   /* on a refusal 0 */
};

/* The set's place among all sets of this preference store's atoms, from 0 to 2^n - 1. */
struct rigtomato_value_answer rigtomato_place(const uint16_t *rules, size_t rules_len,
                                              uint64_t set);

/* ---- Index of rules ---- */

/* Rules are numbered from 0 in the store's order. An atom's rules are those that have it in any of
 * their three lists. The index of a rule store of either kind has, for each atom from 0 on, the count
 * of its rules and then their numbers, rising: count, numbers, count, numbers, and so on. An atom in no
 * rule has the count 0. The plain program of three atoms with the rules `0 or 1` and `2 if 1, not 0`:
 *
 *     rules    0, 3, 0, 2,    2, 0, 0, 0, 1,    1, 1, 1, 2, 1, 0
 *     index    2, 0, 1,    2, 0, 1,    1, 1
 *
 * Build it once from the store, grow it with each rule that is added, and hand it to each flip. It is
 * compared with the store whenever it is handed in: refusal 19 where it is not that store's index. */

/* Writes the store's index; the value is how many words are written. */
struct rigtomato_value_answer rigtomato_index_rules(const uint16_t *rules, size_t rules_len,
                                                    uint16_t *out, size_t out_len);

struct rigtomato_grown_answer {
    uint64_t refusal;     /* 0, else the refusal's number: 10, 19 or 9 */
    uint64_t words;       /* the words written to `rules_out`; on a refusal 0 */
    uint64_t index_words; /* the words written to `index_out`; on a refusal 0 */
};

/* Adds a rule at the store's end: writes the store with it and that store's index. The rule is given in
 * the store's words, the lengths of its lists head, body and not and then their atoms. Where the store
 * with it would not be of the form, the limits included, it is refusal 10. The names stay as they are.
 * An output must not overlap an input, so to add rule after rule go to and fro between two stores and
 * two indexes. */
struct rigtomato_grown_answer rigtomato_add_rule(const uint16_t *rules, size_t rules_len,
                                                 const uint16_t *index, size_t index_len,
                                                 const uint16_t *rule, size_t rule_len,
                                                 uint16_t *rules_out, size_t rules_out_len,
                                                 uint16_t *index_out, size_t index_out_len);

/* Flips an atom, puts it into the set or takes it out. The list is one of rising rule numbers, and the
 * set is the one before the flip. Written are the list's rules that don't hold the atom, joined with
 * those of the atom's rules that the flipped set breaks, in rising order; the value is how many. They are
 * never more than the store's rules.
 *
 * A set breaks a rule that has all its body in, no `not` atom in and no head atom in. From the rules that
 * a set breaks, a flip gives those that the flipped set breaks; it is a model where there are none. So
 * start with the broken rules of some set: the empty list for a model, the rules without a body for the
 * empty set, or what a test of each rule gives. Then go on from each answer: it and the flipped set are
 * the list and the set of the next flip. A rule that is added in between joins the list, at its end, if
 * the set breaks it. */
struct rigtomato_value_answer rigtomato_flip(const uint16_t *rules, size_t rules_len,
                                             const uint16_t *index, size_t index_len,
                                             const uint16_t *list, size_t list_len, uint64_t set,
                                             uint64_t atom, uint16_t *out, size_t out_len);

#ifdef __cplusplus
}
#endif

#endif
