/* Mulgreddi: unambiguous Büchi automata from alternating weak ones.
 *
 * A slice is a pointer and a length. The length of a slice of uint8_t is in bytes (file_len); where the bytes are 64-bit numbers, 8 bytes
 * each, low byte first, its name says so (codes_bytes). The length of a slice of uint64_t is in elements (codes_count). A pointer is not
 * NULL, even where the length is 0. A slice that is written overlaps no other slice of the call. A slice of uint64_t is aligned to 8 bytes.
 *
 * Every function ends, stays inside the memory lent to it, and keeps nothing. There is no state between calls but what the caller lends
 * to the live calls, nothing to set up and nothing to free, so several threads may call at once, each with its own written slices. A call
 * needs at most MULGREDDI_STACK bytes of stack.
 */
#ifndef MULGREDDI_H
#define MULGREDDI_H

#include <stddef.h>
#include <stdint.h>

/* The version, by which the Makefile and the pkg-config file go. With a new major number some input is answered otherwise than before;
 * docs/CHANGELOG.md tells which. */
#define MULGREDDI_VERSION_MAJOR 2
#define MULGREDDI_VERSION_MINOR 4
#define MULGREDDI_VERSION_PATCH 0
#define MULGREDDI_TEXT_OF_(a, b, c) #a "." #b "." #c
#define MULGREDDI_TEXT_OF(a, b, c) MULGREDDI_TEXT_OF_(a, b, c)
#define MULGREDDI_VERSION MULGREDDI_TEXT_OF(MULGREDDI_VERSION_MAJOR, MULGREDDI_VERSION_MINOR, MULGREDDI_VERSION_PATCH)
#define MULGREDDI_VERSION_NUMBER (MULGREDDI_VERSION_MAJOR * 1000000 + MULGREDDI_VERSION_MINOR * 1000 + MULGREDDI_VERSION_PATCH)

/* Limits and rooms. */
#define MULGREDDI_STATES_MAX 8             /* states of a rule */
#define MULGREDDI_LETTERS_MAX 16           /* letters of a rule */
#define MULGREDDI_LEAD_MAX 32              /* letters of a lead-in */
#define MULGREDDI_CYCLE_MAX 32             /* letters of a cycle */
#define MULGREDDI_PLACES_MAX 64            /* places of a word: bytes that hold the masks of any word, or any tidy spelling */
#define MULGREDDI_CHOICES_MAX 512          /* bytes that hold the choices of any word */
#define MULGREDDI_NAME_BYTES 8             /* bytes of a letter's name */
#define MULGREDDI_RULE_MAX 1290            /* bytes that hold any rule file with names, or none, and no other preface, so any written or
                                              tidied one: names 130, clauses 1024, counts 128, trailer 8 */
#define MULGREDDI_MACROSTATES_MAX 65536    /* elements of codes that are used */
#define MULGREDDI_TRANSITIONS_MAX 1048576  /* elements of transitions that are used */
#define MULGREDDI_EVENTS_MAX 320           /* bytes of an event table: 64 lines of 5 */
#define MULGREDDI_LIVE_STATE 74290         /* bytes of the state of a live log */
#define MULGREDDI_LIVE_LETTERS 512         /* letters that a live log holds */
#define MULGREDDI_LIVE_MARKS 16            /* marks of a live log, 0 to 15 */
#define MULGREDDI_STACK 65536              /* bytes of stack that a call needs at most; measured (tests/stack.c): under 57,000 */

#ifdef __cplusplus
extern "C" {
#endif

/* The version of the library that the program runs with: MULGREDDI_VERSION_NUMBER of its header. */
uint32_t mulgreddi_version(void);

/* Whether a library of that version serves a program that was compiled with this header: the major number is the same, and it is not older. */
static inline int mulgreddi_version_serves(uint32_t version)
{
    return version / 1000000 == MULGREDDI_VERSION_MAJOR && version >= MULGREDDI_VERSION_NUMBER;
}

/* The answer of every function but mulgreddi_version and mulgreddi_stricter. refusal is 0 where the input was served; else it is the number
 * of the first fault (one of those below), and first and second are 0. A value that a function does not name is 0. */
typedef struct {
    uint64_t refusal, first, second;
} mulgreddi_answer;

/* The refusals. Groups are tried in the order rule, word, table, slices, room; the rule's rows are 1 to 10, 20, 11, 21, 22, 23,
 * in this order.
 * 17 and 18 set both room slices to zero throughout, 17, 18 and 29 of mulgreddi_stricter all four; every other refusal changes no lent
 * slice. */
enum {
    MULGREDDI_SHORT_FILE = 1,        /* file under 8 bytes */
    MULGREDDI_NO_TAG = 2,            /* last two bytes not the tag 41 57 */
    MULGREDDI_STATES = 3,            /* n outside 1..8 */
    MULGREDDI_LETTERS = 4,           /* s outside 1..16 */
    MULGREDDI_INITIAL = 5,           /* initial state not below n */
    MULGREDDI_ACCEPTING = 6,         /* accepting mask names a state not below n */
    MULGREDDI_CUT = 7,               /* fewer than c + n * s bytes before the trailer; when writing: not exactly n * s counts */
    MULGREDDI_COUNT = 8,             /* a count over 8 */
    MULGREDDI_SUM = 9,               /* counts do not sum to the number of clauses */
    MULGREDDI_CLAUSE = 10,           /* a clause names a state not below n */
    MULGREDDI_MIXED = 11,            /* a component with accepting and rejecting states */
    MULGREDDI_NO_CYCLE = 12,         /* empty cycle */
    MULGREDDI_LONG_WORD = 13,        /* lead-in or cycle over 32 letters */
    MULGREDDI_LETTER = 14,           /* a letter not below s */
    MULGREDDI_TABLE = 15,            /* not a table: see mulgreddi_judge_table */
    MULGREDDI_SLICE = 16,            /* result or scratch slice too short */
    MULGREDDI_MACROSTATE_ROOM = 17,  /* more reachable macrostates than room */
    MULGREDDI_TRANSITION_ROOM = 18,  /* more transitions than room */
    MULGREDDI_NO_TABLE = 19,         /* no table that passes 15, under any rule, has this text */
    MULGREDDI_CLAUSE_INSIDE = 20,    /* an entry with a clause that contains another of its clauses; a repeat counts */
    MULGREDDI_NAMES = 21,            /* 4e 4d before the clauses and under 8 * s bytes before it; when writing: neither none nor 8 * s */
    MULGREDDI_NAME_BYTE = 22,        /* a name byte outside 20..7e */
    MULGREDDI_EQUAL_NAMES = 23,      /* two equal names */
    MULGREDDI_WORDS = 24,            /* a sheet of more than 64 words */
    MULGREDDI_EVENT_LINE = 25,       /* an event line with lowest above highest, a letter not below s, cut off, or the 65th */
    MULGREDDI_COVERED_LINE = 26,     /* an event line all of whose pairs fall in earlier lines */
    MULGREDDI_NO_LINE = 27,          /* an event in no line */
    MULGREDDI_OTHER_LETTERS = 28,    /* two rules with different numbers of letters */
    MULGREDDI_PAIR_ROOM = 29,        /* word or scratch of mulgreddi_stricter too short */
    MULGREDDI_LOG_FULL = 30,         /* arrival at 512 letters */
    MULGREDDI_LOG_EMPTY = 31,        /* withdrawal from none */
    MULGREDDI_MARK = 32,             /* mark number above 15 */
    MULGREDDI_MARK_NOT_SET = 33      /* return to a mark not set since the start */
};

/* The text of a refusal, one for each constant above: what is wrong with the input, in a few words. */
static inline const char *mulgreddi_refusal_text(uint64_t refusal)
{
    switch (refusal) {
    case 0: return "served";
    case MULGREDDI_SHORT_FILE: return "the file has fewer than 8 bytes";
    case MULGREDDI_NO_TAG: return "the file does not end with the tag 41 57";
    case MULGREDDI_STATES: return "the number of states is not 1 to 8";
    case MULGREDDI_LETTERS: return "the number of letters is not 1 to 16";
    case MULGREDDI_INITIAL: return "the initial state is not a state of the rule";
    case MULGREDDI_ACCEPTING: return "the accepting mask names a state that the rule does not have";
    case MULGREDDI_CUT: return "clauses and counts do not fit before the trailer, or there are not states x letters counts";
    case MULGREDDI_COUNT: return "an entry has more than 8 clauses";
    case MULGREDDI_SUM: return "the counts do not add up to the number of clauses";
    case MULGREDDI_CLAUSE: return "a clause names a state that the rule does not have";
    case MULGREDDI_MIXED: return "a component has accepting and rejecting states";
    case MULGREDDI_NO_CYCLE: return "the cycle of a word is empty";
    case MULGREDDI_LONG_WORD: return "a lead-in or a cycle has more than 32 letters";
    case MULGREDDI_LETTER: return "a letter is not one of the rule's";
    case MULGREDDI_TABLE: return "codes and transitions are not a table";
    case MULGREDDI_SLICE: return "a result or scratch slice is too short";
    case MULGREDDI_MACROSTATE_ROOM: return "more reachable macrostates than room";
    case MULGREDDI_TRANSITION_ROOM: return "more transitions than room";
    case MULGREDDI_NO_TABLE: return "no table has this text";
    case MULGREDDI_CLAUSE_INSIDE: return "a clause contains or repeats another clause of its entry";
    case MULGREDDI_NAMES: return "the names do not fit: 8 bytes are needed for each letter";
    case MULGREDDI_NAME_BYTE: return "a byte of a name is not printable ASCII (20 to 7e)";
    case MULGREDDI_EQUAL_NAMES: return "two letters have the same name";
    case MULGREDDI_WORDS: return "the sheet has more than 64 words";
    case MULGREDDI_EVENT_LINE: return "an event line has lowest above highest or no letter of the rule, is cut off, or is the 65th";
    case MULGREDDI_COVERED_LINE: return "an event line can never be first: earlier lines hold all of its events";
    case MULGREDDI_NO_LINE: return "an event of the log is in no event line";
    case MULGREDDI_OTHER_LETTERS: return "the two rules have different numbers of letters";
    case MULGREDDI_PAIR_ROOM: return "the word slice or the scratch is too short for the pairs of macrostates";
    case MULGREDDI_LOG_FULL: return "the live log holds 512 letters already";
    case MULGREDDI_LOG_EMPTY: return "the live log holds no letter to withdraw";
    case MULGREDDI_MARK: return "the number of a mark is not 0 to 15";
    case MULGREDDI_MARK_NOT_SET: return "the mark was not set since the start";
    default: return "not a refusal of this version";
    }
}

/* Reads a rule file.
 * first: the length of the preface, which is the start of the file itself. second: the number of name bytes, 8 * s or 0; they stand right
 * before the last two bytes of the preface, letter 0 first (mulgreddi_letter_name).
 * The rule's refusals. */
mulgreddi_answer mulgreddi_check(const uint8_t *file, size_t file_len);

/* Writes the file of a rule, with no preface, to the start of out. What follows in out is not touched.
 * counts go by state, then letter; clauses stand in the same order, one mask each.
 * first: the file's length, clauses_len + counts_len + 8.
 * The rule's refusals from 3 on, then 16. */
mulgreddi_answer mulgreddi_write(uint32_t n, uint32_t s, uint32_t initial, uint32_t accepting,
                                 const uint8_t *counts, size_t counts_len,
                                 const uint8_t *clauses, size_t clauses_len,
                                 uint8_t *out, size_t out_len);

/* As mulgreddi_write, with names: 8 bytes from 20 to 7e for each letter, letter 0 first, no two equal; or none (names_len 0).
 * The file begins with the names and 4e 4d, or with the clauses where there are none.
 * first: the file's length, clauses_len + counts_len + 8, and names_len + 2 more with names.
 * The rule's refusals from 3 on, then 16. */
mulgreddi_answer mulgreddi_write_named(uint32_t n, uint32_t s, uint32_t initial, uint32_t accepting,
                                       const uint8_t *counts, size_t counts_len,
                                       const uint8_t *clauses, size_t clauses_len,
                                       const uint8_t *names, size_t names_len,
                                       uint8_t *out, size_t out_len);

/* Writes the tidied rule of a file to the start of out, laid out as mulgreddi_write_named does it. The names of the file are kept.
 * Of each entry the first copy of every minimal clause stays, in order: a clause is dropped if it contains an earlier kept one or properly
 * contains any. Every entry is satisfied by the same sets, so the tidied rule has the same truth masks on every word.
 * first: the file's length, at most MULGREDDI_RULE_MAX.
 * The rule's refusals but 20, with 11 by the rule as it stands; then 16. */
mulgreddi_answer mulgreddi_tidy(const uint8_t *file, size_t file_len, uint8_t *out, size_t out_len);

/* The longest list of states that mulgreddi_mixed_loop writes. */
#define MULGREDDI_LONGEST_LOOP 8
/* Reports the shortest mixed loop of a rule: the fewest-step closed walk over leads-to steps that passes an accepting and a rejecting
 * state. Among shortest ones it is the least list of states, number by number, wherever it begins. Its states are written to the start of
 * out, a byte each.
 * first: the number of states, 0 where no component is mixed.
 * Refusals 1 to 10 and 20 (not 11), then 16. */
mulgreddi_answer mulgreddi_mixed_loop(const uint8_t *file, size_t file_len, uint8_t *out, size_t out_len);

/* Whether two rule files are the same rule: n, s, initial state and accepting mask agree, every entry is satisfied by the same sets, and
 * both lack names or all names agree.
 * first: 1 same, 0 not.
 * The rule's refusals, of the first file, then of the second. */
mulgreddi_answer mulgreddi_same_rules(const uint8_t *first, size_t first_len, const uint8_t *second, size_t second_len);

/* Whether two words are the same endless sequence: they agree at every step.
 * first: 1 same, 0 not.
 * Refusals 12 and 13, of the first word, then of the second. */
mulgreddi_answer mulgreddi_same_words(const uint8_t *lead1, size_t lead1_len, const uint8_t *cycle1, size_t cycle1_len,
                                      const uint8_t *lead2, size_t lead2_len, const uint8_t *cycle2, size_t cycle2_len);

/* Writes the tidy spelling of a word to the start of out, lead-in, then cycle: the shortest cycle, then the shortest lead-in. Two words are
 * the same exactly if their tidy spellings are equal.
 * first: the length of its lead-in. second: of its cycle.
 * Refusals 12, 13 and 16 (out shorter than the spelling; MULGREDDI_PLACES_MAX bytes always suffice). */
mulgreddi_answer mulgreddi_tidy_word(const uint8_t *lead, size_t lead_len, const uint8_t *cycle, size_t cycle_len,
                                     uint8_t *out, size_t out_len);

/* Judges a word on the rule: does the rule accept it, from its initial state at place 0?
 * The word is a lead-in of 0 to 32 letters and a cycle of 1 to 32 that repeats for ever, one letter a byte. Places run through lead-in,
 * then cycle. masks needs lead_len + cycle_len bytes: its byte p becomes the mask of the states from which the rule accepts at place p;
 * what follows is not touched.
 * first: 1 yes, 0 no.
 * The rule's refusals, 12 to 14, 16. */
mulgreddi_answer mulgreddi_judge(const uint8_t *file, size_t file_len,
                                 const uint8_t *lead, size_t lead_len, const uint8_t *cycle, size_t cycle_len,
                                 uint8_t *masks, size_t masks_len);

/* As mulgreddi_judge, and says which clause carried the verdict: byte place * n + state of choices becomes the number of a clause of that
 * state and the letter there, 0 for the entry's first, or 255 where the rule does not accept from that pair.
 * For an accepting state it is the first clause whose states are all true at the next place; for a rejecting one the first whose states are
 * all true there and, within the component, have a smaller distance (the least number of steps after which some accepting plan has left the
 * component on all its paths). The choices form an accepting plan from every true pair.
 * choices needs (lead_len + cycle_len) * n bytes, else 16; what follows in both slices is not touched. */
mulgreddi_answer mulgreddi_judge_choices(const uint8_t *file, size_t file_len,
                                         const uint8_t *lead, size_t lead_len, const uint8_t *cycle, size_t cycle_len,
                                         uint8_t *masks, size_t masks_len, uint8_t *choices, size_t choices_len);

/* Judges up to 64 words on one rule, each as if alone.
 * A sheet gives for each word two length bytes, lead-in and cycle, then its letters; the next word begins after as many letters as the two
 * bytes say. Byte i of answers becomes 1 if the rule accepts word i, 0 if not, or the number of a faulty word: 12, 13 (also for a word that
 * the sheet's end cuts off, and for a lone length byte) or 14; the others are still answered. Bytes 64 * i to 64 * i + 63 of masks become
 * the word's masks, those past its places 0, a faulty word's all 0. What follows in both slices is not touched.
 * first: words. second: cycles filled, which is the number of distinct cycles of the tidy spellings of the words that are not faulty.
 * The rule's refusals, 24 for a sheet of more than 64 words, a cut-off one counted, and 16 where answers has less than a byte or masks less
 * than 64 bytes for each word. */
mulgreddi_answer mulgreddi_judge_sheet(const uint8_t *file, size_t file_len, const uint8_t *sheet, size_t sheet_len,
                                       uint8_t *answers, size_t answers_len, uint8_t *masks, size_t masks_len);

/* Builds the unambiguous automaton of a rule.
 * codes gets the codes of all reachable macrostates, ascending; a macrostate's number is its place there, from 0. transitions gets
 * source * 16777216 + letter * 65536 + target, ascending. Unused elements of both become 0.
 * A macrostate is initial if its set (bits 0 to 7) holds the initial state and bits 40 to 47 are 0, accepting if bits 44 to 47 are 0
 * (mulgreddi_code_initial, mulgreddi_code_accepting). Over every endless sequence of letters at most one run accepts, and if one does, the
 * rule accepts the sequence; over a lead-in and a cycle, one exactly if the rule accepts the word.
 * first: macrostates. second: transitions.
 * The rule's refusals, which change nothing, and 17 and 18, which set both slices to zero throughout. Room is the length of the slice, at
 * most 65,536 macrostates and 1,048,576 transitions; a room that is exactly the count is served. */
mulgreddi_answer mulgreddi_build(const uint8_t *file, size_t file_len, uint64_t *codes, size_t codes_count,
                                 uint64_t *transitions, size_t transitions_count);

/* As mulgreddi_build, with only the macrostates that matter: those reachable ones from which an accepting run on some lead-in and cycle, of
 * any length, exists; codes ascending, transitions by the new numbers. A rule that accepts no word gives 0 and 0.
 * Every accepting run of the table of mulgreddi_build is one of this table, by the new numbers, and the other way round.
 * Refused as mulgreddi_build: 17 and 18 count the reachable table, not what is left of it, so both slices must have room for it. */
mulgreddi_answer mulgreddi_build_trimmed(const uint8_t *file, size_t file_len, uint64_t *codes, size_t codes_count,
                                         uint64_t *transitions, size_t transitions_count);

/* As mulgreddi_build, for the words that the rule rejects: the macrostates reached from those whose set lacks the initial state.
 * In this table a macrostate is initial if its set lacks the initial state and bits 40 to 47 are 0 (mulgreddi_code_initial_rejecting);
 * accepting is as before. Over every endless sequence of letters at most one run accepts, and if one does, the rule rejects the sequence;
 * over a lead-in and a cycle, one exactly if the rule does not accept the word. Every entry that takes a table (mulgreddi_judge_table,
 * mulgreddi_write_hoa, the calls that follow a log) reads initial as in the table of mulgreddi_build, so none of them is for this one.
 * Refused as mulgreddi_build, 17 and 18 by this table. */
mulgreddi_answer mulgreddi_build_rejecting(const uint8_t *file, size_t file_len, uint64_t *codes, size_t codes_count,
                                           uint64_t *transitions, size_t transitions_count);

/* The answer of mulgreddi_stricter. */
typedef struct {
    uint64_t refusal;                       /* 0: served; else all that follows is 0 */
    uint64_t stricter;                      /* 1 yes, 0 no */
    uint64_t lead, cycle;                   /* with no: lengths of a word that a accepts and b rejects, lead-in then cycle, at the start of word */
    uint64_t macrostates_a, transitions_a;  /* the table of a */
    uint64_t macrostates_b, transitions_b;  /* the table of the words that b rejects */
} mulgreddi_comparison;

/* Is rule a, the new one, stricter than rule b, the old one: is every word that a accepts, of any length, accepted by b?
 * codes_a and transitions_a are rooms as for mulgreddi_build of a, codes_b and transitions_b as for mulgreddi_build_rejecting of b. A served
 * call leaves both tables there, zeros after them. With P the macrostates of the one times those of the other, word needs 3 * P bytes and
 * scratch P bytes; both builds' counts tell P beforehand. With no, the start of word becomes the letters of a word that a accepts and b
 * rejects, lead-in then cycle, at most 3 * P together and perhaps over 32 each; which of several it is, is not laid down. The rest of word,
 * and with yes all of it, is not touched. scratch is zero throughout afterwards.
 * Its time grows with the pairs of cores from which both tables can go on, and with P for zeroing scratch: seconds besides the builds
 * where P is 250 million, a tenth of a second where there are few such pairs (docs/SPEED.md).
 * Refusals: the rule's of a, then of b, 28, 17 and 18 by the table of a, 17 and 18 by that of b, 29. 17, 18 and 29 set all four rooms to
 * zero throughout; no refusal changes word or scratch. */
mulgreddi_comparison mulgreddi_stricter(const uint8_t *a, size_t a_len, const uint8_t *b, size_t b_len,
                                        uint64_t *codes_a, size_t codes_a_count, uint64_t *transitions_a, size_t transitions_a_count,
                                        uint64_t *codes_b, size_t codes_b_count, uint64_t *transitions_b, size_t transitions_b_count,
                                        uint8_t *word, size_t word_len, uint8_t *scratch, size_t scratch_len);

/* Judges a word on a table: does an accepting run over it begin in an initial macrostate?
 * The table is any that passes refusal 15, built from the rule or not; on one built from this file, first is that of mulgreddi_judge, and
 * at most one accepting run begins at all.
 * codes and transitions are bytes, 8 a number, low byte first. Pass 8 * count bytes of each slice of a build, the counts being its answer,
 * and not the whole room: unused zeros are refused by 15, or, where the build has no transition, one zero is read as transition 0. The cast
 * from uint64_t * to uint8_t * is right on little-endian machines.
 * scratch needs macrostates * (lead_len + cycle_len) bytes; it is zero throughout after yes and no.
 * first: 1 yes, 0 no. second: with yes, the lowest number of an initial macrostate where one begins, else 0.
 * The rule's refusals, 12 to 16; 15: over 65,536 codes, codes or transitions not strictly ascending, a code with a bit above 47, a
 * transition whose source, letter or target is out of range, or a length that 8 does not divide.
 * Time: with one byte a node, a node being a macrostate at a place of the cycle, it takes at most about (accepting nodes + 1) *
 * (rejecting nodes + 2 * cycle_len) passes over the transitions, and as many again as there are nodes. Built tables take few: tenths of
 * a second at the caps. A table made to be slow is not refused. The slowest kind known: a chain of rejecting macrostates leads to a chain of
 * accepting ones and rejecting ones with a loop by turns, each of which stays over letter 0 and steps over 1, and the cycle is 31 times 0
 * and then 1. It takes seconds with 1,024 codes, half of them in the first chain, and grows with the third power (docs/SPEED.md);
 * transitions over further letters make every pass longer. Judge tables of strangers with a time limit of your own. */
mulgreddi_answer mulgreddi_judge_table(const uint8_t *file, size_t file_len,
                                       const uint8_t *lead, size_t lead_len, const uint8_t *cycle, size_t cycle_len,
                                       const uint8_t *codes, size_t codes_bytes, const uint8_t *transitions, size_t transitions_bytes,
                                       uint8_t *scratch, size_t scratch_len);

/* A slice of so many bytes has room for the text of every table with so many macrostates and transitions. */
#define MULGREDDI_HOA_BOUND(macrostates, transitions) (30 * (size_t)(macrostates) + 20 * (size_t)(transitions) + 153)

/* Writes a table as a text that model checkers read, in the Hanoi Omega-Automata format, version 1.
 * Macrostates are states by their numbers, with Büchi acceptance on states. Letters are valuations of the fewest propositions e0, e1, .. that
 * tell the rule's letters apart, e0 being the lowest bit; a single letter has the label t. Each table has one text, fixed byte for byte in
 * docs/FORMAT.md. It goes to the start of text; what follows is not touched.
 * The table is any that passes refusal 15, built from the rule or not, in bytes as for mulgreddi_judge_table.
 * first: the length of the text.
 * The rule's refusals, 15, and 16 where text is shorter than the table's text; MULGREDDI_HOA_BOUND bytes are always enough. */
mulgreddi_answer mulgreddi_write_hoa(const uint8_t *file, size_t file_len, const uint8_t *codes, size_t codes_bytes,
                                     const uint8_t *transitions, size_t transitions_bytes, uint8_t *text, size_t text_len);

/* Reads back a text that mulgreddi_write_hoa writes, for any rule and any table that passes 15, and no other text.
 * flags gets a byte a macrostate: 1 where it is initial plus 2 where it is accepting. transitions gets the transitions, packed as in a build.
 * Both go to the start of their slices; what follows is not touched. Codes and the number of letters are not in the text.
 * first: the number of macrostates. second: the number of transitions.
 * 19 where no table that passes 15, under any rule, has this text; then 16 where flags or transitions is too short. */
mulgreddi_answer mulgreddi_read_hoa(const uint8_t *text, size_t text_len, uint8_t *flags, size_t flags_len,
                                    uint64_t *transitions, size_t transitions_count);

/* Translates a log into letters by an event table. The first line that holds an event's two bytes gives its letter.
 * events has up to 64 lines of five bytes: lowest and highest kind, lowest and highest drive, letter. log has two bytes an event, kind and
 * drive; an odd last byte is no event yet and is left unread. letters gets one letter per event, in order; what follows is not touched.
 * first: the number of letters.
 * The rule's refusals, 25 over the whole table, 26, 27, and 16 where letters is shorter than the number of events. */
mulgreddi_answer mulgreddi_translate(const uint8_t *file, size_t file_len, const uint8_t *events, size_t events_len,
                                     const uint8_t *log, size_t log_len, uint8_t *letters, size_t letters_len);

/* Follow a log live, on the table of mulgreddi_build_trimmed: which macrostates are reachable from the initial ones over the letters held?
 * Start with none; then letters arrive, and the last one may be withdrawn. Sixteen marks, 0 to 15, may be set, set again and returned to;
 * a return brings back the letters and the set held when that mark was last set, and changes no mark. A start clears all marks.
 *
 * Every call but the start gets the rule, the table and the state of the call before it, all as they were; state may be copied elsewhere in
 * between. Then the set is the one worked out afresh over the letters held: it is empty exactly if no continuation of them, with a lead-in
 * and a cycle of any length, is accepted by the rule, and then no endless one whatever is. Of any other bytes in state and any other table
 * that refusal 15 lets pass, a call ends, stays inside its memory and does as told in docs/FORMAT.md.
 *
 * codes and transitions are bytes, as for mulgreddi_judge_table. state has MULGREDDI_LIVE_STATE bytes, of any content before a start. set
 * gets a byte for each macrostate, 1 in the set and 0 not; what it held before is not read. What follows in both slices is not touched.
 * first: letters held. second: macrostates in the set.
 * The rule's refusals, 14 for a letter that arrives, 15, one of 30 to 33, and 16; a refused call changes nothing. 30 to 33 are tried on
 * whatever bytes state has, one that is not there being 0.
 * Time: an arrival goes twice over the transitions, a withdrawal and a return once for each letter then held, besides
 * trying 15. */
mulgreddi_answer mulgreddi_live_start(const uint8_t *file, size_t file_len, const uint8_t *codes, size_t codes_bytes,
                                      const uint8_t *transitions, size_t transitions_bytes,
                                      uint8_t *state, size_t state_len, uint8_t *set, size_t set_len);
/* A letter arrives: 14 if it is not below s, 30 where 512 letters are held. */
mulgreddi_answer mulgreddi_live_arrive(const uint8_t *file, size_t file_len, uint32_t letter, const uint8_t *codes, size_t codes_bytes,
                                       const uint8_t *transitions, size_t transitions_bytes,
                                       uint8_t *state, size_t state_len, uint8_t *set, size_t set_len);
/* The last letter is withdrawn: 31 where none is held. */
mulgreddi_answer mulgreddi_live_withdraw(const uint8_t *file, size_t file_len, const uint8_t *codes, size_t codes_bytes,
                                         const uint8_t *transitions, size_t transitions_bytes,
                                         uint8_t *state, size_t state_len, uint8_t *set, size_t set_len);
/* A mark is set, or set again: 32 if it is above 15. Letters and set stay. */
mulgreddi_answer mulgreddi_live_mark(const uint8_t *file, size_t file_len, uint32_t mark, const uint8_t *codes, size_t codes_bytes,
                                     const uint8_t *transitions, size_t transitions_bytes,
                                     uint8_t *state, size_t state_len, uint8_t *set, size_t set_len);
/* Back to a mark: 32 if it is above 15, then 33 if it was not set since the start. */
mulgreddi_answer mulgreddi_live_return(const uint8_t *file, size_t file_len, uint32_t mark, const uint8_t *codes, size_t codes_bytes,
                                       const uint8_t *transitions, size_t transitions_bytes,
                                       uint8_t *state, size_t state_len, uint8_t *set, size_t set_len);

/* Follow a log without end: as the live calls, but the set alone is kept, so any number of letters may come and none is withdrawn.
 * mulgreddi_follow_start fills set with the initial macrostates of a table, a byte 1 in the set and 0 not, for each macrostate.
 * mulgreddi_follow takes the set, in which a byte that is not 0 is in, over letters, a byte each, any number of them, and leaves the set
 * that is reached. Calls may be cut anywhere: two calls leave what one call over both parts leaves.
 *
 * With the rule, its table of mulgreddi_build_trimmed and the set of the call before, the set is the one worked out afresh over all letters
 * since the start: it is empty exactly if no continuation of them, with a lead-in and a cycle of any length, is accepted by the rule, and
 * then no endless one whatever is. Of any other table that refusal 15 lets pass, and any bytes in set, it is the set stepped over the
 * letters.
 *
 * codes and transitions are bytes, as for mulgreddi_judge_table. What follows the macrostates in set is not touched.
 * first: macrostates left. second: after how many letters none was left for the first time, 0 if there was none to begin with; the number
 * of all letters where some are left; 0 for a start.
 * The rule's refusals, 14 if a letter is not below s, 15, and 16 if set is shorter than the macrostates; a refused call changes nothing.
 * Time: 15 goes over the table once a call. A letter costs a look at set, eight bytes at a time where they are 0, and for each macrostate in
 * it a search and its transitions over that letter, so many letters a call are faster than one. An empty set ends the call. */
mulgreddi_answer mulgreddi_follow_start(const uint8_t *file, size_t file_len, const uint8_t *codes, size_t codes_bytes,
                                        const uint8_t *transitions, size_t transitions_bytes, uint8_t *set, size_t set_len);
mulgreddi_answer mulgreddi_follow(const uint8_t *file, size_t file_len, const uint8_t *letters, size_t letters_len,
                                  const uint8_t *codes, size_t codes_bytes, const uint8_t *transitions, size_t transitions_bytes,
                                  uint8_t *set, size_t set_len);

/* Helpers: what a caller reads off a file that was served, a code and a transition. */

/* Of a rule file that mulgreddi_check serves: the numbers of its trailer. */
static inline unsigned mulgreddi_states(const uint8_t *file, size_t file_len) { return file[file_len - 8]; }
static inline unsigned mulgreddi_letters(const uint8_t *file, size_t file_len) { return file[file_len - 7]; }
static inline unsigned mulgreddi_initial_state(const uint8_t *file, size_t file_len) { return file[file_len - 6]; }
static inline unsigned mulgreddi_accepting_mask(const uint8_t *file, size_t file_len) { return file[file_len - 5]; }
static inline unsigned mulgreddi_clauses(const uint8_t *file, size_t file_len) { return file[file_len - 4] + 256u * file[file_len - 3]; }

/* The name of a letter, which must be below s (mulgreddi_letters): 8 bytes of the file, without a zero after them; NULL where the rule has
 * no names. checked is the answer of mulgreddi_check. */
static inline const char *mulgreddi_letter_name(const uint8_t *file, mulgreddi_answer checked, unsigned letter)
{
    if (checked.second == 0)
        return NULL;
    return (const char *)file + (checked.first - 2 - checked.second + MULGREDDI_NAME_BYTES * letter);
}

/* Of a macrostate's code: the set of states claimed true, as a mask; is it initial, for a rule with this initial state, in the tables of
 * mulgreddi_build and mulgreddi_build_trimmed, and in that of mulgreddi_build_rejecting; is it accepting. */
static inline unsigned mulgreddi_code_set(uint64_t code) { return (unsigned)(code & 255); }
static inline int mulgreddi_code_initial(uint64_t code, unsigned initial_state) { return (code >> initial_state & 1) && code >> 40 == 0; }
static inline int mulgreddi_code_initial_rejecting(uint64_t code, unsigned initial_state) { return !(code >> initial_state & 1) && code >> 40 == 0; }
static inline int mulgreddi_code_accepting(uint64_t code) { return code >> 44 == 0; }

/* Of a transition: the numbers of the macrostates that it leaves and enters, and its letter. */
static inline uint64_t mulgreddi_source(uint64_t transition) { return transition >> 24; }
static inline unsigned mulgreddi_letter(uint64_t transition) { return (unsigned)(transition >> 16 & 255); }
static inline uint64_t mulgreddi_target(uint64_t transition) { return transition & 65535; }

#ifdef __cplusplus
}
#endif

#endif
