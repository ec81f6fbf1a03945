/* Meirhuppa: the macro expander of document 01, with the panel check of request T-01, the scan runner of T-02, the reader and printer of text of
 * T-05, local expansion of T-08, the summaries of T-10 and the smaller image of T-11, as a library.
 *
 * Twelve jobs on lent byte images, one of them on a text. Each answers with a code (0 is success), the units charged, a name (resolve only), the
 * length in bytes of what it wrote and, where a word is ambiguous, two bindings that compete for it (request T-04). No job keeps anything, allocates
 * anything or fails in any other way: every image, text, phase, budget and buffer gets an answer, and the work ends.
 *
 * The caller's duties, which nothing here can check:
 *  - every pointer is good for as many elements as its length says (a length of 0 still wants a pointer that is not null);
 *  - what is lent to be written, table, output, bits and summary, overlaps nothing else that is lent;
 *  - no other thread touches them during the call;
 *  - the calling thread has 160 KiB of stack to spare (MEIRHUPPA_STACK). That is measured, on x86-64, and not proved.
 *
 * The table is working memory, at least MEIRHUPPA_WORDS_PER_UNIT (40) words per unit of budget. After
 * MEIRHUPPA_SMALL_TABLE it is untouched; after every other answer its first 40 * budget words are 0 and the rest untouched. A refusal leaves the
 * output untouched; success writes the image from its start and touches no byte after it.
 *
 * The panel check takes no phase, budget or table. Its units and name are always 0. Every refusal leaves `bits` untouched, with length 0;
 * success writes a word for each bit from its start and touches no word after them.
 *
 * The scan runner takes none of them either, and a recording beside the image. Its units and name are always 0. Every refusal leaves the output
 * untouched, with length 0; success writes the lines from its start, as text without a byte 0 at the end, and touches no byte after them.
 *
 * The reader and the printer take none of them either. Their units and name are always 0. Every refusal leaves the output untouched, with length 0;
 * success writes the image or the text from its start, the text without a byte 0 or a line end, and touches no byte after it. Neither is ever longer
 * than 65,536 bytes (MEIRHUPPA_MOST_IMAGE), so a longer output is of no use.
 *
 * The three jobs of a summary take none of them either: it is made beside a tree image, asked, and brought up to date where a part of the tree is
 * replaced. Their units and name are always 0. Every refusal leaves output and summary untouched, with length 0; success writes from the start of
 * each and touches nothing after it. A summary is 2 + 2 * names words (MEIRHUPPA_MOST_SUMMARY are always enough): the tree's size, the count of names
 * (core names and words counted), then for each name from 0 how many variables have it, outside syntax values, and the place of the first, or 0
 * where there is none. Places count from 0 the things that size counts, a whole before its parts, left to right. A longer summary may be lent; what
 * is behind the last name is neither read nor written.
 *
 * The smaller image takes none of them either. Its units and name are always 0. A refusal leaves the output untouched, with length 0; success writes
 * the image from its start and touches no byte after it. It is never longer than the image, so an output as long as that is always enough.
 *
 * An image may have up to 256 scopes, 1,024 names (core names and words counted) and 512 bindings.
 *
 * It may hold primitives 0 to 9. 0 to 6 are document 01's: stx-e, mk-stx, first, rest, link, same, pick. 7 to 9 are for a macro while it is used:
 * 7 gives the value of the macro that an identifier means; 8 expands a piece of syntax with a list of identifiers as stops, forms that stay as they
 * are; 9 gives an identifier made fit to bind, without the use scopes of the macro uses under way. In a right-hand side and in the evaluate job no
 * macro is used, and they are refused (MEIRHUPPA_NO_INTRODUCTION).
 */
#ifndef MEIRHUPPA_H
#define MEIRHUPPA_H

#include <stddef.h>
#include <stdint.h>

#ifdef __cplusplus
extern "C" {
#endif

typedef struct meirhuppa_answer {
    uint32_t code;   /* 0, or one of the refusals below */
    uint32_t units;  /* charged; before a refusal, those charged before it */
    uint32_t name;   /* of a successful resolve, else 0 */
    uint32_t length; /* of the image, lines or text written, in bytes; of the panel check and of a summary, four for each word; else 0 */
    uint32_t first;  /* with MEIRHUPPA_AMBIGUOUS, which two bindings compete; else both are 0 */
    uint32_t second;
} meirhuppa_answer;

typedef struct meirhuppa_uses_answer {
    uint32_t code;  /* 0, or one of the refusals below; count and first are then 0 */
    uint32_t count; /* how many variables have the name */
    uint32_t first; /* the place of the first of them; 0 where there is none */
} meirhuppa_uses_answer;

/* Who competes. With MEIRHUPPA_AMBIGUOUS, and only then, `first` and `second` say where to look: at two bindings that both fit the word, of which
 * neither contains the other, so that nothing says which one is meant. They are places counted from 1, in image order, in the store at that moment:
 * the image's bindings and those that expanding has made so far, each where an image written just then would have it. (Resolve and parse make
 * none: there it is the image's own list.) first < second, and they are the first two of the fitting bindings that no other fitting one contains. */

enum meirhuppa_code {
    MEIRHUPPA_SUCCESS = 0,
    MEIRHUPPA_LAYOUT = 1,            /* the image breaks the layout */
    MEIRHUPPA_OVER_LIMIT = 2,        /* a count, value or nesting is over its limit */
    MEIRHUPPA_UNOWNED = 3,           /* evaluate, panel, scan: a variable of the tree, outside syntax values, has no enclosing function of its name */
    MEIRHUPPA_WRONG_KIND = 4,        /* the kind is 1 or 2 but not the job's (1 for resolve, expand, parse and print, else 2) */
    MEIRHUPPA_SMALL_TABLE = 5,       /* budget over 4,096, or fewer than 40 table words per unit of budget */
    MEIRHUPPA_AMBIGUOUS = 6,         /* several bindings fit and none contains the others; first and second are two of them */
    MEIRHUPPA_NO_MEANING = 7,        /* expand: an identifier in expression place whose name has no meaning */
    MEIRHUPPA_NO_RULE = 8,           /* a form with no rule */
    MEIRHUPPA_NO_SYNTAX = 9,         /* a macro use evaluates to no syntax object */
    MEIRHUPPA_NOT_APPLICABLE = 10,   /* applied value is no function or primitive, or the argument count is wrong */
    MEIRHUPPA_WRONG_ARGUMENT = 11,   /* a primitive's argument is of the wrong kind */
    MEIRHUPPA_NO_PHASE = 12,         /* phase over 2 */
    MEIRHUPPA_NO_NAME_LEFT = 13,     /* no name left */
    MEIRHUPPA_NO_SCOPE_LEFT = 14,    /* no scope left */
    MEIRHUPPA_NO_BINDING_LEFT = 15,  /* no binding room left */
    /* 16 is given by no job and stays unused */
    MEIRHUPPA_TOO_DEEP = 17,         /* something made has nesting over 64 */
    MEIRHUPPA_TOO_MANY_ENTRIES = 18, /* a 129th entry in progress */
    MEIRHUPPA_OVER_BUDGET = 19,      /* a charge is larger than what remains */
    MEIRHUPPA_TOO_LONG = 20,         /* the result is longer than the output or 65,536 bytes; panel and summary: more words than are lent; scan: the
                                        lines are longer than the output, whatever that is */
    MEIRHUPPA_OUTSIDE_PROFILE = 21,  /* panel, scan: the tree is no program of the panel profile */
    MEIRHUPPA_DRIVEN_TWICE = 22,     /* panel, scan: two `out` drive one point, wherever they stand */
    MEIRHUPPA_TOO_MANY_BITS = 23,    /* panel, scan: more than 256 bits */
    MEIRHUPPA_BAD_RECORDING = 24,    /* scan: the recording breaks its layout or is longer than 65,536 bytes */
    MEIRHUPPA_DRIVEN_CHANGE = 25,    /* scan: a change names a point that the program drives */
    MEIRHUPPA_BAD_TEXT = 26,         /* read: something that is no part of a text, no object at all, or a second one */
    MEIRHUPPA_UNBALANCED = 27,       /* read: a closing parenthesis with nothing open, or one left open at the end */
    MEIRHUPPA_NO_INTRODUCTION = 28,  /* expand, evaluate: primitive 7, 8 or 9 where no macro is used, in a right-hand side or the evaluate job */
    MEIRHUPPA_ANOTHER_TREE = 29,     /* uses, replace: the summary is too short or belongs to a tree with another size or count of names; replace: the
                                        tree has no such place */
    MEIRHUPPA_NO_SUCH_NAME = 30      /* uses: the image has no such name */
};

enum {
    MEIRHUPPA_MOST_BUDGET = 4096,
    MEIRHUPPA_WORDS_PER_UNIT = 40,
    MEIRHUPPA_MOST_IMAGE = 65536,
    MEIRHUPPA_MOST_BITS = 256, /* so many words lent to the panel check are always enough */
    MEIRHUPPA_MOST_SUMMARY = 2050, /* so many words lent to a summary are always enough */
    MEIRHUPPA_MOST_RECORDING = 65536,
    MEIRHUPPA_MOST_LINE = 7088, /* bytes of a scan's line, with its end; so many for each scan are always enough */
    MEIRHUPPA_STACK = 163840 /* bytes of stack that a call takes at most */
};

/* What a code means, in words, for people. */
static inline const char *meirhuppa_meaning(uint32_t code)
{
    switch (code) {
    case MEIRHUPPA_SUCCESS: return "done";
    case MEIRHUPPA_LAYOUT: return "the image breaks the layout";
    case MEIRHUPPA_OVER_LIMIT: return "a count, value or nesting is over its limit";
    case MEIRHUPPA_UNOWNED: return "a variable has no enclosing function of its name";
    case MEIRHUPPA_WRONG_KIND: return "the image is not of the kind that the job takes";
    case MEIRHUPPA_SMALL_TABLE: return "the budget is over 4,096, or the table too small for it";
    case MEIRHUPPA_AMBIGUOUS: return "several bindings fit and none contains the others";
    case MEIRHUPPA_NO_MEANING: return "a name has no meaning";
    case MEIRHUPPA_NO_RULE: return "a form has no rule";
    case MEIRHUPPA_NO_SYNTAX: return "a macro gave back no syntax object";
    case MEIRHUPPA_NOT_APPLICABLE: return "what is applied takes no arguments, or not that many";
    case MEIRHUPPA_WRONG_ARGUMENT: return "a primitive's argument is of the wrong kind";
    case MEIRHUPPA_NO_PHASE: return "the phase is over 2";
    case MEIRHUPPA_NO_NAME_LEFT: return "no name is left";
    case MEIRHUPPA_NO_SCOPE_LEFT: return "no scope is left";
    case MEIRHUPPA_NO_BINDING_LEFT: return "no room for a binding is left";
    case MEIRHUPPA_TOO_DEEP: return "something is nested deeper than 64";
    case MEIRHUPPA_TOO_MANY_ENTRIES: return "more than 128 entries are in progress";
    case MEIRHUPPA_OVER_BUDGET: return "the budget is used up";
    case MEIRHUPPA_TOO_LONG: return "the result is longer than the output, or than 65,536 bytes";
    case MEIRHUPPA_OUTSIDE_PROFILE: return "the tree is outside the panel profile";
    case MEIRHUPPA_DRIVEN_TWICE: return "a point is driven twice";
    case MEIRHUPPA_TOO_MANY_BITS: return "the program has more than 256 bits";
    case MEIRHUPPA_BAD_RECORDING: return "the recording breaks its layout, or is longer than 65,536 bytes";
    case MEIRHUPPA_DRIVEN_CHANGE: return "the recording changes a point that the program drives";
    case MEIRHUPPA_BAD_TEXT: return "something in the text cannot be read, or it has no object or a second one";
    case MEIRHUPPA_UNBALANCED: return "a parenthesis of the text has no partner";
    case MEIRHUPPA_NO_INTRODUCTION: return "a primitive for the use of a macro stands where none is used";
    case MEIRHUPPA_ANOTHER_TREE: return "the summary belongs to another tree, or the tree has no such place";
    case MEIRHUPPA_NO_SUCH_NAME: return "the image has no such name";
    default: return "unknown code";
    }
}

/* The name of the identifier that a syntax image holds, at a phase. */
meirhuppa_answer meirhuppa_resolve(const uint8_t *image, size_t image_length, uint32_t phase, uint32_t budget,
                                   uint32_t *table, size_t table_words);

/* A syntax image without macros, from one with macros, at a phase. */
meirhuppa_answer meirhuppa_expand(const uint8_t *image, size_t image_length, uint32_t phase, uint32_t budget,
                                  uint32_t *table, size_t table_words, uint8_t *output, size_t output_length);

/* The tree image of an expanded syntax image. */
meirhuppa_answer meirhuppa_parse(const uint8_t *image, size_t image_length, uint32_t budget,
                                 uint32_t *table, size_t table_words, uint8_t *output, size_t output_length);

/* The image of the value of a tree image. */
meirhuppa_answer meirhuppa_evaluate(const uint8_t *image, size_t image_length, uint32_t budget,
                                    uint32_t *table, size_t table_words, uint8_t *output, size_t output_length);

/* Whether the panel's compiler takes a tree image, and where it does, the names of its bits in order of address: the bit with address 0
 * is named bits[0], and there are length / 4 bits. Of several refusals the order is 2 for an image over 65,536 bytes, then 1, 2 and 4 as the
 * image is read from the front, then 3, 21, 22 and 23, each over the whole tree, and 20 where fewer words are lent than there are bits. */
meirhuppa_answer meirhuppa_panel(const uint8_t *image, size_t image_length, uint32_t *bits, size_t bits_words);

/* The lines of a panel program run over a recording, one for each scan, each with a line end: the scan's number, from 1, then for each driven
 * point in ascending order a space, the point and its value, as `3 @10=1 @13=0`. The image is a tree image. The recording is the count of scans, and
 * for each the count of changed points, then point (up to 1,023) and value (0 or 1), points ascending, all in groups of seven bits as in images.
 * Of several refusals the order is that of the panel check without its 20, then 24, then 25, each over the whole recording, and 20 where the
 * lines are longer than the output. */
meirhuppa_answer meirhuppa_scan(const uint8_t *image, size_t image_length, const uint8_t *recording, size_t recording_length,
                                uint8_t *output, size_t output_length);

/* The syntax image of the object that a text holds, with no scopes and its words numbered as first met. The text has parentheses, words, decimal
 * numbers without leading zeros, `@12` for a point, `#0` for a primitive, `'and` (or, not, out, set, all) or `'6` to `'15` for a rung word, all
 * parted by spaces, tabs or line ends, and comments from `;` to the end of the line, as `('out @10 ('or @1 @10)) ; holds itself`. It may be of any
 * length, with parentheses to any depth. Of several refusals the order is 26 and 27, whichever comes first from the front, over the whole text; then
 * 2 where an image could not hold what is written (a number over 4,294,967,295, a point over 1,023, a primitive over 9, a word over 32 bytes, nesting
 * over 64, more than 1,020 different words), and 20. */
meirhuppa_answer meirhuppa_read(const uint8_t *text, size_t text_length, uint8_t *output, size_t output_length);

/* The text of the object that a syntax image holds, without its scopes, with single spaces. Reading it gives the same objects again, words by their
 * spelling, where the new image has room. Of several refusals the order is 2 for an image over 65,536 bytes, then 1, 2 and 4 as the image is read
 * from the front, and 20. */
meirhuppa_answer meirhuppa_print(const uint8_t *image, size_t image_length, uint8_t *output, size_t output_length);

/* The summary of a tree image: length / 4 words. Every tree has one, also an open tree. Of several refusals the order is 2 for an image over 65,536
 * bytes, then 1, 2 and 4 as the image is read from the front, and 20 where fewer words are lent than it has. */
meirhuppa_answer meirhuppa_summary(const uint8_t *image, size_t image_length, uint32_t *summary, size_t summary_words);

/* How often a name is used in a tree image, and where first: one entry of a summary is read. Where the summary was made from that tree, or brought up
 * to date for it, that is what counting the whole tree gives; no entry is tested. Of several refusals the order is 2 for an image over 65,536 bytes,
 * then 1, 2 and 4 as the image is read from the front, 29 and 30. */
meirhuppa_uses_answer meirhuppa_uses(const uint8_t *image, size_t image_length, const uint32_t *summary, size_t summary_words, uint32_t name);

/* A tree image with another part at a place, and its summary brought up to date. The part is a tree as it stands in an image, without head, with the
 * names, words and scopes of the image. The words of the new summary are 2 + 2 * names as before. Where the summary was that of the old tree, it
 * becomes that of the new one; where its entries were not, each becomes some number, no count below 0 and nothing over 4,294,967,295. Of several
 * refusals the order is 2 for an image over 65,536 bytes, then 1, 2 and 4 as the image is read from the front; 29; 2 for a part over 65,536
 * bytes, then 1 and 2 as the part is read from the front, at its level and with the image's counts (1 for bytes left over, and for what is no value
 * where it stands in a list value); and 20 where the new image is longer than the output or than 65,536 bytes. */
meirhuppa_answer meirhuppa_replace(const uint8_t *image, size_t image_length, uint32_t place, const uint8_t *part, size_t part_length,
                                   uint32_t *summary, size_t summary_words, uint8_t *output, size_t output_length);

/* A syntax image of the same meaning, for the archive: without the bindings whose symbol has no identifier that contains their set at some phase,
 * then without the scopes that are in no set any more, the rest renumbered in order. Names and words stay. Identifiers in quoted and `syntax` text
 * count. Parsing it gives the same code, units and tree, but for the numbers of scopes in syntax values and their count; doing it twice changes
 * nothing more. Expanding it again is outside this promise. Of several refusals the order is 2 for an image over 65,536 bytes, then 1, 2 and 4 as the
 * image is read from the front, and 20. */
meirhuppa_answer meirhuppa_shrink(const uint8_t *image, size_t image_length, uint8_t *output, size_t output_length);

#ifdef __cplusplus
}
#endif

#endif
