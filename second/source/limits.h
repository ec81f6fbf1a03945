/* The limits and codes of document 01 as requests T-01, T-02, T-05 and T-07 to T-10
   amend it, each with its number. */
#ifndef LIMITS_H
#define LIMITS_H

enum {
    MOST_SCOPES = 256,
    MOST_NAMES = 1024, /* core names and words counted */
    MOST_BINDINGS = 512,
    MOST_NESTING = 64,
    MOST_ENTRIES = 128,
    MOST_BUDGET = 4096,
    LONGEST_WORD = 32,
    LONGEST_IMAGE = 65536,
    LONGEST_RECORDING = 65536,
    LARGEST_POINT = 1023,
    LARGEST_PRIMITIVE = 9,
    LARGEST_RUNG_WORD = 15,
    LAST_PHASE = 2,
    PHASES = 3,
    MOST_BITS = 256, /* of a panel program */
    TABLE_WORDS_PER_UNIT = 40,
    BYTES_PER_WORD = 4,
    /* Sizes are kept up to here: a larger charge is refused whatever it is. */
    SIZE_CAP = MOST_BUDGET + 1
};

/* The names of the four core forms. Words are numbered from CORE_NAMES. */
enum { LAMBDA = 0, LET_SYNTAX = 1, QUOTE = 2, SYNTAX = 3, CORE_NAMES = 4 };

/* The rung words that have a meaning. */
enum { RUNG_AND = 0, RUNG_OR = 1, RUNG_NOT = 2, RUNG_OUT = 3, RUNG_SET = 4, RUNG_ALL = 5 };

typedef enum {
    SUCCESS = 0,
    BAD_LAYOUT = 1,
    OVER_LIMIT = 2,
    FREE_VARIABLE = 3,
    WRONG_KIND = 4,
    BAD_BUDGET = 5,
    AMBIGUOUS = 6,
    NO_MEANING = 7,
    NO_RULE = 8,
    NO_SYNTAX_OBJECT = 9,
    NOT_APPLICABLE = 10,
    WRONG_ARGUMENT = 11,
    PHASE_OVER = 12,
    NO_NAME_ROOM = 13,
    NO_SCOPE_ROOM = 14,
    NO_BINDING_ROOM = 15,
    /* 16 was for a binder bound already, which cannot be. It stays unused for
       ever, so that it never means two things. */
    TOO_NESTED = 17,
    TOO_MANY_ENTRIES = 18,
    CHARGE_TOO_LARGE = 19,
    TOO_LONG = 20,
    OUTSIDE_PROFILE = 21,
    DRIVEN_TWICE = 22,
    TOO_MANY_BITS = 23,
    BAD_RECORDING = 24,
    CHANGES_DRIVEN = 25,
    BAD_TEXT = 26,
    UNBALANCED = 27,
    NO_INTRODUCTION_SCOPE = 28,
    ANOTHER_SUMMARY = 29,
    NO_SUCH_NAME = 30,
    LAST_CODE = NO_SUCH_NAME
} Code;

#endif
