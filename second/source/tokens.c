#include "tokens.h"

#include <string.h>

#include "words.h"

const char *const rung_word_names[NAMED_RUNG_WORDS] = {
    [RUNG_AND] = "and",
    [RUNG_OR] = "or",
    [RUNG_NOT] = "not",
    [RUNG_OUT] = "out",
    [RUNG_SET] = "set",
    [RUNG_ALL] = "all",
};

/* ---- what parts tokens ---- */

static bool is_line_end(uint8_t byte)
{
    return byte == '\n' || byte == '\r';
}

static bool is_space(uint8_t byte)
{
    return byte == ' ' || byte == '\t' || is_line_end(byte);
}

static bool ends_token(uint8_t byte)
{
    return is_space(byte) || byte == '(' || byte == ')' || byte == ';';
}

/* ---- leaves ---- */

static Token no_token(void)
{
    return (Token){.kind = NO_TOKEN};
}

static Token leaf(ObjectTag tag, uint32_t content, bool is_over)
{
    return (Token){.kind = LEAF, .tag = tag, .content = content, .is_over = is_over};
}

/* Digits that make a number: 0, or no zero at the front. */
static bool is_numeral(Word digits)
{
    if (digits.length == 0 || (digits.length > 1 && digits.bytes[0] == '0'))
        return false;
    for (uint32_t i = 0; i < digits.length; i++)
        if (digits.bytes[i] < '0' || digits.bytes[i] > '9')
            return false;
    return true;
}

/* The value of a numeral; everything over the largest number is the same. */
static uint64_t value_of(Word digits)
{
    uint64_t value = 0;
    for (uint32_t i = 0; i < digits.length && value <= UINT32_MAX; i++)
        value = value * 10 + (uint64_t)(digits.bytes[i] - '0');
    return value;
}

static Token numeral(ObjectTag tag, Word digits, uint32_t largest)
{
    if (!is_numeral(digits))
        return no_token();
    uint64_t value = value_of(digits);
    return leaf(tag, (uint32_t)value, value > largest);
}

/* Six have names, the free ones are numbered; nothing else follows a quote. */
static Token rung_word(Word text)
{
    for (uint32_t i = 0; i < NAMED_RUNG_WORDS; i++)
        if (text.length == strlen(rung_word_names[i]) &&
            memcmp(text.bytes, rung_word_names[i], text.length) == 0)
            return leaf(RUNG_WORD, i, false);
    if (!is_numeral(text))
        return no_token();
    uint64_t value = value_of(text);
    if (value < NAMED_RUNG_WORDS || value > LARGEST_RUNG_WORD)
        return no_token();
    return leaf(RUNG_WORD, (uint32_t)value, false);
}

static Token symbol(Word word)
{
    if (!is_word(word))
        return no_token();
    Token token = leaf(SYMBOL, 0, word.length > LONGEST_WORD);
    token.word = word;
    return token;
}

static Token leaf_of(Word run)
{
    Word behind_first = {.bytes = run.bytes + 1, .length = run.length - 1};
    uint8_t first = run.bytes[0];
    if (first >= '0' && first <= '9')
        return numeral(NUMBER, run, UINT32_MAX);
    switch (first) {
    case '@':
        return numeral(POINT, behind_first, LARGEST_POINT);
    case '#':
        return numeral(PRIMITIVE, behind_first, LARGEST_PRIMITIVE);
    case '\'':
        return rung_word(behind_first);
    default:
        return symbol(run);
    }
}

/* ---- a text from the front ---- */

typedef struct {
    const uint8_t *text;
    size_t length;
    size_t place;
} Cutter;

static bool is_at_end(const Cutter *cutter)
{
    return cutter->place == cutter->length;
}

static uint8_t next_byte(const Cutter *cutter)
{
    return cutter->text[cutter->place];
}

/* Goes on to the next token: over spaces, and comments to the end of their line. */
static void skip_spaces(Cutter *cutter)
{
    bool in_comment = false;
    while (!is_at_end(cutter) &&
           (in_comment || is_space(next_byte(cutter)) || next_byte(cutter) == ';')) {
        uint8_t byte = next_byte(cutter);
        in_comment = !is_line_end(byte) && (in_comment || byte == ';');
        cutter->place++;
    }
}

static Token next_token(Cutter *cutter)
{
    uint8_t first = next_byte(cutter);
    if (first == '(' || first == ')') {
        cutter->place++;
        return (Token){.kind = first == '(' ? OPENING : CLOSING};
    }
    size_t start = cutter->place;
    while (!is_at_end(cutter) && !ends_token(next_byte(cutter)))
        cutter->place++;
    return leaf_of((Word){cutter->text + start, (uint32_t)(cutter->place - start)});
}

/* Puts the tokens into a list, or only counts them where there is none yet. */
static size_t cut(Cutter cutter, Token *tokens)
{
    size_t count = 0;
    for (skip_spaces(&cutter); !is_at_end(&cutter); skip_spaces(&cutter)) {
        Token token = next_token(&cutter);
        if (tokens != NULL)
            tokens[count] = token;
        count++;
    }
    return count;
}

Tokens cut_text(Memory *memory, const uint8_t *text, size_t length)
{
    Cutter cutter = {.text = text, .length = length};
    size_t count = cut(cutter, NULL);
    Tokens tokens = {.count = count, .tokens = take_memory(memory, count * sizeof(Token))};
    cut(cutter, tokens.tokens);
    return tokens;
}
