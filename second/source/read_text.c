/* Reading a text: three passes over its tokens. None goes deeper with the
   parentheses but the last, which comes when their nesting is known. */
#include "text.h"
#include "tokens.h"
#include "words.h"

/* 26 and 27, the first from the front. */
static Code judge(const Tokens *tokens)
{
    size_t open = 0;
    bool has_begun = false; /* the one object */
    for (size_t i = 0; i < tokens->count; i++) {
        TokenKind kind = tokens->tokens[i].kind;
        if (kind == CLOSING) {
            if (open == 0)
                return UNBALANCED;
            open--;
            continue;
        }
        if (kind == NO_TOKEN || (has_begun && open == 0))
            return BAD_TEXT;
        has_begun = true;
        if (kind == OPENING)
            open++;
    }
    if (open > 0)
        return UNBALANCED;
    return has_begun ? SUCCESS : BAD_TEXT;
}

/* The number of a symbol; a word not met before is put behind the others. False
   where there is no room for it. */
static bool number_word(Image *image, Word word, uint32_t *symbol)
{
    *symbol = core_name(word);
    if (*symbol < CORE_NAMES)
        return true;
    uint32_t i = 0;
    while (i < image->word_count && !same_words(image->words[i], word))
        i++;
    *symbol = CORE_NAMES + i;
    if (i < image->word_count)
        return true;
    if (image->word_count == MOST_NAMES - CORE_NAMES)
        return false;
    image->words[image->word_count++] = word;
    return true;
}

/* 2. On the way words are numbered and the parts of every list counted. */
static bool is_within_limits(const Tokens *tokens, Image *image)
{
    Token *lists[MOST_NESTING]; /* that are open, the innermost last */
    uint32_t open = 0;
    for (size_t i = 0; i < tokens->count; i++) {
        Token *token = &tokens->tokens[i];
        if (token->kind == CLOSING) {
            open--;
            continue;
        }
        if (open == MOST_NESTING || token->is_over)
            return false;
        if (open > 0)
            lists[open - 1]->parts++;
        if (token->kind == OPENING)
            lists[open++] = token;
        else if (token->tag == SYMBOL && !number_word(image, token->word, &token->content))
            return false;
    }
    return true;
}

/* The object that begins at a token, which moves behind it. */
static const Object *build(Memory *memory, const Token **token)
{
    static const ScopeSet none[PHASES];
    const Token *first = (*token)++;
    if (first->kind == LEAF)
        return make_atom_object(memory, (Atom){first->tag, first->content}, none);
    const Object **parts = take_object_parts(memory, first->parts);
    for (uint32_t i = 0; i < first->parts; i++)
        parts[i] = build(memory, token);
    (*token)++; /* the closing parenthesis */
    return make_list_object(memory, first->parts, parts, none);
}

Code read_text(Memory *memory, const uint8_t *text, size_t length, Image *image)
{
    Tokens tokens = cut_text(memory, text, length);
    Code code = judge(&tokens);
    if (code != SUCCESS)
        return code;
    image->kind = SYNTAX_IMAGE;
    image->word_count = image->scopes = image->binding_count = 0;
    if (!is_within_limits(&tokens, image))
        return OVER_LIMIT;
    image->names = CORE_NAMES + image->word_count;
    const Token *first = tokens.tokens;
    image->object = build(memory, &first);
    image->tree = NULL;
    return SUCCESS;
}
