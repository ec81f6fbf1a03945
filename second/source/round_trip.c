/* round_trip: what is printed is read back, and what is read is printed back.

       round_trip --seed S --count N
       round_trip --stream FILE

   makes N images and N texts by chance, or takes all images and texts of a stream of
   calls, and asks:

   - of an image that is printed, that reading the text gives the same objects
     without their scopes, symbols by spelling, in an image with no scopes, no made
     names, no bindings and just the words that stand in it, as first met; and that
     this is printed as the same text;
   - of a text that is read, that printing gives it with single spaces and no
     comments, and that reading this gives the same image.

   Either may be refused with 20 at any step but the first, and with nothing else.
   What breaks this is printed in hexadecimal. It is an alarm and no proof. */
#include <stdio.h>
#include <stdlib.h>
#include <string.h>

#include "chance.h"
#include "drafts.h"
#include "stream.h"
#include "words.h"

static Memory *memory;
static uint64_t violations, printed_count, read_count;

static void violation(const char *what, const uint8_t *bytes, size_t length)
{
    violations++;
    printf("violation: %s: ", what);
    for (size_t i = 0; i < length; i++)
        printf("%02x", bytes[i]);
    putchar('\n');
}

static void answer_text_job(Job job, const uint8_t *bytes, size_t length, Answer *answer)
{
    Call call = {.job = job, .output_length = LONGEST_IMAGE, .image = bytes, .image_length = length};
    answer_call(memory, &call, answer);
}

/* ---- images ---- */

static Word spelling(const Image *image, uint32_t symbol)
{
    return symbol < CORE_NAMES ? core_word(symbol) : image->words[symbol - CORE_NAMES];
}

static bool is_scopeless(const Object *object)
{
    for (int phase = 0; phase < PHASES; phase++)
        if (count_scopes(object->sets[phase]) > 0)
            return false;
    return true;
}

/* The same objects, the right one without scopes. */
static bool is_stripped(const Image *left_image, const Object *left, const Image *right_image,
                        const Object *right)
{
    if (left->tag != right->tag || left->count != right->count || !is_scopeless(right))
        return false;
    if (left->tag == SYMBOL)
        return same_words(spelling(left_image, left->content), spelling(right_image, right->content));
    if (left->tag != LIST)
        return left->content == right->content;
    for (uint32_t i = 0; i < left->count; i++)
        if (!is_stripped(left_image, left->parts[i], right_image, right->parts[i]))
            return false;
    return true;
}

/* The words of an object as first met; false where they are not in this order. */
static bool meets_words(const Object *object, uint32_t *met)
{
    if (object->tag == SYMBOL && object->content >= CORE_NAMES) {
        uint32_t word = object->content - CORE_NAMES;
        if (word > *met)
            return false;
        *met += word == *met;
    }
    for (uint32_t i = 0; i < object->count; i++)
        if (!meets_words(object->parts[i], met))
            return false;
    return true;
}

/* What is wrong with an image that was read from the text of another. */
static const char *wrong_image(const uint8_t *bytes, size_t length, const Answer *again)
{
    static Image image, other;
    uint32_t met = 0;
    clear_memory(memory);
    if (read_image(memory, bytes, length, SYNTAX_IMAGE, &image) != SUCCESS ||
        read_image(memory, again->output, again->length, SYNTAX_IMAGE, &other) != SUCCESS)
        return "the image cannot be read";
    if (!is_stripped(&image, image.object, &other, other.object))
        return "other objects";
    if (other.scopes > 0 || other.binding_count > 0 || other.names != CORE_NAMES + other.word_count)
        return "scopes, bindings or made names";
    if (!meets_words(other.object, &met) || met != other.word_count)
        return "words not as first met";
    return NULL;
}

static void try_image(const uint8_t *bytes, size_t length)
{
    static Answer text, again, text_again;
    answer_text_job(JOB_PRINT, bytes, length, &text);
    if (text.code != SUCCESS)
        return;
    printed_count++;
    answer_text_job(JOB_READ, text.output, text.length, &again);
    if (again.code == TOO_LONG)
        return;
    if (again.code != SUCCESS) {
        violation("what is printed is refused", bytes, length);
        return;
    }
    const char *wrong = wrong_image(bytes, length, &again);
    if (wrong != NULL)
        violation(wrong, bytes, length);
    answer_text_job(JOB_PRINT, again.output, again.length, &text_again);
    if (text_again.code != SUCCESS || text_again.length != text.length ||
        memcmp(text_again.output, text.output, text.length) != 0)
        violation("printed otherwise", bytes, length);
}

/* ---- texts ---- */

/* The text with single spaces and no comments. A space is due between two tokens
   or lists. */
static size_t single(const uint8_t *text, size_t length, uint8_t *out)
{
    size_t written = 0;
    bool is_parted = false, in_comment = false;
    for (size_t i = 0; i < length; i++) {
        uint8_t byte = text[i];
        if (in_comment || byte == ';' || strchr(" \t\r\n", byte) != NULL) {
            in_comment = byte != '\r' && byte != '\n' && (in_comment || byte == ';');
            is_parted = true;
            continue;
        }
        uint8_t before = written > 0 ? out[written - 1] : '(';
        if (before != '(' && byte != ')' && (is_parted || before == ')' || byte == '('))
            out[written++] = ' ';
        out[written++] = byte;
        is_parted = false;
    }
    return written;
}

static void try_text(const uint8_t *text, size_t length)
{
    static Answer image, text_again, again;
    static uint8_t expected[2 * LARGEST_STREAM_SIZE];
    answer_text_job(JOB_READ, text, length, &image);
    if (image.code != SUCCESS)
        return;
    read_count++;
    answer_text_job(JOB_PRINT, image.output, image.length, &text_again);
    size_t expected_length = single(text, length, expected);
    if (text_again.code == TOO_LONG && expected_length > LONGEST_IMAGE)
        return;
    if (text_again.code != SUCCESS || text_again.length != expected_length ||
        memcmp(text_again.output, expected, expected_length) != 0) {
        violation("printed otherwise than read", text, length);
        return;
    }
    answer_text_job(JOB_READ, expected, expected_length, &again);
    if (again.code != SUCCESS || again.length != image.length ||
        memcmp(again.output, image.output, image.length) != 0)
        violation("another image from the text with single spaces", text, length);
}

/* ---- what is tried ---- */

static void draft_syntax(Draft *draft)
{
    uint32_t choice = below(100);
    if (choice < 45)
        draft_program(memory, draft);
    else if (choice < 80)
        draft_object(memory, draft);
    else if (choice < 90)
        draft_identifier(memory, draft);
    else
        draft_rivals(memory, JOB_EXPAND, draft);
    if (below(200) == 0)
        draft_long_words(memory, draft);
}

static void try_chance(uint64_t seed, uint64_t count)
{
    static Draft draft;
    start_chance(seed);
    for (uint64_t i = 0; i < count; i++) {
        draft_syntax(&draft);
        try_image(draft.bytes, draft.length);
        draft_text(false, &draft);
        try_text(draft.bytes, draft.length);
    }
}

static int try_stream(const char *path)
{
    static Inputs inputs;
    FILE *stream = fopen(path, "rb");
    Call call;
    if (stream == NULL) {
        fprintf(stderr, "%s cannot be read\n", path);
        return 2;
    }
    while (read_call(stream, &call, &inputs) == A_CALL) {
        if (call.job == JOB_READ)
            try_text(call.image, call.image_length);
        else
            try_image(call.image, call.image_length);
    }
    fclose(stream);
    return 0;
}

int main(int count, char **arguments)
{
    uint64_t seed = 1, wanted = 1000;
    const char *stream = NULL;
    for (int i = 1; i < count; i += 2) {
        const char *value = i + 1 < count ? arguments[i + 1] : NULL;
        if (value != NULL && strcmp(arguments[i], "--seed") == 0) {
            seed = strtoull(value, NULL, 10);
        } else if (value != NULL && strcmp(arguments[i], "--count") == 0) {
            wanted = strtoull(value, NULL, 10);
        } else if (value != NULL && strcmp(arguments[i], "--stream") == 0) {
            stream = value;
        } else {
            fprintf(stderr, "round_trip --seed S --count N, or round_trip --stream FILE\n");
            return 2;
        }
    }
    memory = new_memory();
    int status = 0;
    if (stream != NULL)
        status = try_stream(stream);
    else
        try_chance(seed, wanted);
    free_memory(memory);
    printf("%llu images printed, %llu texts read, %llu violations\n", (unsigned long long)printed_count,
           (unsigned long long)read_count, (unsigned long long)violations);
    return status != 0 ? status : violations > 0;
}
