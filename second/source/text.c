/* text read, text print: an image from a text, or a text from an image, standard
   input to standard output. What is refused prints nothing but a line `code N` on
   standard error. */
#include <stdio.h>
#include <stdlib.h>
#include <string.h>

#include "jobs.h"

enum { REFUSED = 1, FAILED = 2 };

/* All of standard input: a text may be of any length. */
static uint8_t *read_input(size_t *length)
{
    size_t room = LONGEST_IMAGE + 1;
    uint8_t *bytes = malloc(room);
    *length = 0;
    while (bytes != NULL) {
        *length += fread(bytes + *length, 1, room - *length, stdin);
        if (*length < room)
            return bytes;
        room *= 2;
        uint8_t *larger = realloc(bytes, room);
        if (larger == NULL)
            free(bytes);
        bytes = larger;
    }
    return NULL;
}

int main(int count, char **arguments)
{
    static Answer answer;
    Call call = {.output_length = LONGEST_IMAGE};
    if (count == 2 && strcmp(arguments[1], "read") == 0) {
        call.job = JOB_READ;
    } else if (count == 2 && strcmp(arguments[1], "print") == 0) {
        call.job = JOB_PRINT;
    } else {
        fprintf(stderr, "text read, or text print\n");
        return FAILED;
    }
    uint8_t *input = read_input(&call.image_length);
    if (input == NULL || ferror(stdin)) {
        fprintf(stderr, "the input cannot be read\n");
        return FAILED;
    }
    call.image = input;
    Memory *memory = new_memory();
    answer_call(memory, &call, &answer);
    free_memory(memory);
    free(input);
    if (answer.code != SUCCESS) {
        fprintf(stderr, "code %u\n", (unsigned)answer.code);
        return REFUSED;
    }
    fwrite(answer.output, 1, answer.length, stdout);
    return fflush(stdout) == 0 ? 0 : FAILED;
}
