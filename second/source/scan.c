/* scan IMAGE RECORDING: runs the panel program of a tree image over a recording
   and prints the line of each scan. What is refused prints nothing but a line
   `code N` on standard error. The arguments are files. */
#include <stdio.h>

#include "jobs.h"

enum { REFUSED = 1, FAILED = 2 };

/* Reads a file up to a byte more than may be, which is enough to be too long. */
static bool read_file(const char *path, uint8_t *bytes, size_t room, size_t *length)
{
    FILE *file = fopen(path, "rb");
    if (file == NULL)
        return false;
    *length = fread(bytes, 1, room, file);
    bool good = !ferror(file);
    fclose(file);
    return good;
}

static void print_lines(Runner *runner, const Recording *recording)
{
    static uint8_t line[LONGEST_LINE];
    for (uint32_t i = 0; i < recording->count; i++) {
        size_t length = run_scan(runner, &recording->scans[i], line);
        fwrite(line, 1, length, stdout);
    }
}

static int scan(Memory *memory, const Call *call)
{
    static Runner runner;
    Recording recording;
    Code code = load_scans(memory, call, &runner, &recording);
    if (code != SUCCESS) {
        fprintf(stderr, "code %u\n", (unsigned)code);
        return REFUSED;
    }
    print_lines(&runner, &recording);
    return fflush(stdout) == 0 ? 0 : FAILED;
}

int main(int count, char **arguments)
{
    static uint8_t image[LONGEST_IMAGE + 1], recording[LONGEST_RECORDING + 1];
    Call call = {.job = JOB_SCAN, .image = image, .recording = recording};
    if (count != 3) {
        fprintf(stderr, "scan IMAGE RECORDING\n");
        return FAILED;
    }
    if (!read_file(arguments[1], image, sizeof image, &call.image_length) ||
        !read_file(arguments[2], recording, sizeof recording, &call.recording_length)) {
        fprintf(stderr, "a file cannot be read\n");
        return FAILED;
    }
    Memory *memory = new_memory();
    int status = scan(memory, &call);
    free_memory(memory);
    return status;
}
