/* replay: reads calls on standard input and prints a line for each. */
#include "stream.h"

int main(void)
{
    static Inputs inputs;
    static Answer answer;
    Memory *memory = new_memory();
    Call call;
    Met met;
    while ((met = read_call(stdin, &call, &inputs)) == A_CALL) {
        answer_call(memory, &call, &answer);
        write_answer_line(stdout, &call, &answer);
    }
    if (met == CUT)
        puts("cut");
    free_memory(memory);
    return fflush(stdout) == 0 ? 0 : 1;
}
