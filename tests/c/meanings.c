/* Every code of the header has a meaning, and a number that is no code, as 16, is unknown. */
#include <string.h>

#include "meirhuppa.h"

int main(void)
{
    for (uint32_t code = 0; code <= 40; code++) {
        int known = code <= MEIRHUPPA_NO_SUCH_NAME && code != 16;
        if ((strcmp(meirhuppa_meaning(code), "unknown code") != 0) != known)
            return 1;
    }
    return 0;
}
