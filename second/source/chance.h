/* A seeded source of chance: one compiler gives the same calls for a seed each
   time. Another may evaluate arguments in another order and make other calls. */
#ifndef CHANCE_H
#define CHANCE_H

#include <stdbool.h>
#include <stdint.h>

void start_chance(uint64_t seed);
uint64_t next_chance(void);
uint32_t below(uint32_t limit);                /* 0 to limit - 1; limit is at least 1 */
uint32_t between(uint32_t low, uint32_t high); /* both ends included */
bool percent(uint32_t of_hundred);

#endif
