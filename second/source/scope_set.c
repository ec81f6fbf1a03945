#include "scope_set.h"

static uint32_t word_of(uint32_t scope)
{
    return (scope - 1) / WORD_BITS;
}

static uint64_t bit_of(uint32_t scope)
{
    return (uint64_t)1 << ((scope - 1) % WORD_BITS);
}

void put_scope(ScopeSet *set, uint32_t scope)
{
    set->words[word_of(scope)] |= bit_of(scope);
}

ScopeSet only_scope(uint32_t scope)
{
    ScopeSet set = NO_SCOPES;
    put_scope(&set, scope);
    return set;
}

uint32_t count_scopes(ScopeSet set)
{
    uint32_t count = 0;
    for (int i = 0; i < SET_WORDS; i++)
        for (uint64_t left = set.words[i]; left != 0; left &= left - 1)
            count++;
    return count;
}

/* Whether the set has a scope above a bit of a word. */
static bool goes_on(const ScopeSet *set, int word, uint64_t bit)
{
    uint64_t above = set->words[word] & ~(bit | (bit - 1));
    for (int i = word + 1; i < SET_WORDS; i++)
        above |= set->words[i];
    return above != 0;
}

/* Up to the lowest scope that only one of the two has, the lists agree. There
   the list with that scope has the smaller number, unless the other list has
   ended: then the other is a proper prefix and comes first. */
int compare_sets(ScopeSet left, ScopeSet right)
{
    int word = 0;
    while (word < SET_WORDS && left.words[word] == right.words[word])
        word++;
    if (word == SET_WORDS)
        return 0;
    uint64_t differing = left.words[word] ^ right.words[word];
    uint64_t lowest = differing & (~differing + 1);
    if ((left.words[word] & lowest) != 0)
        return goes_on(&right, word, lowest) ? -1 : 1;
    return goes_on(&left, word, lowest) ? 1 : -1;
}
