/* Sets of scopes: words of 64 bits, the low word first. Scope n, from 1 to
   MOST_SCOPES, is bit (n-1) % 64 of word (n-1) / 64. */
#ifndef SCOPE_SET_H
#define SCOPE_SET_H

#include <stdbool.h>
#include <stdint.h>

#include "limits.h"

enum { WORD_BITS = 64, SET_WORDS = MOST_SCOPES / WORD_BITS };

typedef struct {
    uint64_t words[SET_WORDS];
} ScopeSet;

static const ScopeSet NO_SCOPES = {{0}};

ScopeSet only_scope(uint32_t scope);
void put_scope(ScopeSet *set, uint32_t scope);
uint32_t count_scopes(ScopeSet set);

/* The order of document 01: by the ascending lists of scopes, a proper prefix
   first. Negative, zero or positive, as memcmp. */
int compare_sets(ScopeSet left, ScopeSet right);

/* Word by word, and in line, since expanding and resolving do little else. */

static inline ScopeSet add_scopes(ScopeSet set, ScopeSet scopes)
{
    for (int i = 0; i < SET_WORDS; i++)
        set.words[i] |= scopes.words[i];
    return set;
}

static inline ScopeSet flip_scopes(ScopeSet set, ScopeSet scopes)
{
    for (int i = 0; i < SET_WORDS; i++)
        set.words[i] ^= scopes.words[i];
    return set;
}

static inline ScopeSet prune_scopes(ScopeSet set, ScopeSet scopes)
{
    for (int i = 0; i < SET_WORDS; i++)
        set.words[i] &= ~scopes.words[i];
    return set;
}

static inline bool is_contained(ScopeSet inner, ScopeSet outer)
{
    for (int i = 0; i < SET_WORDS; i++)
        if ((inner.words[i] & ~outer.words[i]) != 0)
            return false;
    return true;
}

static inline bool same_sets(ScopeSet left, ScopeSet right)
{
    for (int i = 0; i < SET_WORDS; i++)
        if (left.words[i] != right.words[i])
            return false;
    return true;
}

#endif
