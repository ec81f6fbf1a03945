/* Breaking a draft: bits flipped, cut, spliced, sections doubled, numbers put in. */
#include <string.h>

#include "chance.h"
#include "drafts.h"

static void insert_bytes(Draft *draft, size_t place, const uint8_t *bytes, size_t count)
{
    if (draft->length + count > DRAFT_ROOM)
        return;
    memmove(draft->bytes + place + count, draft->bytes + place, draft->length - place);
    memmove(draft->bytes + place, bytes, count);
    draft->length += count;
}

static void remove_bytes(Draft *draft, size_t place, size_t count)
{
    memmove(draft->bytes + place, draft->bytes + place + count, draft->length - place - count);
    draft->length -= count;
}

static size_t any_place(const Draft *draft)
{
    return percent(30) ? below((uint32_t)(draft->length < 12 ? draft->length : 12))
                       : below((uint32_t)draft->length);
}

/* Numbers that are hard to read: longer than needed, or over the limit. */
static void lengthen_number(Draft *draft, size_t place)
{
    static const uint8_t hard[][6] = {
        {1, 0x00},
        {1, 0x01},
        {2, 0x80, 0x00},
        {2, 0x80, 0x01},
        {3, 0x80, 0x80, 0x00},
        {4, 0x80, 0x80, 0x80, 0x00},
        {4, 0x80, 0x80, 0x80, 0x0f},
        {4, 0x80, 0x80, 0x80, 0x10},
        {4, 0xff, 0xff, 0xff, 0x0f},
        {4, 0xff, 0xff, 0xff, 0x8f},
        {5, 0xff, 0xff, 0xff, 0x8f, 0x00},
    };
    const uint8_t *chosen = hard[below(sizeof hard / sizeof hard[0])];
    draft->bytes[place] |= 128;
    insert_bytes(draft, place + 1, chosen + 1, chosen[0]);
}

/* A number at a limit, or where two groups begin, or beside it takes the place
   of a byte. */
static void put_limit(Draft *draft, size_t place)
{
    static const uint32_t limits[] = {
        MOST_NESTING, 128, MOST_SCOPES, MOST_BINDINGS, MOST_NAMES - CORE_NAMES, MOST_NAMES,
    };
    uint32_t number = limits[below(sizeof limits / sizeof limits[0])] + below(3) - 1;
    uint8_t high = (uint8_t)(number >> 7); /* none takes more than two groups */
    draft->bytes[place] = (uint8_t)(number & 127);
    if (high != 0) {
        draft->bytes[place] |= 128;
        insert_bytes(draft, place + 1, &high, 1);
    }
}

void damage_draft(Draft *draft, const Draft *other)
{
    for (uint32_t times = percent(70) ? 1 : between(1, 4); times > 0; times--) {
        if (draft->length == 0)
            return;
        size_t place = any_place(draft);
        size_t left = draft->length - place;
        uint32_t run = 1 + below((uint32_t)(left < 12 ? left : 12));
        static const uint8_t telling[] = {0, 1, 2, 3, 4, 5, 6, 7, 15, 16, 31, 32, 33, 35,
                                          39, 40, 48, 64, 65, 126, 127, 128, 255};
        switch (below(10)) {
        case 0:
        case 1:
            draft->bytes[place] ^= (uint8_t)(1u << below(8));
            break;
        case 2:
            draft->length = place;
            break;
        case 3: /* spliced with another image */
            if (other->length > 0) {
                size_t from = below((uint32_t)other->length);
                size_t count = other->length - from;
                draft->length = place;
                insert_bytes(draft, place, other->bytes + from, count);
            }
            break;
        case 4: { /* a section doubled */
            uint8_t copy[16];
            memcpy(copy, draft->bytes + place, run);
            insert_bytes(draft, place, copy, run);
            break;
        }
        case 5:
            remove_bytes(draft, place, run);
            break;
        case 6:
            lengthen_number(draft, place);
            break;
        case 7:
            draft->bytes[place] = telling[below(sizeof telling)];
            break;
        case 8:
            put_limit(draft, place);
            break;
        default:
            draft->bytes[place] = (uint8_t)(draft->bytes[place] + (percent(50) ? 1 : 255));
            break;
        }
    }
}
