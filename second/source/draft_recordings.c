/* Drafts of recordings: most of them good for a program whose driven points are
   given, some with one fault or with a driven point that changes. */
#include <string.h>

#include "chance.h"
#include "drafts.h"

/* What is to be had of the draft at hand. */
static const bool *driven;
static bool may_change_driven;
static uint32_t until_longer; /* numbers before one in a longer form; 0 where none is */
static uint32_t until_odd;    /* changes before one that breaks a rule; 0 where none does */
static Draft *made;

static bool is_due(uint32_t *until)
{
    return *until > 0 && --*until == 0;
}

/* ---- numbers ---- */

static void put_byte(uint32_t byte)
{
    if (made->length < DRAFT_ROOM)
        made->bytes[made->length++] = (uint8_t)byte;
}

static void put_number(uint32_t number)
{
    bool longer = is_due(&until_longer);
    for (; number > 127; number >>= 7)
        put_byte(128 | (number & 127));
    put_byte(longer ? 128 | number : number);
    if (longer)
        put_byte(0);
}

/* A count, or one beside it where a rule is due to be broken. */
static void put_count(uint32_t count)
{
    bool odd = percent(20) && is_due(&until_odd);
    put_number(odd ? count + (percent(50) && count > 0 ? UINT32_MAX : 1) : count);
}

/* ---- changes ---- */

static void put_odd_change(uint32_t point, uint32_t before)
{
    uint32_t value = below(2);
    switch (below(4)) {
    case 0:
        point += (LARGEST_POINT + 1) * between(1, 3);
        break;
    case 1:
        value = percent(60) ? 2 : between(2, 300);
        break;
    case 2: /* the one before again, or point 0 */
        point = before;
        break;
    default:
        point = below(before + 1);
        break;
    }
    put_number(point);
    put_number(value);
}

static void put_change(uint32_t point, uint32_t before)
{
    if (is_due(&until_odd)) {
        put_odd_change(point, before);
        return;
    }
    put_number(point);
    put_number(below(2));
}

static void put_changes(const bool chosen[LARGEST_POINT + 1], uint32_t count)
{
    uint32_t before = 0;
    put_count(count);
    for (uint32_t point = 0; point <= LARGEST_POINT; point++)
        if (chosen[point]) {
            put_change(point, before);
            before = point;
        }
}

/* A driven point, if there is one, now and then in drafts that may have it. */
static uint32_t any_point(void)
{
    uint32_t point = percent(85) ? below(10) : below(LARGEST_POINT + 1);
    if (may_change_driven && percent(15))
        for (uint32_t i = 0; !driven[point] && i <= LARGEST_POINT; i++)
            point = (point + 1) % (LARGEST_POINT + 1);
    return point;
}

/* A scan in which about so many points change. */
static void put_scan(uint32_t tries)
{
    bool chosen[LARGEST_POINT + 1] = {false};
    uint32_t count = 0;
    for (; tries > 0; tries--) {
        uint32_t point = any_point();
        if (chosen[point] || (driven[point] && !may_change_driven))
            continue;
        chosen[point] = true;
        count++;
    }
    put_changes(chosen, count);
}

/* ---- recordings ---- */

static void put_scans(uint32_t scans, uint32_t most_tries)
{
    put_count(scans);
    for (; scans > 0; scans--)
        put_scan(percent(25) ? 0 : below(most_tries + 1));
}

/* Of about the largest length: scans of a byte, or of three with a point that
   nothing drives. They are so many that their count takes three bytes. */
static void put_longest(void)
{
    size_t length = LONGEST_RECORDING + below(3) - 1;
    uint32_t scans = 0, point = 0;
    while (point < 127 && driven[point])
        point++;
    for (made->length = 3; made->length < length; scans++) {
        bool changes = made->length + 3 <= length && percent(60);
        put_byte(changes);
        if (changes) {
            put_byte(point);
            put_byte(below(2));
        }
    }
    made->bytes[0] = (uint8_t)(128 | (scans & 127));
    made->bytes[1] = (uint8_t)(128 | (scans >> 7 & 127));
    made->bytes[2] = (uint8_t)(scans >> 14);
}

static void put_any(bool is_small)
{
    uint32_t choice = below(1000);
    if (choice < 40)
        put_scans(0, 0);
    else if (choice < 650 || is_small)
        put_scans(between(1, 8), 4);
    else if (choice < 850)
        put_scans(between(4, 40), 3);
    else if (choice < 920)
        put_scans(between(1, 4), 200);
    else if (choice < 980)
        put_scans(between(40, 140), 1);
    else if (choice < 997)
        put_scans(between(140, 1200), 2);
    else
        put_longest();
}

/* The end comes too early, or too late. */
static void move_end(void)
{
    if (percent(50))
        made->length = below((uint32_t)made->length);
    else
        put_byte(percent(70) ? 0 : below(256));
}

void draft_recording(const bool driven_points[], bool is_small, Draft *draft)
{
    uint32_t fault = below(100);
    driven = driven_points;
    made = draft;
    made->length = 0;
    may_change_driven = fault < 10;
    until_longer = fault >= 10 && fault < 14 ? between(1, percent(70) ? 6 : 30) : 0;
    until_odd = fault >= 14 && fault < 24 ? between(1, percent(70) ? 4 : 20) : 0;
    put_any(is_small);
    if (fault >= 24 && fault < 29)
        move_end();
}
