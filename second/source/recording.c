/* Reading a recording. Every fault has the same code, so the first one met ends
   the reading, whichever it is. */
#include "recording.h"

typedef struct {
    const uint8_t *bytes;
    size_t length;
    size_t place;
    Memory *memory;
} Reader;

/* In the shortest form and at most limit. */
static bool read_number(Reader *reader, uint32_t limit, uint32_t *number)
{
    uint64_t value = 0;
    for (int group = 0; group < 5; group++) {
        if (reader->place == reader->length)
            return false;
        uint8_t byte = reader->bytes[reader->place++];
        value |= (uint64_t)(byte & 127) << (7 * group);
        if (byte < 128) {
            *number = (uint32_t)value;
            return value <= limit && (byte != 0 || group == 0);
        }
    }
    return false;
}

/* A count of things that take so many bytes each at least: where the bytes left
   are fewer, the recording ends before the last of them. */
static bool read_count(Reader *reader, size_t bytes_each, uint32_t *count)
{
    return read_number(reader, UINT32_MAX, count) &&
           *count <= (reader->length - reader->place) / bytes_each;
}

static bool read_change(Reader *reader, Change *change)
{
    uint32_t value;
    if (!read_number(reader, LARGEST_POINT, &change->point) || !read_number(reader, 1, &value))
        return false;
    change->value = value == 1;
    return true;
}

static bool read_scan(Reader *reader, Scan *scan)
{
    if (!read_count(reader, 2, &scan->count))
        return false;
    Change *changes = take_memory(reader->memory, scan->count * sizeof(Change));
    for (uint32_t i = 0; i < scan->count; i++) {
        if (!read_change(reader, &changes[i]))
            return false;
        if (i > 0 && changes[i].point <= changes[i - 1].point)
            return false;
    }
    scan->changes = changes;
    return true;
}

static bool read_scans(Reader *reader, Recording *recording)
{
    if (!read_count(reader, 1, &recording->count))
        return false;
    Scan *scans = take_memory(reader->memory, recording->count * sizeof(Scan));
    for (uint32_t i = 0; i < recording->count; i++)
        if (!read_scan(reader, &scans[i]))
            return false;
    recording->scans = scans;
    return reader->place == reader->length;
}

Code read_recording(Memory *memory, const uint8_t *bytes, size_t length, Recording *recording)
{
    Reader reader = {.bytes = bytes, .length = length, .memory = memory};
    if (length > LONGEST_RECORDING || !read_scans(&reader, recording))
        return BAD_RECORDING;
    return SUCCESS;
}

static bool scan_changes_driven(const Scan *scan, const bool driven[POINTS])
{
    for (uint32_t i = 0; i < scan->count; i++)
        if (driven[scan->changes[i].point])
            return true;
    return false;
}

bool changes_driven(const Recording *recording, const bool driven[POINTS])
{
    for (uint32_t i = 0; i < recording->count; i++)
        if (scan_changes_driven(&recording->scans[i], driven))
            return true;
    return false;
}
