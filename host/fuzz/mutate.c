/* Changes to inputs that keep most calls as they are. */
#include "input.h"

#include <string.h>

size_t LLVMFuzzerMutate(uint8_t *data, size_t size, size_t most);
size_t LLVMFuzzerCustomMutator(uint8_t *data, size_t size, size_t most,
                               unsigned seed);

static unsigned draw(unsigned *seed, size_t bound)
{
    *seed = *seed * 1103515245 + 12345;
    return (*seed >> 8) % (unsigned)bound;
}

/* Puts a record in: a copy of another one, or an opening's. */
static size_t insert(uint8_t *data, size_t size, size_t records, unsigned *seed)
{
    uint8_t record[RECORD] = {1, 0, 0, 1, 1};
    uint8_t *at = data + 1 + RECORD * draw(seed, records + 1);
    if (records > 0)
        memcpy(record, data + 1 + RECORD * draw(seed, records), RECORD);
    memmove(at + RECORD, at, size - (size_t)(at - data));
    memcpy(at, record, RECORD);
    data[0]++;
    return size + RECORD;
}

static size_t take_out(uint8_t *data, size_t size, size_t records, unsigned *seed)
{
    uint8_t *at = data + 1 + RECORD * draw(seed, records);
    size_t rest = size - (size_t)(at - data) - RECORD;
    memmove(at, at + RECORD, rest);
    data[0]--;
    return size - RECORD;
}

/* Another value for a byte of a record: its kind, lending or a number. */
static void alter(uint8_t *data, size_t records, unsigned *seed)
{
    uint8_t *record = data + 1 + RECORD * draw(seed, records);
    unsigned at = draw(seed, RECORD);
    unsigned step = draw(seed, 3);
    record[at] = (uint8_t)(step < 2 ? record[at] + 2 * step - 1 : draw(seed, 256));
}

size_t LLVMFuzzerCustomMutator(uint8_t *data, size_t size, size_t most,
                               unsigned seed)
{
    size_t records = whole_records(data, size);
    size_t start = 1 + RECORD * records;
    unsigned way = draw(&seed, 10);
    if (size < start || way == 0)
        return LLVMFuzzerMutate(data, size, most);
    data[0] = (uint8_t)records;
    if (way < 3)
        return start + LLVMFuzzerMutate(data + start, size - start, most - start);
    if (way < 6 && records < 255 && size + RECORD <= most)
        size = insert(data, size, records, &seed);
    else if (way == 6 && records > 0)
        size = take_out(data, size, records, &seed);
    for (unsigned more = 0; way > 3 && data[0] > 0 && more < way - 3; more++)
        alter(data, data[0], &seed);
    return size;
}
