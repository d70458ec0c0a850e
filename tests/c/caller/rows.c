/* Rows in mapped memory: each ends so many bytes before a page that cannot be touched, and what stands around it is a pattern. */
#define _DEFAULT_SOURCE
#include <string.h>
#include <sys/mman.h>
#include "caller.h"

#ifdef __SANITIZE_ADDRESS__
#include <sanitizer/asan_interface.h> /* the sanitizer then stops at a read of the pattern too */
#else
#define ASAN_POISON_MEMORY_REGION(at, bytes) ((void)(at))
#define ASAN_UNPOISON_MEMORY_REGION(at, bytes) ((void)(at))
#endif

enum { FRONT = 64, PATTERN = 0xA5 };

static void keep(struct argument *row, size_t bytes)
{
    size_t size = (bytes + PAGE - 1) / PAGE * PAGE;
    if (size <= row->size)
        return;
    if (row->size > 0)
        munmap(row->memory, row->size + PAGE);
    void *memory = mmap(NULL, size + PAGE, PROT_READ | PROT_WRITE, MAP_PRIVATE | MAP_ANONYMOUS, -1, 0);
    if (memory == MAP_FAILED || mprotect((unsigned char *)memory + size, PAGE, PROT_NONE) != 0)
        give_up("no memory for a row");
    row->memory = memory;
    row->size = size;
}

void lay(struct argument *row)
{
    keep(row, FRONT + row->bytes + row->behind);
    row->row = row->memory + row->size - row->behind - row->bytes;
    memset(row->row - FRONT, PATTERN, FRONT);
    if (row->before == NULL)
        memset(row->row, row->fill, row->bytes);
    else
        memcpy(row->row, row->before, row->bytes);
    memset(row->row + row->bytes, PATTERN, row->behind);
    ASAN_POISON_MEMORY_REGION(row->row + row->bytes, row->behind);
    ASAN_POISON_MEMORY_REGION(row->row - FRONT, FRONT);
}

static bool is_all(const unsigned char *at, size_t bytes, unsigned char value)
{
    return bytes == 0 || (at[0] == value && memcmp(at, at + 1, bytes - 1) == 0);
}

bool is_whole(struct argument *row)
{
    ASAN_UNPOISON_MEMORY_REGION(row->row - FRONT, FRONT + row->bytes + row->behind);
    return is_all(row->row - FRONT, FRONT, PATTERN) && is_all(row->row + row->bytes, row->behind, PATTERN);
}

bool is_as_before(const struct argument *row)
{
    return row->before == NULL ? is_all(row->row, row->bytes, row->fill) : memcmp(row->row, row->before, row->bytes) == 0;
}

bool was_at(const struct argument *row, size_t at)
{
    return row->row[at] == (row->before == NULL ? row->fill : row->before[at]);
}
