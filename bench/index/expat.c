/* The files of an LTFS index by libexpat: handlers that collect each file's path and the range of its extents, and look the path up in a list.
 * What a name stands for is expat's own affair; a directory's name stands before its contents, as the drives' software writes it. */
#include "index.h"

#include <expat.h>
#include <stdlib.h>
#include <string.h>

enum { DEEPEST = 64, LONGEST = 4096, BLOCK_SIZE = 524288 };

/* Where the parser stands. */
enum state { OUTSIDE, INDEX, DIRECTORY, CONTENTS, A_FILE, INFO, EXTENT, NAME, FIELD, OTHER };

enum { PARTITION, START_BLOCK, BYTE_OFFSET, BYTE_COUNT, FIELDS };

static const char *const field_names[FIELDS] = {"partition", "startblock", "byteoffset", "bytecount"};

struct reader {
    enum state states[DEEPEST];
    size_t path_sizes[DEEPEST]; /* how long the path was where each element began */
    int depth, field;
    char path[LONGEST], value[LONGEST];
    size_t path_size, value_size;
    uint64_t fields[FIELDS], start, end, files;
    struct lines *lines;
};

static enum state in_extent(struct reader *r, const char *name)
{
    for (int i = 0; i < FIELDS; i++)
        if (strcmp(name, field_names[i]) == 0) {
            r->field = i;
            return FIELD;
        }
    return OTHER;
}

static enum state state_in(struct reader *r, enum state around, const char *name)
{
    switch (around) {
    case OUTSIDE:
        return strcmp(name, "ltfsindex") == 0 ? INDEX : OTHER;
    case INDEX:
        return strcmp(name, "directory") == 0 ? DIRECTORY : OTHER;
    case DIRECTORY:
        return strcmp(name, "contents") == 0 ? CONTENTS : strcmp(name, "name") == 0 ? NAME : OTHER;
    case CONTENTS:
        return strcmp(name, "file") == 0 ? A_FILE : strcmp(name, "directory") == 0 ? DIRECTORY : OTHER;
    case A_FILE:
        return strcmp(name, "name") == 0 ? NAME : strcmp(name, "extentinfo") == 0 ? INFO : OTHER;
    case INFO:
        return strcmp(name, "extent") == 0 ? EXTENT : OTHER;
    case EXTENT:
        return in_extent(r, name);
    default:
        return OTHER;
    }
}

static void XMLCALL on_start(void *data, const char *name, const char **attributes)
{
    struct reader *r = data;
    (void)attributes;
    if (r->depth + 1 == DEEPEST)
        fail("the index is too deep");
    enum state state = state_in(r, r->states[r->depth], name);
    r->depth++;
    r->states[r->depth] = state;
    r->path_sizes[r->depth] = r->path_size;
    r->value_size = 0;
    if (state == A_FILE) {
        r->start = UINT64_MAX;
        r->end = 0;
    }
}

static void XMLCALL on_bytes(void *data, const char *bytes, int size)
{
    struct reader *r = data;
    enum state state = r->states[r->depth];
    if (state != NAME && state != FIELD)
        return;
    if (r->value_size + (size_t)size >= LONGEST)
        fail("a value is too long");
    memcpy(r->value + r->value_size, bytes, (size_t)size);
    r->value_size += (size_t)size;
}

/* A name goes behind those of the folders around it. The outermost folder's is the volume's, and stands in no path. */
static void end_name(struct reader *r)
{
    if (r->depth == 3)
        return;
    if (r->path_size + r->value_size + 2 >= LONGEST)
        fail("a path is too long");
    if (r->path_size > 0)
        r->path[r->path_size++] = '/';
    memcpy(r->path + r->path_size, r->value, r->value_size);
    r->path_size += r->value_size;
}

static void end_field(struct reader *r)
{
    r->value[r->value_size] = 0;
    r->fields[r->field] = r->field == PARTITION ? (uint64_t)(unsigned char)r->value[0] : (uint64_t)strtoull(r->value, NULL, 10);
}

static void end_extent(struct reader *r)
{
    uint64_t start = r->fields[START_BLOCK] * BLOCK_SIZE + r->fields[BYTE_OFFSET], end = start + r->fields[BYTE_COUNT];
    if (start < r->start)
        r->start = start;
    if (end > r->end)
        r->end = end;
}

/* All places above 2^40 count as one, as find_files says them. */
static uint64_t counted(uint64_t place)
{
    const uint64_t last = (uint64_t)1 << 40;
    return place > last ? last + 1 : place;
}

static void end_file(struct reader *r)
{
    r->path[r->path_size] = 0;
    r->files++;
    struct line wanted = {r->path, 0, 0, 0};
    struct line *found = bsearch(&wanted, r->lines->rows, r->lines->count, sizeof wanted, compare_lines);
    if (found != NULL) {
        found->files++;
        found->start = counted(r->start);
        found->end = counted(r->end);
    }
}

static void XMLCALL on_end(void *data, const char *name)
{
    struct reader *r = data;
    (void)name;
    enum state state = r->states[r->depth];
    if (state == NAME)
        end_name(r);
    if (state == FIELD)
        end_field(r);
    if (state == EXTENT)
        end_extent(r);
    if (state == A_FILE)
        end_file(r);
    if (state == A_FILE || state == DIRECTORY)
        r->path_size = r->path_sizes[r->depth];
    r->depth--;
}

uint64_t files_by_expat(struct text index, struct lines *lines)
{
    struct reader *r = calloc(1, sizeof *r);
    XML_Parser parser = XML_ParserCreate(NULL);
    if (r == NULL || parser == NULL)
        fail("no memory");
    r->lines = lines;
    XML_SetUserData(parser, r);
    XML_SetElementHandler(parser, on_start, on_end);
    XML_SetCharacterDataHandler(parser, on_bytes);
    if (XML_Parse(parser, index.bytes, (int)index.size, 1) != XML_STATUS_OK)
        fail("the index is no well-formed XML");
    uint64_t files = r->files;
    XML_ParserFree(parser);
    free(r);
    return files;
}
