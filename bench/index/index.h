/* Texts, and the lines of a list, for index.c and expat.c. */
#ifndef INDEX_H
#define INDEX_H

#include <stddef.h>
#include <stdint.h>

struct text {
    char *bytes;
    size_t size;
};

/* A line of the list, and what was found for it: how many files, and from where to where the last of them lies. */
struct line {
    const char *path;
    uint64_t files, start, end;
};

/* The different lines in the order of their paths, and how many lines the list has. */
struct lines {
    struct line *rows;
    size_t count, listed;
};

void fail(const char *what);
int compare_lines(const void *one, const void *other);

/* The number of files in the index. Each line has its files then. */
uint64_t files_by_expat(struct text index, struct lines *lines);

#endif
