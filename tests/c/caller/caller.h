/* An argument of a call, and the memory in which a row is lent. */
#ifndef CALLER_H
#define CALLER_H

#include <stdbool.h>
#include <stddef.h>
#include <stdint.h>

enum { ARGUMENTS = 14 }; /* the most that a call has; a row and its length are one */
enum { PAGE = 4096 };    /* bytes that cannot be touched behind the memory of a row */

struct argument {
    uint64_t number;             /* of an argument that is a number */
    unsigned char *row;          /* of one that is a row: where it is lent; else null */
    size_t bytes, behind;        /* its length; how many bytes lie between its end and the page that cannot be touched */
    const unsigned char *before; /* what it held before the call, or null where every byte was `fill` */
    unsigned char fill;
    unsigned char *memory; /* kept from call to call: `size` bytes, and that page */
    size_t size;
};

extern struct argument given[ARGUMENTS];

/* Ends the program, with a reason. */
void give_up(const char *reason);

/* rows.c: a row laid for the call by its length, what is behind it and what it holds; whether what stands around it is as it was; whether the row is. */
void lay(struct argument *row);
bool is_whole(struct argument *row);
bool is_as_before(const struct argument *row);
bool was_at(const struct argument *row, size_t at);

/* calls.c: the call of a name of eight bytes, filled with zeros; how many arguments it has; how it is made with those that are given. */
struct call {
    const char *name;
    size_t arguments;
    uint64_t (*make)(void);
};
const struct call *call_named(const char name[8]);

#endif
