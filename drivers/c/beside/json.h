/* JSON, as far as the file beside the log has it. */
#ifndef JSON_H
#define JSON_H
#include <stdbool.h>
#include <stddef.h>
#include <stdio.h>

/* Skips white space, and this character if it comes next: whether it did. */
bool is_next(const char **at, char it);
/* Reads a string, of which what has room is kept. False if there is none. */
bool read_string(const char **at, char *to, size_t room);
/* Reads a whole number that a long holds. */
bool read_number(const char **at, long *to);
/* Skips whatever value comes next. False if it is nested more than 32 deep. */
bool skip_value(const char **at);
/* Reads an object, whose members the function reads by their names. */
bool read_object(const char **at, bool (*read)(const char *name, const char **at, void *to), void *to);
void write_string(FILE *to, const char *text);
#endif
