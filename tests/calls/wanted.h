/* What the programs that call the library have in common: a fact that has to hold, and the files of the examples. */
#ifndef WANTED_H
#define WANTED_H

#include <stdint.h>
#include <stdio.h>
#include <stdlib.h>
#include <string.h>

#define WANT(fact) ((fact) ? (void)0 : wrong(#fact, __LINE__))
#define OF(it) (it).bytes, (it).length
#define TEXT(text) (const uint8_t *)(text), sizeof(text) - 1
#define ROOM room, sizeof room, &length

struct file { uint8_t *bytes; size_t length; };

static inline void wrong(const char *fact, int line)
{
    fprintf(stderr, "line %d: %s\n", line, fact);
    exit(1);
}

static inline struct file contents(const char *folder, const char *name)
{
    char path[4096];
    struct file read;
    snprintf(path, sizeof path, "%s/%s", folder, name);
    FILE *file = fopen(path, "rb");
    WANT(file && !fseek(file, 0, SEEK_END));
    read.length = ftell(file);
    rewind(file);
    /* as many bytes as the file has: a sanitizer sees a read behind them */
    read.bytes = (uint8_t *)malloc(read.length);
    WANT(fread(read.bytes, 1, read.length, file) == read.length);
    fclose(file);
    return read;
}

static inline int says(const uint8_t *room, size_t length, const char *text)
{
    return length == strlen(text) && !memcmp(room, text, length);
}

#endif
