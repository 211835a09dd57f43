/* calls.h: what the programs in C that try the panel's calls share. */
#ifndef CALLS_H
#define CALLS_H

#include <stdio.h>
#include <stdlib.h>
#include <string.h>

#include "cavundir.h"

enum { NET, MOD, STIM, FILES };
enum { PANEL, PROGRAM, MEMORY, BUFFERS };

static const char *const file_names[FILES] = {"NET", "MOD", "STIM"};
static const char *const buffer_names[BUFFERS] = {"panel", "program", "memory"};
static const size_t lengths[BUFFERS] = {CAVUNDIR_PANEL_BYTES, CAVUNDIR_PROGRAM_BYTES, CAVUNDIR_MEMORY_BYTES};

struct bytes {
    uint8_t *at;
    size_t length;
};

struct call {
    const char *line; /* as CALLS has it, for messages */
    bool wrong;       /* `!`: a buffer of a wrong length is lent */
    char name[8];
    uint32_t numbers[3];
};

/* A block of exactly that length, so that a tool that watches memory sees every step beyond it. */
static struct bytes block(size_t length)
{
    struct bytes made = {malloc(length ? length : 1), length};
    if (!made.at) {
        perror("malloc");
        exit(2);
    }
    return made;
}

/* A file's bytes; none, at a null pointer, where it is absent. */
static struct bytes read_file(const char *folder, const char *name)
{
    char path[4096];
    snprintf(path, sizeof path, "%s/%s", folder, name);
    FILE *file = fopen(path, "rb");
    if (!file)
        return (struct bytes){NULL, 0};
    fseek(file, 0, SEEK_END);
    struct bytes bytes = block((size_t)ftell(file));
    rewind(file);
    if (fread(bytes.at, 1, bytes.length, file) != bytes.length) {
        perror(path);
        exit(2);
    }
    fclose(file);
    return bytes;
}

static uint64_t make(const struct call *call, const struct bytes files[FILES], const struct bytes lent[BUFFERS])
{
    const struct bytes p = lent[PANEL], g = lent[PROGRAM], m = lent[MEMORY];
    const uint32_t *numbers = call->numbers;
    if (!strcmp(call->name, "open"))
        return cavundir_open(files[NET].at, files[NET].length, files[MOD].at, files[MOD].length, files[STIM].at,
                             files[STIM].length, p.at, p.length, g.at, g.length, m.at, m.length);
    if (!strcmp(call->name, "set"))
        return cavundir_set(p.at, p.length, g.at, g.length, m.at, m.length, numbers[0], numbers[1]);
    if (!strcmp(call->name, "watch"))
        return cavundir_watch(p.at, p.length, g.at, g.length, m.at, m.length, numbers[0], numbers[1]);
    if (!strcmp(call->name, "read"))
        return cavundir_read(p.at, p.length, g.at, g.length, m.at, m.length, numbers[0]);
    return cavundir_run(p.at, p.length, g.at, g.length, m.at, m.length, numbers[0]);
}

/* Whether a call that was not refused may write to a buffer. */
static bool writes(const struct call *call, int buffer)
{
    if (!strcmp(call->name, "open"))
        return true;
    if (!strcmp(call->name, "run"))
        return buffer != PROGRAM;
    return strcmp(call->name, "read") && buffer == PANEL;
}

#endif
