/* What the examples share: a folder's class files, its main class and its input, read whole. */
#include <dirent.h>
#include <stdint.h>
#include <stdio.h>
#include <stdlib.h>
#include <string.h>

#include "jvhost.h"

#define MOST_FILES 1024

struct folder {
    char *names[MOST_FILES];
    jvhost_bytes files[MOST_FILES];
    size_t count;
    char main[1024];
    jvhost_bytes input;
};

/* A file's bytes; none where it can't be read. */
static inline jvhost_bytes file_bytes(const char *folder, const char *name) {
    char path[4096];
    snprintf(path, sizeof path, "%s/%s", folder, name);
    FILE *file = fopen(path, "rb");
    uint8_t *bytes = NULL;
    size_t length = 0, room = 0, got = 1;
    while (file != NULL && got != 0) {
        if (length == room) {
            uint8_t *more = (uint8_t *)realloc(bytes, room = room * 2 + 4096);
            if (more == NULL)
                break;
            bytes = more;
        }
        got = fread(bytes + length, 1, room - length, file);
        length += got;
    }
    if (file != NULL)
        fclose(file);
    return jvhost_bytes_of(bytes, length);
}

static inline int by_name(const void *one, const void *other) {
    return strcmp(*(char *const *)one, *(char *const *)other);
}

/* Reads a folder: its class files in the order of their names. */
static inline void read_folder(const char *path, struct folder *folder) {
    memset(folder, 0, sizeof *folder);
    DIR *listing = opendir(path);
    struct dirent *entry;
    while (listing != NULL && folder->count < MOST_FILES && (entry = readdir(listing)) != NULL) {
        size_t length = strlen(entry->d_name);
        if (length > 6 && strcmp(entry->d_name + length - 6, ".class") == 0) {
            char *name = (char *)malloc(length + 1);
            if (name != NULL)
                folder->names[folder->count++] = (char *)memcpy(name, entry->d_name, length + 1);
        }
    }
    if (listing != NULL)
        closedir(listing);
    qsort(folder->names, folder->count, sizeof *folder->names, by_name);
    for (size_t i = 0; i < folder->count; i++)
        folder->files[i] = file_bytes(path, folder->names[i]);
    jvhost_bytes name = file_bytes(path, "main");
    size_t length = name.length < sizeof folder->main - 1 ? name.length : sizeof folder->main - 1;
    while (length > 0 && (name.bytes[length - 1] == '\n' || name.bytes[length - 1] == '\r'))
        length--;
    memcpy(folder->main, name.bytes, length);
    free(name.bytes == jvhost_nothing ? NULL : (void *)name.bytes);
    folder->input = file_bytes(path, "input");
}

static inline void free_folder(struct folder *folder) {
    for (size_t i = 0; i < folder->count; i++) {
        free(folder->names[i]);
        free(folder->files[i].bytes == jvhost_nothing ? NULL : (void *)folder->files[i].bytes);
    }
    free(folder->input.bytes == jvhost_nothing ? NULL : (void *)folder->input.bytes);
}

/* Says what a call answered, and ends the program where that is not JVHOST_OK. */
static inline void want_ok(const char *call, uint32_t code) {
    if (code != JVHOST_OK) {
        fprintf(stderr, "%s: %s\n", call, jvhost_code_text(code));
        exit(1);
    }
}
