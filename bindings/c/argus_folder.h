/* argus over a folder: the store of guardian N is the file gN.json. For POSIX systems.
 *
 * A step is made by argus_*, and then argus_keep writes what it changed. Rely on an answer only after that. One world at a
 * time has a folder. If argus_keep fails, close the world, and reopen the folder. */
#ifndef ARGUS_FOLDER_H
#define ARGUS_FOLDER_H
#include "argus.h"
#include <fcntl.h>
#include <stdio.h>
#include <stdlib.h>
#include <unistd.h>

enum { ARGUS_FILES = 10 /* a file failed, or one is there that is to be made; not kept in the world */ };

static inline int argus_path_(char path[4096], const char *folder, uint32_t guardian, const char *ending) {
    int n = snprintf(path, 4096, "%s/g%lu.json%s", folder, (unsigned long)guardian, ending);
    return n > 0 && n < 4096;
}

static inline int argus_synced_(int file) {
    int done = file >= 0 && fsync(file) == 0;
    return (file < 0 || close(file) == 0) && done;
}

/* Puts the text in place of the file: a stop leaves the old file or the new one. */
static inline int argus_write_(const char *folder, uint32_t guardian, const unsigned char *text, size_t n) {
    char path[4096], made[4096];
    if (!argus_path_(path, folder, guardian, "") || !argus_path_(made, folder, guardian, ".new")) return 0;
    int file = open(made, O_WRONLY | O_CREAT | O_TRUNC, 0644);
    for (size_t done = 0; file >= 0 && done < n;) {
        ssize_t more = write(file, text + done, n - done);
        if (more < 0) return close(file), 0;
        done += (size_t)more;
    }
    return argus_synced_(file) && rename(made, path) == 0 && argus_synced_(open(folder, O_RDONLY | O_DIRECTORY));
}

/* Writes each store that may have changed. */
static inline uint32_t argus_keep(argus_world *w, const char *folder) {
    uint32_t guardian, code;
    while ((code = argus_changed(w, &guardian)) == ARGUS_DONE) {
        size_t len = 0;
        code = argus_store(w, guardian, NULL, 0, &len);
        unsigned char *text = code == ARGUS_SMALL ? malloc(len) : NULL;
        if (!text) return code == ARGUS_SMALL ? ARGUS_MEMORY : code;
        code = argus_store(w, guardian, text, len, &len);
        if (code == ARGUS_DONE) code = argus_write_(folder, guardian, text, len) ? argus_kept(w, guardian) : ARGUS_FILES;
        free(text);
        if (code != ARGUS_DONE) return code;
    }
    return code == ARGUS_NOTHING ? ARGUS_DONE : code;
}

/* Writes the stores of a world that was opened just now, or closes it. */
static inline uint32_t argus_opened_(argus_world *w, const char *folder, uint32_t code) {
    if (code != ARGUS_DONE) return code;
    if ((code = argus_keep(w, folder)) != ARGUS_DONE) argus_close(w);
    return code;
}

/* A new world over a folder that has no stores yet. */
static inline uint32_t argus_over(argus_world *w, const char *folder, const void *setup, size_t n) {
    char path[4096];
    if (!folder) return ARGUS_NULL;
    if (!argus_path_(path, folder, 1, "") || access(path, F_OK) == 0) return ARGUS_FILES;
    return argus_opened_(w, folder, argus_open(w, setup, n));
}

/* Adds the file to the text, with a comma if another stands before it; 0 if the file is not there, -1 if it fails. */
static inline int argus_read_(FILE *stores, const char *folder, uint32_t guardian) {
    char path[4096], some[4096];
    size_t n;
    if (!argus_path_(path, folder, guardian, "")) return -1;
    FILE *file = fopen(path, "rb");
    if (!file) return access(path, F_OK) == 0 ? -1 : 0;
    fputs(guardian == 1 ? "[" : ",", stores);
    while ((n = fread(some, 1, sizeof some, file)) > 0) fwrite(some, 1, n, stores);
    int failed = ferror(file) || ferror(stores);
    return fclose(file) == 0 && !failed ? 1 : -1;
}

/* The world of this setup, going on from the stores of the folder. */
static inline uint32_t argus_reopen_folder(argus_world *w, const char *folder, const void *setup, size_t n) {
    char *text = NULL;
    size_t len = 0;
    if (!folder) return ARGUS_NULL;
    FILE *stores = open_memstream(&text, &len);
    if (!stores) return ARGUS_MEMORY;
    uint32_t guardian = 1;
    int read;
    while ((read = argus_read_(stores, folder, guardian)) > 0) guardian++;
    if (guardian == 1) fputs("[", stores);
    fputs("]", stores);
    uint32_t code = fclose(stores) == 0 ? ARGUS_FILES : ARGUS_MEMORY;
    if (code == ARGUS_FILES && read == 0) code = argus_opened_(w, folder, argus_reopen(w, setup, n, text, len));
    free(text);
    return code;
}
#endif
