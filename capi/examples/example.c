/* Reads the folder of a store: the version that its edits make, a value in a table, and what a compaction of its two tables would write.
 *
 *     printf 'put a 1\nput b 2\nflush\nput a 3\ndel b\nflush\n' | luddimpa store --dir FOLDER
 *     example FOLDER
 *
 * prints
 *
 *     version 3: 2 files, flushed 4
 *     a in table 1: 1
 *     a in the merged table: 3
 *     b in the merged table: absent
 */
#include "luddimpa.h"

#include <stdio.h>
#include <stdlib.h>
#include <string.h>

enum { FRAME = 16, MOST = 1 << 16 };

struct bytes {
    size_t length;
    uint8_t at[MOST];
};

static void fail(const char *what, uint64_t status) {
    fprintf(stderr, "%s: %llu\n", what, (unsigned long long)status);
    exit(1);
}

static uint32_t number(const uint8_t *at) {
    return (uint32_t)at[0] << 24 | (uint32_t)at[1] << 16 | (uint32_t)at[2] << 8 | at[3];
}

static void put(struct bytes *out, const void *from, size_t length) {
    if (length > MOST - out->length) fail("too many bytes for the example", length);
    memcpy(out->at + out->length, from, length);
    out->length += length;
}

/* Appends a number of so many bytes, big-endian. */
static void put_number(struct bytes *out, uint64_t value, int width) {
    while (width--) put(out, &(uint8_t){(uint8_t)(value >> 8 * width)}, 1);
}

static void read_file(struct bytes *out, const char *folder, const char *name) {
    char path[4096];
    snprintf(path, sizeof path, "%s/%s", folder, name);
    FILE *file = fopen(path, "rb");
    if (!file) fail(path, 0);
    out->length = fread(out->at, 1, MOST, file);
    fclose(file);
}

/* The edits of a store, each behind its length: their file has each in a frame, whose 16 bytes begin with the length. */
static void read_edits(struct bytes *edits, const char *folder) {
    static struct bytes file;
    read_file(&file, folder, "edits");
    for (size_t at = 0; at < file.length;) {
        if (file.length - at < FRAME || file.length - at - FRAME < number(file.at + at)) fail("edits: cut short at", at);
        uint32_t length = number(file.at + at);
        put_number(edits, length, 4);
        put(edits, file.at + at + FRAME, length);
        at += FRAME + length;
    }
}

/* A table of a store: its file is one frame. */
static void read_table(struct bytes *table, const char *folder, const char *name) {
    read_file(table, folder, name);
    if (table->length < FRAME) fail(name, table->length);
    table->length -= FRAME;
    memmove(table->at, table->at + FRAME, table->length);
}

static void show(const char *where, const uint8_t *table, size_t length, const char *key) {
    uint8_t value[64];
    struct luddimpa_found found = luddimpa_table_get(table, length, (const uint8_t *)key, strlen(key), LUDDIMPA_LATEST, value, sizeof value);
    if (found.status == LUDDIMPA_OK)
        printf("%s in %s: %.*s\n", key, where, (int)found.length, value);
    else if (found.status == LUDDIMPA_DELETED || found.status == LUDDIMPA_ABSENT)
        printf("%s in %s: absent\n", key, where);
    else
        fail(where, found.status);
}

/* The record of a table of level 0, whose keys are a and b. */
static void put_input(struct bytes *job, uint64_t file, const struct bytes *table) {
    struct luddimpa_checked_table checked = luddimpa_table_check(table->at, table->length);
    if (checked.status != LUDDIMPA_OK) fail("table", checked.fault);
    put_number(job, file, 8);
    put_number(job, 0, 1);             /* the level */
    put(job, "\0\1a\0\1b", 6);         /* the smallest key and the largest one */
    put_number(job, table->length, 4);
    put_number(job, checked.entries, 4);
}

int main(int count, char **words) {
    static struct bytes edits, tables[2], job, list, result;
    if (count != 2) fail("usage: example FOLDER", (uint64_t)count);

    read_edits(&edits, words[1]);
    struct luddimpa_checked_edits version = luddimpa_edits_check(edits.at, edits.length);
    if (version.status != LUDDIMPA_OK) fail("edits", version.status);
    printf("version %llu: %zu files, flushed %llu\n", (unsigned long long)version.number, version.files, (unsigned long long)version.flushed);

    read_table(&tables[0], words[1], "00000000000000000001.table");
    read_table(&tables[1], words[1], "00000000000000000002.table");
    show("table 1", tables[0].at, tables[0].length, "a");

    put(&job, "LSMM\1\1\0\0\1\1", 10); /* a job, from the coordinator to worker 1 */
    put_number(&job, 1, 8);            /* its epoch and its number */
    put_number(&job, 1, 8);
    put_number(&job, 0, 1);            /* from level 0 to level 1 */
    put_number(&job, 4096, 4);         /* the block target */
    put_number(&job, 0, 1);            /* no snapshots */
    put_number(&job, 2, 2);            /* two inputs */
    put_input(&job, 1, &tables[0]);
    put_input(&job, 2, &tables[1]);
    put_number(&job, 0, 4);            /* no keys in deeper levels */
    for (int i = 0; i < 2; i++) {
        put_number(&list, tables[i].length, 4);
        put(&list, tables[i].at, tables[i].length);
    }
    struct luddimpa_merged_job merged = luddimpa_merge(job.at, job.length, list.at, list.length, result.at, MOST);
    if (merged.status != LUDDIMPA_OK) fail("merge", merged.status);
    result.length = merged.length;

    /* The result: ten bytes as above, the job's name, the count of tables, and each behind its length. */
    if (result.length < 34 || number(result.at + 26) != 1 || result.length - 34 != number(result.at + 30)) fail("result", result.length);
    show("the merged table", result.at + 34, result.length - 34, "a");
    show("the merged table", result.at + 34, result.length - 34, "b");
    return 0;
}
