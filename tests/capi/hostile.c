/* Calls each exported function with the vectors of docs/FORMATS.md, with every beginning of them, with each byte changed or left out, and with each
 * allocation failing in turn. Each run of bytes ends at a page that nobody may touch, and those that are only read can't be written; `out` lies
 * between bytes that have to stay. malloc, realloc and free are counted: a call gives back all that it took, and asks for no more than a MiB at once. */
#include "luddimpa.h"

#include <stdbool.h>
#include <stdio.h>
#include <stdlib.h>
#include <string.h>
#include <sys/mman.h>
#include <unistd.h>

enum { MOST = 16384, ROOM = 512, CANARY = 0xc5, FILL = 0x5a };

/* ---- memory that is counted, and fails when it is told to */

void *__real_malloc(size_t), *__real_realloc(void *, size_t);
void __real_free(void *);
static long held, asked, fails_at;
static size_t greatest; /* of all that was asked for at once */

static bool fails(size_t size) {
    greatest = size > greatest ? size : greatest;
    return ++asked == fails_at;
}

void *__wrap_malloc(size_t size) {
    void *at = fails(size) ? NULL : __real_malloc(size);
    held += at != NULL;
    return at;
}

void *__wrap_realloc(void *old, size_t size) {
    void *at = fails(size) ? NULL : __real_realloc(old, size);
    held += at != NULL && old == NULL;
    return at;
}

void __wrap_free(void *at) {
    held -= at != NULL;
    __real_free(at);
}

/* ---- what is found */

static int passed, failed;
static const char *wrong;

static void tell(const char *what) {
    printf(wrong ? "FAILED %s: %s\n" : "ok %s\n", what, wrong);
    *(wrong ? &failed : &passed) += 1;
    wrong = NULL;
}

static void expect(bool is, const char *otherwise) {
    if (!is && !wrong) wrong = otherwise;
}

/* ---- bytes */

struct bytes {
    size_t length;
    uint8_t at[MOST];
};

static struct bytes of(const char *hex) {
    struct bytes made = {0};
    for (; *hex; hex++) {
        if (*hex == ' ') continue;
        unsigned byte;
        sscanf(hex++, "%2x", &byte);
        made.at[made.length++] = (uint8_t)byte;
    }
    return made;
}

/* A run of pages with a page that can't be touched behind it: bytes lie right before that one. */
struct pages {
    uint8_t *at;
    size_t length;
};

static struct pages pages_of(void) {
    size_t page = (size_t)sysconf(_SC_PAGESIZE), length = (MOST + page - 1) / page * page;
    uint8_t *at = mmap(NULL, length + page, PROT_READ | PROT_WRITE, MAP_PRIVATE | MAP_ANONYMOUS, -1, 0);
    if (at == MAP_FAILED || mprotect(at + length, page, PROT_NONE)) exit(2);
    return (struct pages){at, length};
}

static const uint8_t *lent(struct pages pages, const struct bytes *bytes) {
    mprotect(pages.at, pages.length, PROT_READ | PROT_WRITE);
    memcpy(pages.at + pages.length - bytes->length, bytes->at, bytes->length);
    mprotect(pages.at, pages.length, PROT_READ);
    return pages.at + pages.length - bytes->length;
}

static struct pages first, second, third;

/* `out` of so many bytes at the end of its pages, behind bytes that have to stay. */
static uint8_t *room_of(size_t room) {
    memset(third.at, CANARY, third.length);
    return memset(third.at + third.length - room, FILL, room);
}

static bool is_all(const uint8_t *at, size_t length, uint8_t byte) {
    while (length--)
        if (at[length] != byte) return false;
    return true;
}

/* What stands in `out` after a call is what was answered: so many bytes and then the old ones, or only those. */
static void expect_room(const uint8_t *out, size_t room, bool is_ok, size_t length) {
    size_t written = is_ok && length <= room ? length : 0;
    expect(is_all(third.at, third.length - room, CANARY), "a byte before out was written");
    expect(is_all(out + written, room - written, FILL), "a byte of out was written that is not of the answer");
    expect(is_ok || length == 0, "a length without bytes");
    expect(held == 0, "memory was not given back");
    held = 0;
}

/* ---- the five calls, each over its two runs of bytes */

static size_t room;
static uint64_t at_sequence = LUDDIMPA_LATEST;

static uint32_t get(const struct bytes *table, const struct bytes *key) {
    uint8_t *out = room_of(room);
    const uint8_t *a = lent(first, table), *b = lent(second, key);
    struct luddimpa_found found = luddimpa_table_get(a, table->length, b, key->length, at_sequence, out, room);
    expect_room(out, room, found.status == LUDDIMPA_OK, found.length);
    expect(found.status <= LUDDIMPA_NOT_A_TABLE, "a status that get does not have");
    return found.status;
}

static struct luddimpa_checked_table checked_table;

static uint32_t check_table(const struct bytes *table, const struct bytes *none) {
    (void)none;
    checked_table = luddimpa_table_check(lent(first, table), table->length);
    uint32_t status = checked_table.status;
    expect(status == LUDDIMPA_OK || status == LUDDIMPA_NOT_A_TABLE || status == LUDDIMPA_OUT_OF_MEMORY, "a status that table does not have");
    expect((status == LUDDIMPA_OK) == (checked_table.entries > 0), "entries of no table");
    expect((status == LUDDIMPA_NOT_A_TABLE) == (checked_table.fault != LUDDIMPA_NO_FAULT), "no table without a fault");
    expect(held == 0, "memory was not given back");
    return status;
}

static struct luddimpa_checked_edits checked_edits;

static uint32_t check_edits(const struct bytes *edits, const struct bytes *none) {
    (void)none;
    checked_edits = luddimpa_edits_check(lent(first, edits), edits->length);
    uint32_t status = checked_edits.status;
    bool has_fault = status == LUDDIMPA_NOT_AN_EDIT || status == LUDDIMPA_DOES_NOT_APPLY;
    expect(has_fault || status == LUDDIMPA_OK || status == LUDDIMPA_CUT_SHORT || status == LUDDIMPA_OUT_OF_MEMORY, "a status that edits does not have");
    expect(has_fault == (checked_edits.fault != LUDDIMPA_NO_FAULT), "a fault of the wrong status");
    expect(held == 0, "memory was not given back");
    return status;
}

static struct luddimpa_checked_message checked_message;

static uint32_t check_message(const struct bytes *message, const struct bytes *none) {
    (void)none;
    checked_message = luddimpa_message_check(lent(first, message), message->length);
    uint32_t status = checked_message.status;
    expect(status == LUDDIMPA_OK || status == LUDDIMPA_NOT_A_MESSAGE || status == LUDDIMPA_OUT_OF_MEMORY, "a status that message does not have");
    expect((status == LUDDIMPA_NOT_A_MESSAGE) == (checked_message.fault != LUDDIMPA_NO_FAULT), "no message without a fault");
    expect(held == 0, "memory was not given back");
    return status;
}

static struct luddimpa_merged_job merged_job;

static uint32_t merge(const struct bytes *job, const struct bytes *tables) {
    uint8_t *out = room_of(room);
    const uint8_t *a = lent(first, job), *b = lent(second, tables);
    merged_job = luddimpa_merge(a, job->length, b, tables->length, out, room);
    uint32_t status = merged_job.status;
    expect_room(out, room, status == LUDDIMPA_OK, merged_job.length);
    expect(status == LUDDIMPA_OK || status == LUDDIMPA_OUT_OF_MEMORY || (status >= LUDDIMPA_NOT_A_JOB && status <= LUDDIMPA_TOO_LARGE), "a status that merge does not have");
    return status;
}

typedef uint32_t (*call)(const struct bytes *, const struct bytes *);

/* ---- what is right */

static bool is_out(const struct bytes *wanted) {
    return memcmp(third.at + third.length - room, wanted->at, wanted->length) == 0;
}

static const char *const put_hex = "4c534d54 01 00001000 00000001 00000001 00000010 000161 0000000000000101 000161 0000000000000101 00000001 31";
static const char *const deletion_hex = "4c534d54 01 00001000 00000001 00000001 0000000f 000161 0000000000000200 000161 0000000000000200 00000000";
static const char *const edits_hex =
    "00000029 0000000000000001 03 0000000000000000 0000000000000001 0000000000000001 00000000 00000000"
    "00000040 0000000000000002 01 0000000000000001 0000000000000001 0000000000000002 00000000 00000001"
    "0000000000000001 00 000161 000161 00000030 00000001";
/* Follower 1 asks what comes after version 0. Worker 1 made no table of job 1.1. */
static const char *const ask_hex = "4c534d4d 01 06 0201 0000 0000000000000000";
static const char *const result_hex = "4c534d4d 01 05 0101 0000 0000000000000001 0000000000000001 00000000";
/* A job of worker 1, from level 0 on: of the table above; of it and the deletion; of it twice. */
#define JOB(count, inputs) "4c534d4d 01 01 0000 0101 0000000000000001 0000000000000001 00 00001000 00" count inputs "00000000"
#define PUT(number) number "00 000161 000161 00000030 00000001"
static const char *const job_hex = JOB("0001", PUT("0000000000000001"));
static const char *const two_hex = JOB("0002", PUT("0000000000000001") "0000000000000002 00 000161 000161 0000002f 00000001");
static const char *const twice_hex = JOB("0002", PUT("0000000000000001") PUT("0000000000000002"));

static void add(struct bytes *bytes, const void *more, size_t length) {
    memcpy(bytes->at + bytes->length, more, length);
    bytes->length += length;
}

static void add_key(struct bytes *bytes, size_t length) {
    add(bytes, (uint8_t[]){(uint8_t)(length >> 8), (uint8_t)length}, 2);
    memset(bytes->at + bytes->length, 'a', length);
    bytes->length += length;
}

/* The table of one key of so many bytes, whose value is 1, as of this version. */
static struct bytes table_of_key(size_t length, uint8_t version) {
    struct bytes made = of("4c534d54 00 00001000 00000001 00000001");
    size_t block = length + 15;
    made.at[4] = version;
    add(&made, (uint8_t[]){0, 0, (uint8_t)(block >> 8), (uint8_t)block}, 4);
    for (int i = 0; i < 2; i++) {
        add_key(&made, length);
        add(&made, (uint8_t[]){0, 0, 0, 0, 0, 0, 1, 1}, 8);
    }
    add(&made, (uint8_t[]){0, 0, 0, 1, '1'}, 5);
    return made;
}

/* A message of this version that takes the job of such a table to worker 1. */
static struct bytes job_of_key(size_t length, uint8_t version) {
    struct bytes made = of("4c534d4d 00 01 0000 0101 0000000000000001 0000000000000001 00 00001000 00 0001 0000000000000001 00");
    size_t table = table_of_key(length, version).length;
    made.at[4] = version;
    add_key(&made, length), add_key(&made, length);
    add(&made, (uint8_t[]){0, 0, (uint8_t)(table >> 8), (uint8_t)table, 0, 0, 0, 1, 0, 0, 0, 0}, 12);
    return made;
}

static struct bytes listed(const char *table, const char *other) {
    struct bytes list = {0};
    for (int i = 0; i < 2; i++) {
        if (!(i ? other : table)) continue;
        struct bytes one = of(i ? other : table);
        memcpy(list.at + list.length, (uint8_t[]){0, 0, 0, (uint8_t)one.length}, 4);
        memcpy(list.at + list.length + 4, one.at, one.length);
        list.length += 4 + one.length;
    }
    return list;
}

static void try_gets(void) {
    struct bytes table = of(put_hex), deletion = of(deletion_hex), a = of("61"), b = of("62"), none = {0};
    room = 16;
    expect(get(&table, &a) == LUDDIMPA_OK && third.at[third.length - room] == '1', "no value");
    expect(get(&table, &b) == LUDDIMPA_ABSENT && get(&table, &none) == LUDDIMPA_ABSENT, "another key");
    expect(get(&deletion, &a) == LUDDIMPA_DELETED, "a deletion");
    expect(get(&none, &a) == LUDDIMPA_NOT_A_TABLE, "no bytes");
    at_sequence = 0;
    expect(get(&table, &a) == LUDDIMPA_ABSENT, "before the first write");
    at_sequence = LUDDIMPA_LATEST + 1;
    expect(get(&table, &a) == LUDDIMPA_NO_SEQUENCE && get(&none, &a) == LUDDIMPA_NO_SEQUENCE, "no sequence");
    at_sequence = LUDDIMPA_LATEST;
    room = 0;
    expect(get(&table, &a) == LUDDIMPA_OK, "a value that has no room");
    tell("a value, a deletion and what is absent");
}

static void try_tables(void) {
    struct bytes table = of(put_hex), none = {0};
    expect(check_table(&table, NULL) == LUDDIMPA_OK && checked_table.entries == 1, "the table");
    table.length--;
    expect(check_table(&table, NULL) == LUDDIMPA_NOT_A_TABLE && checked_table.fault == LUDDIMPA_TRUNCATED, "without its last byte");
    table.length += 2;
    expect(check_table(&table, NULL) == LUDDIMPA_NOT_A_TABLE && checked_table.fault == LUDDIMPA_TRAILING_BYTES, "with a byte more");
    table = of(put_hex);
    table.at[4] = 2;
    expect(check_table(&table, NULL) == LUDDIMPA_NOT_A_TABLE && checked_table.fault == LUDDIMPA_NEEDLESS_VERSION, "version 2 without a long key");
    table.at[4] = 3;
    expect(check_table(&table, NULL) == LUDDIMPA_NOT_A_TABLE && checked_table.fault == LUDDIMPA_BAD_VERSION, "version 3");
    table = of(put_hex);
    table.at[7] = 0; /* the block target 0 */
    expect(check_table(&table, NULL) == LUDDIMPA_NOT_A_TABLE && checked_table.fault == LUDDIMPA_BAD_CUT, "the block target 0");
    expect(check_table(&none, NULL) == LUDDIMPA_NOT_A_TABLE && checked_table.fault == LUDDIMPA_TRUNCATED, "no bytes");
    tell("a table and its faults");
}

static void try_edits(void) {
    struct bytes edits = of(edits_hex), none = {0}, flush = {0};
    expect(check_edits(&edits, NULL) == LUDDIMPA_OK && checked_edits.number == 2 && checked_edits.flushed == 1 && checked_edits.epoch == 1, "the version");
    expect(checked_edits.next_file == 2 && checked_edits.files == 1, "its files");
    expect(check_edits(&none, NULL) == LUDDIMPA_OK && checked_edits.number == 0 && checked_edits.next_file == 1 && checked_edits.files == 0, "no edits");
    edits.length--;
    expect(check_edits(&edits, NULL) == LUDDIMPA_CUT_SHORT && checked_edits.number == 1, "without its last byte");
    edits.length++;
    edits.at[12] = 4; /* the kind */
    expect(check_edits(&edits, NULL) == LUDDIMPA_NOT_AN_EDIT && checked_edits.fault == LUDDIMPA_BAD_FIELD && checked_edits.number == 0, "a kind that there is not");
    flush.length = edits.length - 45;
    memcpy(flush.at, edits.at + 45, flush.length);
    expect(check_edits(&flush, NULL) == LUDDIMPA_DOES_NOT_APPLY && checked_edits.fault == LUDDIMPA_WRONG_NUMBER, "the second edit alone");
    tell("a list of edits and its faults");
}

static bool is_fault(const struct bytes *message, uint32_t fault) {
    return check_message(message, NULL) == LUDDIMPA_NOT_A_MESSAGE && checked_message.fault == fault;
}

static void try_messages(void) {
    struct bytes ask = of(ask_hex), job = of(job_hex), result = of(result_hex), none = {0}, changed = ask;
    expect(check_message(&ask, NULL) == LUDDIMPA_OK && check_message(&job, NULL) == LUDDIMPA_OK && check_message(&result, NULL) == LUDDIMPA_OK, "the messages");
    expect(is_fault(&none, LUDDIMPA_TRUNCATED), "no bytes");
    changed.length--;
    expect(is_fault(&changed, LUDDIMPA_TRUNCATED), "without its last byte");
    changed.length += 2;
    expect(is_fault(&changed, LUDDIMPA_TRAILING_BYTES), "with a byte more");
    static const struct { size_t at; uint8_t byte; uint32_t fault; } changes[] = {
        {0, 0, LUDDIMPA_BAD_MAGIC}, {4, 2, LUDDIMPA_NEEDLESS_VERSION}, {4, 3, LUDDIMPA_BAD_VERSION}, {5, 10, LUDDIMPA_BAD_KIND}, {6, 3, LUDDIMPA_BAD_FIELD}};
    for (size_t i = 0; i < sizeof changes / sizeof *changes; i++) {
        changed = ask;
        changed.at[changes[i].at] = changes[i].byte;
        expect(is_fault(&changed, changes[i].fault), "a changed byte");
    }
    tell("messages and their faults");
}

/* Counts of 4,294,967,295 over bytes that can't hold so many: the fault is that of what is missing, and nothing is reserved for the count. */
static void try_counts(void) {
    struct bytes message, table = of("4c534d54 01 00001000 ffffffff ffffffff"), edits = of("00000025 0000000000000001 02 0000000000000000 0000000000000001 0000000000000001 ffffffff");
    expect(check_table(&table, NULL) == LUDDIMPA_NOT_A_TABLE && checked_table.fault == LUDDIMPA_TRUNCATED, "blocks of a table");
    table = of(put_hex);
    memset(table.at + 9, 0xff, 4); /* the count of entries */
    expect(check_table(&table, NULL) == LUDDIMPA_NOT_A_TABLE && checked_table.fault == LUDDIMPA_BAD_INDEX, "entries of a table");
    expect(check_edits(&edits, NULL) == LUDDIMPA_NOT_AN_EDIT && checked_edits.fault == LUDDIMPA_TRUNCATED, "files of an edit");
    static const char *const counted[] = {
        /* a base's files, a result's tables, and those of one of 60 bytes, which has six of them */
        "4c534d4d 01 08 0000 0201 0000000000000001 0000000000000000 0000000000000001 0000000000000001 ffffffff",
        "4c534d4d 01 05 0101 0000 0000000000000001 0000000000000001 ffffffff",
        "4c534d4d 01 05 0101 0000 0000000000000001 0000000000000001 ffffffff 0000000161 0000000161 0000000161 0000000161 0000000161 0000000161"};
    for (size_t i = 0; i < sizeof counted / sizeof *counted; i++) {
        message = of(counted[i]);
        expect(is_fault(&message, LUDDIMPA_TRUNCATED), "a count in a message");
    }
    expect(message.length == 60, "the length of the last message");
    tell("counts that the bytes can't hold");
}

static void try_merges(void) {
    struct bytes job = of(job_hex), two = of(two_hex), twice = of(twice_hex), none = {0};
    struct bytes table = listed(put_hex, NULL), both = listed(put_hex, deletion_hex), same = listed(put_hex, put_hex);
    struct bytes wanted = of("4c534d4d 01 05 0101 0000 0000000000000001 0000000000000001 00000001"), empty = of("4c534d4d 01 05 0101 0000 0000000000000001 0000000000000001 00000000");
    memcpy(wanted.at + wanted.length, table.at, table.length);
    wanted.length += table.length;
    room = ROOM;
    expect(merge(&job, &table) == LUDDIMPA_OK && merged_job.length == wanted.length && is_out(&wanted), "one table");
    expect(merge(&two, &both) == LUDDIMPA_OK && merged_job.length == empty.length && is_out(&empty), "a table and the deletion of its key");
    room = wanted.length;
    expect(merge(&job, &table) == LUDDIMPA_OK && is_out(&wanted), "room for all");
    room = wanted.length - 1;
    expect(merge(&job, &table) == LUDDIMPA_OK && merged_job.length == wanted.length, "no room for all");
    expect(merge(&twice, &same) == LUDDIMPA_SAME_ENTRY, "one table twice");
    expect(merge(&job, &none) == LUDDIMPA_WRONG_TABLE && merged_job.table == 0, "no table");
    expect(merge(&two, &same) == LUDDIMPA_WRONG_TABLE && merged_job.table == 1, "another table");
    expect(merge(&job, &same) == LUDDIMPA_WRONG_TABLE && merged_job.table == 1, "one table more");
    struct bytes ask = of(ask_hex);
    expect(merge(&ask, &table) == LUDDIMPA_NOT_A_JOB && merged_job.fault == LUDDIMPA_NO_FAULT, "another message");
    ask.at[4] = 2;
    expect(merge(&ask, &table) == LUDDIMPA_NOT_A_JOB && merged_job.fault == LUDDIMPA_NEEDLESS_VERSION, "a version that no key needs");
    ask.at[4] = 3;
    expect(merge(&ask, &table) == LUDDIMPA_NOT_A_JOB && merged_job.fault == LUDDIMPA_BAD_VERSION, "another version");
    job.at[8] = 2; /* the receiver is a follower */
    expect(merge(&job, &table) == LUDDIMPA_NOT_A_JOB && merged_job.fault == LUDDIMPA_NO_FAULT, "a job to a follower");
    tell("a merge and its refusals");
}

/* Keys of more than 1,024 bytes: what has them is of version 2. */
static void try_long_keys(void) {
    static const struct { size_t length; uint8_t version; uint32_t table, message; } keys[] = {
        {1024, 1, LUDDIMPA_NO_FAULT, LUDDIMPA_NO_FAULT}, {1024, 2, LUDDIMPA_NEEDLESS_VERSION, LUDDIMPA_NEEDLESS_VERSION},
        {1025, 1, LUDDIMPA_BAD_INDEX, LUDDIMPA_BAD_FIELD}, {1025, 2, LUDDIMPA_NO_FAULT, LUDDIMPA_NO_FAULT}, {1025, 3, LUDDIMPA_BAD_VERSION, LUDDIMPA_BAD_VERSION},
        {4096, 2, LUDDIMPA_NO_FAULT, LUDDIMPA_NO_FAULT}, {4097, 2, LUDDIMPA_BAD_INDEX, LUDDIMPA_BAD_FIELD}};
    for (size_t i = 0; i < sizeof keys / sizeof *keys; i++) {
        struct bytes table = table_of_key(keys[i].length, keys[i].version), job = job_of_key(keys[i].length, keys[i].version);
        expect(check_table(&table, NULL) == (keys[i].table ? LUDDIMPA_NOT_A_TABLE : LUDDIMPA_OK) && checked_table.fault == keys[i].table, "a table");
        expect(check_message(&job, NULL) == (keys[i].message ? LUDDIMPA_NOT_A_MESSAGE : LUDDIMPA_OK) && checked_message.fault == keys[i].message, "a job");
    }
    struct bytes table = table_of_key(1025, 2), job = job_of_key(1025, 2), list = of("00000830"), key = {0}, longer = {0};
    struct bytes wanted = of("4c534d4d 01 05 0101 0000 0000000000000001 0000000000000001 00000001");
    memset(key.at, 'a', 1025), key.length = 1025;
    memset(longer.at, 'a', 4097), longer.length = 4097;
    room = 16;
    expect(table.length == 2096 && get(&table, &key) == LUDDIMPA_OK && third.at[third.length - room] == '1', "no value");
    expect(get(&table, &longer) == LUDDIMPA_ABSENT, "a key that is too long");
    add(&list, table.at, table.length);
    add(&wanted, list.at, list.length);
    room = wanted.length;
    /* The result is of version 1: the key in its table does not count. */
    expect(merge(&job, &list) == LUDDIMPA_OK && merged_job.length == wanted.length && is_out(&wanted), "a merge");
    tell("keys of up to 4,096 bytes");
}

/* More bytes than a table or a message may have are refused as such, and not copied. */
static void try_too_many_bytes(void) {
    size_t table = (UINT64_C(16) << 20) + 1, message = (UINT64_C(1) << 30) + 1;
    const uint8_t *at = mmap(NULL, message, PROT_READ, MAP_PRIVATE | MAP_ANONYMOUS | MAP_NORESERVE, -1, 0);
    if (at == MAP_FAILED) exit(2);
    struct luddimpa_checked_table checked = luddimpa_table_check(at, table);
    expect(checked.status == LUDDIMPA_NOT_A_TABLE && checked.fault == LUDDIMPA_TOO_MANY_BYTES, "a table");
    expect(luddimpa_table_get(at, table, at, 1, LUDDIMPA_LATEST, third.at, 0).status == LUDDIMPA_NOT_A_TABLE, "a value in one");
    struct luddimpa_checked_message told = luddimpa_message_check(at, message);
    expect(told.status == LUDDIMPA_NOT_A_MESSAGE && told.fault == LUDDIMPA_TOO_MANY_BYTES, "a message");
    struct luddimpa_merged_job merged = luddimpa_merge(at, message, at, 0, third.at, 0);
    expect(merged.status == LUDDIMPA_NOT_A_JOB && merged.fault == LUDDIMPA_TOO_MANY_BYTES, "a job");
    munmap((void *)at, message);
    tell("more bytes than there may be");
}

/* ---- what is not right */

static long calls;

/* Each beginning of the one run of bytes, each byte of it changed, and each left out, with each room. */
static void spoil(call call, const struct bytes *one, const struct bytes *other, bool is_first) {
    static const size_t rooms[] = {0, 1, 15, 81, 82, ROOM};
    for (size_t r = 0; r < sizeof rooms / sizeof *rooms; r++) {
        room = rooms[r];
        for (size_t length = 0; length <= one->length; length++, calls++) {
            struct bytes cut = *one;
            cut.length = length;
            is_first ? call(&cut, other) : call(other, &cut);
        }
        for (size_t at = 0; at < one->length; at++) {
            for (int bit = 0; bit < 10; bit++, calls++) {
                struct bytes changed = *one;
                changed.at[at] = bit < 8 ? changed.at[at] ^ (uint8_t)(1 << bit) : bit == 8 ? 0 : 0xff;
                is_first ? call(&changed, other) : call(other, &changed);
            }
            struct bytes shorter = *one;
            memmove(shorter.at + at, shorter.at + at + 1, --shorter.length - at);
            is_first ? call(&shorter, other) : call(other, &shorter);
            calls++;
        }
    }
}

/* Each allocation fails in turn, until none does: the call says so, and the next one is as ever. */
static void starve(call call, const struct bytes *one, const struct bytes *other, uint32_t status) {
    room = ROOM;
    for (long at = 1;; at++) {
        asked = 0, fails_at = at;
        uint32_t told = call(one, other);
        bool is_past = asked < at;
        fails_at = 0, calls++;
        expect(told == (is_past ? status : LUDDIMPA_OUT_OF_MEMORY), "a failed allocation gives another status");
        if (is_past) return;
    }
}

static void say(const char *what) {
    static char line[100];
    snprintf(line, sizeof line, "%ld calls of %s with what is not right", calls, what);
    calls = 0;
    tell(line);
}

int main(void) {
    setvbuf(stdout, NULL, _IOLBF, 0);
    first = pages_of(), second = pages_of(), third = pages_of();
    held = 0;
    try_gets(), try_tables(), try_edits(), try_messages(), try_counts(), try_merges(), try_long_keys(), try_too_many_bytes();

    struct bytes table = of(put_hex), deletion = of(deletion_hex), key = of("61"), edits = of(edits_hex), none = {0};
    struct bytes job = of(job_hex), list = listed(put_hex, NULL), two = of(two_hex), both = listed(put_hex, deletion_hex);
    spoil(get, &table, &key, true), spoil(get, &deletion, &key, true), spoil(get, &key, &table, false);
    starve(get, &table, &key, LUDDIMPA_OK);
    say("luddimpa_table_get");
    struct bytes of_long = table_of_key(1025, 2), job_of_long = job_of_key(1025, 2);
    spoil(check_table, &table, &none, true), spoil(check_table, &deletion, &none, true), spoil(check_table, &of_long, &none, true);
    starve(check_table, &table, &none, LUDDIMPA_OK);
    say("luddimpa_table_check");
    spoil(check_edits, &edits, &none, true);
    starve(check_edits, &edits, &none, LUDDIMPA_OK);
    say("luddimpa_edits_check");
    struct bytes ask = of(ask_hex), result = of(result_hex);
    spoil(check_message, &ask, &none, true), spoil(check_message, &job, &none, true), spoil(check_message, &result, &none, true), spoil(check_message, &job_of_long, &none, true);
    starve(check_message, &ask, &none, LUDDIMPA_OK), starve(check_message, &job, &none, LUDDIMPA_OK), starve(check_message, &result, &none, LUDDIMPA_OK);
    say("luddimpa_message_check");
    spoil(merge, &job, &list, true), spoil(merge, &list, &job, false), spoil(merge, &two, &both, true), spoil(merge, &both, &two, false);
    starve(merge, &job, &list, LUDDIMPA_OK), starve(merge, &two, &both, LUDDIMPA_OK);
    say("luddimpa_merge");
    expect(greatest <= 1 << 20, "a call asked for more than a MiB at once");
    tell("no call asks for more than a MiB at once");
    printf("%d passed, %d failed\n", passed, failed);
    return failed != 0;
}
