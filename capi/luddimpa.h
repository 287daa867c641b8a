/* Luddimpa's formats and its merge, for C and whatever calls C: read a value in a table, check a table, check a list of edits, check a
 * message, merge a job.
 *
 * Each function is proved to answer as its contract says (crates/luddimpa/src), whatever the bytes are: it ends, reads nothing but what it is
 * given, and writes nothing but `out`. It keeps nothing between calls and hands out no pointer. docs/FORMATS.md has the formats.
 *
 * A pointer and a length are one run of bytes, which nobody else may change during the call; `out` may not overlap the others. No pointer is NULL,
 * also with length 0. Memory comes from malloc and is given back before the call returns. As nothing is shared between calls, they may be made from
 * several threads at once.
 *
 * Where bytes are handed out, `length` of the answer says how many there are, and they are at the front of `out` if it has room for all of them.
 * Otherwise `out` stays as it was, so that a call with no room asks for the length. `out` also stays as it was in all other cases.
 */
#ifndef LUDDIMPA_H
#define LUDDIMPA_H

#include <stddef.h>
#include <stdint.h>

#ifdef __cplusplus
extern "C" {
#endif

/* What a call answers: the field `status`. */
enum luddimpa_status {
    LUDDIMPA_OK = 0,             /* what was asked for is there: a value, a table, edits that apply, a message, a merge */
    LUDDIMPA_DELETED = 1,        /* get: the newest entry of the key, up to the sequence, is a deletion */
    LUDDIMPA_ABSENT = 2,         /* get: the table has no entry of the key up to the sequence */
    LUDDIMPA_OUT_OF_MEMORY = 3,  /* malloc gave none; the same call may be made again */
    LUDDIMPA_NO_SEQUENCE = 4,    /* get: the sequence is above LUDDIMPA_LATEST */
    LUDDIMPA_NOT_A_TABLE = 5,    /* get, table: the bytes are no table; `fault` of a check says what is wrong */
    LUDDIMPA_CUT_SHORT = 6,      /* edits: the list ends inside a length, or before as many bytes as it says */
    LUDDIMPA_NOT_AN_EDIT = 7,    /* edits: the bytes behind a length are no edit; see `fault` */
    LUDDIMPA_DOES_NOT_APPLY = 8, /* edits: an edit does not apply to the version that those before it make; see `fault` */
    LUDDIMPA_NOT_A_JOB = 9,      /* merge: the bytes are no message (see `fault`), or one that takes no job to a worker (`fault` is 0) */
    LUDDIMPA_WRONG_TABLE = 10,   /* merge: at the place `table` stands no table that is as the job's input there, or bytes stand behind the last */
    LUDDIMPA_SAME_ENTRY = 11,    /* merge: two tables share an entry's key and sequence */
    LUDDIMPA_TOO_LARGE = 12,     /* merge: the message of the result would have more than 1,073,741,824 bytes */
    LUDDIMPA_NOT_A_MESSAGE = 13  /* message: the bytes are no message; `fault` says what is wrong */
};

/* What is wrong with bytes: the field `fault`, the first fault in the order of docs/FORMATS.md. */
enum luddimpa_fault {
    LUDDIMPA_NO_FAULT = 0,
    LUDDIMPA_TRUNCATED = 1,       /* they end inside a field */
    LUDDIMPA_BAD_MAGIC = 2,       /* table, message: they do not begin with the letters LSMT, LSMM */
    LUDDIMPA_BAD_VERSION = 3,     /* table, message: the version of the format is neither 1 nor 2 */
    LUDDIMPA_BAD_KIND = 4,        /* message: there is no message of this kind */
    LUDDIMPA_BAD_FIELD = 5,       /* edit, message: a field breaks its rule */
    LUDDIMPA_BAD_INDEX = 6,       /* table: the index breaks a rule, or is not what the blocks have */
    LUDDIMPA_BAD_BLOCK = 7,       /* table: a block is invalid, or out of order */
    LUDDIMPA_BAD_CUT = 8,         /* table: the block target is out of range, or a block is not cut there */
    LUDDIMPA_TRAILING_BYTES = 9,  /* bytes stand behind the last field */
    LUDDIMPA_TOO_MANY_BYTES = 10, /* table: more than 16,777,216 bytes; message: more than 1,073,741,824 */
    LUDDIMPA_WRONG_NUMBER = 11,   /* an edit that is not for the next version */
    LUDDIMPA_NO_SUCH_FILE = 12,   /* an edit that removes a file which the version does not list */
    LUDDIMPA_FILE_EXISTS = 13,    /* an edit that adds a file under a number that was given before */
    LUDDIMPA_OVERLAP = 14,        /* an edit after which two files of a level below level 0 overlap */
    LUDDIMPA_FLUSHED_BACK = 15,   /* an edit whose flushed sequence goes back, or moves without a flush */
    LUDDIMPA_BAD_COUNTER = 16,    /* an edit whose next file number or epoch is wrong */
    LUDDIMPA_NEEDLESS_VERSION = 17 /* table, message: the version is 2, and no key in its own fields has more than 1,024 bytes */
};

/* The greatest sequence: a read at it sees the newest entry of each key. */
#define LUDDIMPA_LATEST ((UINT64_C(1) << 56) - 1)

struct luddimpa_found {
    uint32_t status;
    size_t length; /* of the value; 0 if there is none */
};

/* Reads the value of a key in a table, at a sequence: that of its entry of the greatest sequence up to there.
 * OK, DELETED, ABSENT, NOT_A_TABLE, NO_SEQUENCE, OUT_OF_MEMORY. A key that is empty or has more than 4,096 bytes is absent. */
struct luddimpa_found luddimpa_table_get(const uint8_t *table, size_t table_length, const uint8_t *key, size_t key_length, uint64_t at,
                                         uint8_t *out, size_t out_length);

struct luddimpa_checked_table {
    uint32_t status;
    uint32_t fault; /* of a table that is none */
    size_t entries; /* how many entries it has, at least 1; 0 if it is no table */
};

/* Checks that bytes are a table, all of them. OK, NOT_A_TABLE, OUT_OF_MEMORY. */
struct luddimpa_checked_table luddimpa_table_check(const uint8_t *table, size_t table_length);

struct luddimpa_checked_edits {
    uint32_t status;
    uint32_t fault;     /* of the first edit that does not apply */
    uint64_t number;    /* of the version: how many edits apply, so also the place, from 0, of the first that does not */
    uint64_t flushed;   /* every write up to this sequence is in its files */
    uint64_t epoch;     /* how often the store had been opened */
    uint64_t next_file; /* the number of the next file */
    size_t files;       /* how many files it lists */
};

/* Checks a list of edits, each behind its length in four bytes, big-endian: that each applies to the version that those before it make, the
 * first one to version 0. The answer tells of the version that they make, up to the first that does not apply.
 * OK, CUT_SHORT, NOT_AN_EDIT, DOES_NOT_APPLY, OUT_OF_MEMORY. */
struct luddimpa_checked_edits luddimpa_edits_check(const uint8_t *edits, size_t edits_length);

struct luddimpa_checked_message {
    uint32_t status;
    uint32_t fault; /* of a message that is none */
};

/* Checks that bytes are a message, all of them. What the tables in it say is not looked at. OK, NOT_A_MESSAGE, OUT_OF_MEMORY. */
struct luddimpa_checked_message luddimpa_message_check(const uint8_t *message, size_t message_length);

struct luddimpa_merged_job {
    uint32_t status;
    uint32_t fault; /* of a message that is none */
    size_t table;   /* the place of the wrong table, from 0: the number of inputs if bytes stand behind the last; 0 if none is wrong */
    size_t length;  /* of the message of the result; 0 if there is none */
};

/* Merges a job, as a worker does: `job` is the message that takes it to one, and `tables` are those of its inputs in their order, each behind its
 * length in four bytes, big-endian. What is handed out is that worker's message of the result, which is the same for all who merge the job.
 * OK, NOT_A_JOB, WRONG_TABLE, SAME_ENTRY, TOO_LARGE, OUT_OF_MEMORY. */
struct luddimpa_merged_job luddimpa_merge(const uint8_t *job, size_t job_length, const uint8_t *tables, size_t tables_length, uint8_t *out,
                                          size_t out_length);

#ifdef __cplusplus
}
#endif

#endif
