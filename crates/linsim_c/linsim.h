/* linsim: a simulator of a LIN cluster (ISO 17987) as a C library.
 *
 * An LDF describes the cluster. A script has the steps of its bus, hosts and nodes; a bench script has slots, rules and
 * expectations, with names. Scripts, bench scripts, logs, answers, and the numbers of syntax errors and findings are those of the
 * program `linsim`. docs/EMBEDDING.md shows how to build and use the library.
 *
 * The caller must ensure in each call:
 * - No pointer is null. If a length or a room is 0, nothing is read or written at its pointer.
 * - A length is the number of bytes at its pointer, and `room` bytes at `out` may be written.
 * - What a call writes (`out`, `report`, a handle) overlaps nothing else that the call is given.
 * - Nothing else reads or writes any of these while the call runs.
 *
 * Texts are bytes with a length; no NUL is read or written. Each call sets all of `report`. A call whose status isn't
 * LINSIM_DONE writes nothing at `out`.
 *
 * Memory: the caller owns all that it passes, and the library keeps no pointer to it after the call. The library owns the
 * cluster of a handle, from linsim_open or linsim_open_bench to linsim_close. It allocates with malloc and realloc, and frees
 * with free.
 *
 * Threads: calls that share no handle may run at the same time. All calls with a handle come from one thread. No call comes
 * from a signal handler, or from a forked child of a process with threads.
 *
 * Limits: 4,194,304 bytes of an LDF, 16,777,216 of a script or of a line, 1 to 1,024 waiting messages of a host, and
 * 4,294,967,295 entries of a log. A line of a bench script runs 1,000,000 slots at most. The log of a handle grows until the
 * handle is closed; a bench also keeps its newest answer.
 *
 * Stack: in the tests, linsim_replay, linsim_open, linsim_open_bench and linsim_line of a bench script used less than 192 KiB, and
 * each other call less than 80 KiB, in the unproved library. The proved one used less.
 *
 * Versions: names, arguments, values, layouts and the text of logs stay the same in all libraries with the soname
 * liblinsim.so.0. Later versions may add functions, statuses, flags, and members at the end of linsim_bench_settings.
 */
#ifndef LINSIM_H
#define LINSIM_H

#include <stddef.h>
#include <stdint.h>

#ifdef __cplusplus
extern "C" {
#endif

/* The version of this header: 1,000,000 for each major version, 1,000 for each minor version and 1 for each patch; and as
 * text. linsim_version has the version of the library. */
#define LINSIM_VERSION 2000
#define LINSIM_VERSION_TEXT "0.2.0"

/* The statuses. If several apply, a call returns LINSIM_IS_OPEN or LINSIM_IS_CLOSED first, then LINSIM_BAD_SIZE, otherwise the
 * lowest number from 1 to 8; LINSIM_UNKNOWN_FORMAT is between 2 and 3. LINSIM_NO_MEMORY and LINSIM_LOG_FULL can replace any number
 * from 3 to 8. */
enum {
    LINSIM_DONE = 0,
    LINSIM_UNKNOWN_FLAGS = 1, /* a bit of settings.flags has no meaning */
    LINSIM_BAD_CAPACITY = 2,  /* settings.capacity isn't 1 to 1,024 */
    LINSIM_BAD_LDF = 3,       /* the LDF has a syntax error: its line, column and number (1 to 7); all are 0 if the LDF has
                                 more than 4,194,304 bytes */
    LINSIM_FINDING = 4,       /* the LDF has findings: line, column and number (1 to 18; with LINSIM_FIELD also 25) of the
                                 first one */
    LINSIM_NO_TABLE = 5,      /* the cluster has no schedule table settings.table */
    LINSIM_LONG_SCRIPT = 6,   /* the script has more than 16,777,216 bytes */
    LINSIM_BAD_LINE = 7,      /* a line of the script isn't valid: its number. In linsim_line also a line of more than
                                 16,777,216 bytes */
    LINSIM_NO_ROOM = 8,       /* the text is longer than `room`: its length. A line was executed: see linsim_newest */
    LINSIM_NO_MEMORY = 9,     /* an allocation failed; nothing was done, except for a line of a bench: see linsim_line */
    LINSIM_LOG_FULL = 10,     /* the log has 4,294,967,295 entries; nothing was done, except for a line of a bench */
    LINSIM_UNTOLD = 11,       /* the line's step was executed, but its text couldn't be allocated: see linsim_newest */
    LINSIM_IS_OPEN = 12,      /* the handle is already open */
    LINSIM_IS_CLOSED = 13,    /* the handle isn't open */
    LINSIM_BAD_SIZE = 14,     /* settings.size isn't 8 to 4,096, or a byte after the members that this library knows isn't 0 */
    LINSIM_UNKNOWN_FORMAT = 15 /* settings.format has no meaning */
};

/* How the answer to a line of a bench ended: the number of the report. */
enum {
    LINSIM_END_OK = 1,        /* # ok */
    LINSIM_END_IS = 2,        /* # is VALUE: the answer to a question */
    LINSIM_END_REFUSED = 3,   /* # refused N NAME: a step was refused; the first one is reported */
    LINSIM_END_EXPECTED = 4,  /* # expected WHAT: GOT: the expectation failed */
    LINSIM_END_BAD_LINE = 5,  /* # bad line: REASON: nothing was executed */
    LINSIM_END_SLOT_LIMIT = 6 /* # slot limit: the line ran 1,000,000 slots and would run more */
};

typedef struct linsim_settings {
    size_t capacity; /* maximum number of waiting messages of a host, 1 to 1,024 (the program's default: 16) */
    uint32_t flags;  /* 0: none has a meaning yet */
    uint16_t table;  /* the schedule table at the beginning, by its number from 0 */
} linsim_settings;

/* How the answers of a bench report entries: settings.format. */
enum {
    LINSIM_FORMAT_LOG = 0,   /* by numbers, as the log */
    LINSIM_FORMAT_NAMED = 1, /* with names, as `--to named` */
    LINSIM_FORMAT_JSONL = 2  /* as JSON Lines, as `--to jsonl`; the last line is an object, too */
};

/* The bits of linsim_bench_settings.flags. */
enum {
    LINSIM_FIELD = 1,   /* reads LDFs of LIN 1.3 to ISO 17987 and of vendors' tools, as `--field` */
    LINSIM_PHYSICAL = 2, /* reports physical values next to raw values, as `--physical` */
    LINSIM_CONFIGURATION = 4 /* sends the node configuration commands of schedule tables, as `--configuration` */
};

/* The settings of a bench, those of `linsim live`. They begin as
 * `linsim_bench_settings settings = {.size = sizeof settings};`: a member that is 0 has its default. Later versions may have more
 * members. Members that are after `size` bytes are 0, so a program that was compiled with a shorter struct gets their defaults. A
 * longer struct is accepted if the further bytes are 0. */
typedef struct linsim_bench_settings {
    size_t size;     /* the bytes of the struct that the caller has, 8 to 4,096 */
    size_t capacity; /* maximum number of waiting messages of a host, 1 to 1,024; 0: 16 */
    uint32_t flags;  /* 0, or the sum of some of LINSIM_FIELD, LINSIM_PHYSICAL and LINSIM_CONFIGURATION */
    uint16_t format; /* LINSIM_FORMAT_LOG, LINSIM_FORMAT_NAMED or LINSIM_FORMAT_JSONL */
    uint16_t table;  /* the schedule table at the beginning, by its number from 0 */
} linsim_bench_settings;

/* What a status is about; what doesn't apply is 0. */
typedef struct linsim_report {
    size_t length;   /* LINSIM_DONE: the number of bytes that were written; LINSIM_NO_ROOM: the number of bytes needed */
    uint64_t line;   /* in the LDF or the script, from 1 */
    uint64_t column; /* in the LDF, in bytes, from 1 */
    uint32_t number; /* of the LDF's syntax error or first finding; how the answer to a line of a bench ended, LINSIM_END_OK to
                        LINSIM_END_SLOT_LIMIT; in linsim_version of the version */
} linsim_report;

/* Writes the version of the library as text. An unproved library has " (unproved)" after the version. The number of the
 * report is the version's, also if the text is longer than `room`.
 * Statuses: 0, 8. */
uint32_t linsim_version(uint8_t *out, size_t room, linsim_report *report);

/* Executes all steps of a script, and writes the text of their log: what `linsim replay` prints.
 * Statuses: 0 to 9. */
uint32_t linsim_replay(const uint8_t *ldf, size_t ldf_length, const linsim_settings *settings,
                       const uint8_t *script, size_t script_length, uint8_t *out, size_t room,
                       linsim_report *report);

/* A cluster that is open, or none. It begins as `linsim_handle handle = {NULL};`. The caller never copies a handle, never
 * writes `at`, and closes a handle before its memory is freed or goes out of scope. A closed handle can be opened again. */
typedef struct linsim_handle {
    uint8_t *at;
} linsim_handle;

/* Opens the cluster that an LDF describes, with an empty log.
 * Statuses: 0 to 5, 9, 12. After each but 0 the handle is unchanged. */
uint32_t linsim_open(const uint8_t *ldf, size_t ldf_length, const linsim_settings *settings,
                     linsim_handle *handle, linsim_report *report);

/* Opens a bench on the cluster that an LDF describes, with an empty log: a handle whose lines are those of bench scripts, and
 * questions. `settings.size` bytes are read at `settings`, and at least 8.
 * Statuses: 0 to 5, 9, 12, 14, 15. After each but 0 the handle is unchanged. */
uint32_t linsim_open_bench(const uint8_t *ldf, size_t ldf_length, const linsim_bench_settings *settings,
                           linsim_handle *handle, linsim_report *report);

/* Executes one line, given without its LF.
 *
 * After linsim_open it is the step of one line of a script, and the text of its entry is written: the line itself, and a line for
 * each event. A line without a step (empty, or beginning with # or >) writes 0 bytes.
 * Statuses: 0, 7 (line 1), 8 to 11, 13. After 7, 9, 10 and 13 nothing was done; after 8 and 11 the step was executed.
 *
 * After linsim_open_bench it is a line of a bench script or a question, and its answer is written: what `linsim live` answers, byte
 * for byte. The number of the report is how the answer ended, also if the answer is longer than `room`. A bad line has an answer,
 * too.
 * Statuses: 0, 8 to 10, 13. After 8 the line was executed. After 9 and 10 it may have been executed in part, and the handle was
 * closed. */
uint32_t linsim_line(linsim_handle *handle, const uint8_t *line, size_t length, uint8_t *out, size_t room,
                     linsim_report *report);

/* Writes the text of the newest entry again, or of a bench the newest answer, with its number; 0 bytes if there is none.
 * Statuses: 0, 8, 9, 13. */
uint32_t linsim_newest(linsim_handle *handle, uint8_t *out, size_t room, linsim_report *report);

/* Frees the cluster, if one is open. */
void linsim_close(linsim_handle *handle);

#ifdef __cplusplus
}
#endif

#endif
