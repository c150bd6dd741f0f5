/* Each status of each call, and what is left after it: statuses FILE.ldf TEXT, the built-in cluster and the text of the
 * library's version. Writes a line for each failed check, and then `N passed, M failed`. */
#include "linsim.h"

#include <stdio.h>
#include <stdlib.h>
#include <string.h>

static uint8_t ldf[1 << 16], out[1 << 16];
static size_t ldf_length;
static linsim_report report;
static unsigned long passed, failed;

/* Which statuses were seen. */
enum { STATUSES = LINSIM_UNKNOWN_FORMAT + 1 };
static int is_seen[STATUSES];

/* A pointer that isn't null, and that nothing may be read or written at. */
static uint8_t *const nowhere = (uint8_t *)16;

static const uint8_t *bytes(const char *text) {
    return (const uint8_t *)text;
}

static void check(int is_so, int line, const char *what) {
    if (is_so) {
        passed++;
    } else {
        failed++;
        printf("statuses.c:%d: not so: %s\n", line, what);
    }
}
#define CHECK(is_so) check((is_so), __LINE__, #is_so)

/* The status, the whole report, and that all room behind what was written is as it was. */
static int is_left(uint32_t status, uint32_t wanted, size_t length, uint64_t line, uint64_t column, uint32_t number) {
    size_t at = status == LINSIM_DONE ? report.length : 0;
    if (status < STATUSES)
        is_seen[status] = 1;
    while (at < sizeof out && out[at] == 0xAA)
        at++;
    return status == wanted && at == sizeof out && report.length == length && report.line == line
        && report.column == column && report.number == number;
}

static void clear(void) {
    memset(out, 0xAA, sizeof out);
    memset(&report, 0x55, sizeof report);
}

static uint32_t replayed(const char *text, size_t capacity, uint32_t flags, uint16_t table, const char *script, size_t room) {
    linsim_settings settings = {0, 0, 0};
    settings.capacity = capacity;
    settings.flags = flags;
    settings.table = table;
    clear();
    return linsim_replay(text ? bytes(text) : ldf, text ? strlen(text) : ldf_length, &settings, bytes(script),
                         strlen(script), out, room, &report);
}

static uint32_t made(linsim_handle *handle, const char *line, size_t room) {
    clear();
    return linsim_line(handle, bytes(line), strlen(line), out, room, &report);
}

static const char finish_text[] = "bus finish\n> seen silent\n";
static const char open_text[] = "bus open\n> slot 0 0 -\n";
/* a schedule table is missing: finding 16 */
static const char no_table[] =
    "LIN_description_file;\nLIN_protocol_version = \"2.2\";\nLIN_language_version = \"2.2\";\nLIN_speed = 19.2 kbps;\n"
    "Nodes { Master: m, 5 ms, 0.1 ms; Slaves: s; }\n";

static void whole_runs(void) {
    static uint8_t script[16777217];
    linsim_settings settings = {16, 0, 0};
    const size_t length = strlen(open_text);
    CHECK(is_left(replayed(NULL, 16, 0, 0, "bus open\n", sizeof out), LINSIM_DONE, length, 0, 0, 0));
    CHECK(memcmp(out, open_text, length) == 0);
    CHECK(is_left(replayed(NULL, 16, 0, 0, "bus open\n", length), LINSIM_DONE, length, 0, 0, 0));
    CHECK(is_left(replayed(NULL, 16, 0, 0, "", 0), LINSIM_DONE, 0, 0, 0, 0));
    CHECK(is_left(replayed(NULL, 16, 0, 0, "bus open\n", length - 1), LINSIM_NO_ROOM, length, 0, 0, 0));
    CHECK(is_left(replayed("x", 0, 4, 9, "nonsense", 0), LINSIM_UNKNOWN_FLAGS, 0, 0, 0, 0));
    CHECK(is_left(replayed(NULL, 16, 1u << 31, 0, "", 0), LINSIM_UNKNOWN_FLAGS, 0, 0, 0, 0));
    CHECK(is_left(replayed("x", 0, 0, 9, "nonsense", 0), LINSIM_BAD_CAPACITY, 0, 0, 0, 0));
    CHECK(is_left(replayed(NULL, 1025, 0, 0, "", 0), LINSIM_BAD_CAPACITY, 0, 0, 0, 0));
    CHECK(is_left(replayed(NULL, 1024, 0, 0, "bus open", sizeof out), LINSIM_DONE, length, 0, 0, 0));
    CHECK(is_left(replayed("\n x", 16, 0, 9, "nonsense", 0), LINSIM_BAD_LDF, 0, 2, 2, 4));
    CHECK(is_left(replayed("\n/*", 16, 0, 0, "", 0), LINSIM_BAD_LDF, 0, 2, 1, 2));
    CHECK(is_left(replayed("", 16, 0, 0, "", 0), LINSIM_BAD_LDF, 0, 1, 1, 4));
    CHECK(is_left(replayed(no_table, 16, 0, 9, "nonsense", 0), LINSIM_FINDING, 0, 1, 1, 16));
    CHECK(is_left(replayed(NULL, 16, 0, 9, "nonsense", 0), LINSIM_NO_TABLE, 0, 0, 0, 0));
    CHECK(is_left(replayed(NULL, 16, 0, 0, "bus open\n\nnonsense\nbus finish\nnonsense\n", 0), LINSIM_BAD_LINE, 0, 3, 0, 0));
    memset(script, '\n', sizeof script);
    clear();
    CHECK(is_left(linsim_replay(ldf, ldf_length, &settings, script, sizeof script, out, 0, &report),
                  LINSIM_LONG_SCRIPT, 0, 0, 0, 0));
    clear();
    CHECK(is_left(linsim_replay(ldf, ldf_length, &settings, script, sizeof script - 1, out, 0, &report),
                  LINSIM_DONE, 0, 0, 0, 0));
}

/* The version, which is also that of the header. */
static void version(const char *text) {
    const size_t length = strlen(text), least = strlen(LINSIM_VERSION_TEXT);
    unsigned long major = 0, minor = 0, patch = 0;
    clear();
    CHECK(is_left(linsim_version(out, sizeof out, &report), LINSIM_DONE, length, 0, 0, LINSIM_VERSION));
    CHECK(memcmp(out, text, length) == 0);
    clear();
    CHECK(is_left(linsim_version(out, length, &report), LINSIM_DONE, length, 0, 0, LINSIM_VERSION));
    clear();
    CHECK(is_left(linsim_version(out, length - 1, &report), LINSIM_NO_ROOM, length, 0, 0, LINSIM_VERSION));
    clear();
    CHECK(is_left(linsim_version(nowhere, 0, &report), LINSIM_NO_ROOM, length, 0, 0, LINSIM_VERSION));
    CHECK(memcmp(text, LINSIM_VERSION_TEXT, least) == 0);
    CHECK(sscanf(LINSIM_VERSION_TEXT, "%lu.%lu.%lu", &major, &minor, &patch) == 3);
    CHECK(LINSIM_VERSION == 1000000 * major + 1000 * minor + patch);
}

/* Lengths and rooms of 0, at whose pointers nothing may be read or written. */
static void nothing(void) {
    const linsim_settings settings = {16, 0, 0};
    linsim_handle handle = {NULL};
    const size_t length = strlen(open_text);
    clear();
    CHECK(is_left(linsim_replay(nowhere, 0, &settings, nowhere, 0, nowhere, 0, &report), LINSIM_BAD_LDF, 0, 1, 1, 4));
    clear();
    CHECK(is_left(linsim_replay(ldf, ldf_length, &settings, nowhere, 0, nowhere, 0, &report), LINSIM_DONE, 0, 0, 0, 0));
    clear();
    CHECK(is_left(linsim_replay(ldf, ldf_length, &settings, bytes("bus open"), 8, nowhere, 0, &report), LINSIM_NO_ROOM, length,
                  0, 0, 0));
    clear();
    CHECK(is_left(linsim_open(nowhere, 0, &settings, &handle, &report), LINSIM_BAD_LDF, 0, 1, 1, 4));
    CHECK(handle.at == NULL);
    CHECK(is_left(linsim_line(&handle, nowhere, 0, nowhere, 0, &report), LINSIM_IS_CLOSED, 0, 0, 0, 0));
    clear();
    CHECK(is_left(linsim_open(ldf, ldf_length, &settings, &handle, &report), LINSIM_DONE, 0, 0, 0, 0));
    clear();
    CHECK(is_left(linsim_newest(&handle, nowhere, 0, &report), LINSIM_DONE, 0, 0, 0, 0));
    clear();
    CHECK(is_left(linsim_line(&handle, nowhere, 0, nowhere, 0, &report), LINSIM_DONE, 0, 0, 0, 0));
    clear();
    CHECK(is_left(linsim_line(&handle, bytes("bus open"), 8, nowhere, 0, &report), LINSIM_NO_ROOM, length, 0, 0, 0));
    clear();
    CHECK(is_left(linsim_newest(&handle, nowhere, 0, &report), LINSIM_NO_ROOM, length, 0, 0, 0));
    linsim_close(&handle);
    CHECK(handle.at == NULL);
    clear();
    CHECK(is_left(linsim_newest(&handle, nowhere, 0, &report), LINSIM_IS_CLOSED, 0, 0, 0, 0));
}

/* Where the members of the structs are, as callers were compiled with. */
static void layouts(void) {
    CHECK(sizeof(linsim_settings) == 16 && sizeof(linsim_report) == 32 && sizeof(linsim_handle) == 8);
    CHECK(offsetof(linsim_settings, capacity) == 0 && offsetof(linsim_settings, flags) == 8 && offsetof(linsim_settings, table) == 12);
    CHECK(sizeof(linsim_bench_settings) == 24 && offsetof(linsim_bench_settings, size) == 0 && offsetof(linsim_bench_settings, capacity) == 8);
    CHECK(offsetof(linsim_bench_settings, flags) == 16 && offsetof(linsim_bench_settings, format) == 20
          && offsetof(linsim_bench_settings, table) == 22);
    CHECK(offsetof(linsim_report, length) == 0 && offsetof(linsim_report, line) == 8 && offsetof(linsim_report, column) == 16
          && offsetof(linsim_report, number) == 24);
}

/* Opens a bench with settings of which there are as many bytes as their size says, and at least 8; closes it again. */
static uint32_t opened_with(const void *settings, size_t size) {
    const size_t there = size < 8 || size > 4096 ? 8 : size;
    linsim_handle handle = {NULL};
    uint8_t *alone = malloc(there);
    uint32_t status;
    if (!alone)
        exit(2);
    memcpy(alone, settings, there);
    memcpy(alone, &size, 8);
    clear();
    status = linsim_open_bench(ldf, ldf_length, (const linsim_bench_settings *)(void *)alone, &handle, &report);
    CHECK((status == LINSIM_DONE) == (handle.at != NULL));
    linsim_close(&handle);
    free(alone);
    return status;
}

/* The sizes of settings: shorter ones have the defaults for what they don't have, and longer ones have no more bytes but 0. */
static void sizes(void) {
    enum { KNOWN = sizeof(linsim_bench_settings), MOST = 4096 };
    static const linsim_bench_settings wrong = {0, 5000, 8, 3, 1};
    static uint8_t settings[MOST + 1];
    size_t size;
    for (size = 0; size < 8; size++)
        CHECK(is_left(opened_with(settings, size), LINSIM_BAD_SIZE, 0, 0, 0, 0));
    for (; size <= KNOWN + 8; size++)
        CHECK(is_left(opened_with(settings, size), LINSIM_DONE, 0, 0, 0, 0));
    CHECK(is_left(opened_with(settings, MOST), LINSIM_DONE, 0, 0, 0, 0));
    CHECK(is_left(opened_with(settings, MOST + 1), LINSIM_BAD_SIZE, 0, 0, 0, 0));
    CHECK(is_left(opened_with(settings, SIZE_MAX), LINSIM_BAD_SIZE, 0, 0, 0, 0));
    CHECK(is_left(opened_with(settings, (size_t)1 << 32 | KNOWN), LINSIM_BAD_SIZE, 0, 0, 0, 0));
    settings[KNOWN] = 1;
    CHECK(is_left(opened_with(settings, KNOWN), LINSIM_DONE, 0, 0, 0, 0));
    CHECK(is_left(opened_with(settings, KNOWN + 1), LINSIM_BAD_SIZE, 0, 0, 0, 0));
    settings[KNOWN] = 0;
    settings[MOST - 1] = 0x80;
    CHECK(is_left(opened_with(settings, MOST - 1), LINSIM_DONE, 0, 0, 0, 0));
    CHECK(is_left(opened_with(settings, MOST), LINSIM_BAD_SIZE, 0, 0, 0, 0));
    /* what is wrong with members counts where they are there, and in their order */
    memcpy(settings, &wrong, KNOWN);
    CHECK(is_left(opened_with(settings, 8), LINSIM_DONE, 0, 0, 0, 0));
    CHECK(is_left(opened_with(settings, 16), LINSIM_BAD_CAPACITY, 0, 0, 0, 0));
    CHECK(is_left(opened_with(settings, 20), LINSIM_UNKNOWN_FLAGS, 0, 0, 0, 0));
    settings[16] = 7;
    CHECK(is_left(opened_with(settings, KNOWN), LINSIM_BAD_CAPACITY, 0, 0, 0, 0));
    settings[8] = 0;
    settings[9] = 4;
    CHECK(is_left(opened_with(settings, 20), LINSIM_DONE, 0, 0, 0, 0));
    CHECK(is_left(opened_with(settings, KNOWN), LINSIM_UNKNOWN_FORMAT, 0, 0, 0, 0));
    settings[20] = 1;
    CHECK(is_left(opened_with(settings, KNOWN), LINSIM_NO_TABLE, 0, 0, 0, 0));
    settings[22] = 0;
    CHECK(is_left(opened_with(settings, KNOWN), LINSIM_DONE, 0, 0, 0, 0));
}

static uint32_t opened(linsim_handle *handle, const uint8_t *text, size_t length, const linsim_bench_settings *settings) {
    clear();
    return linsim_open_bench(text, length, settings, handle, &report);
}

/* A semicolon too many is read over by the wider grammar alone. */
static const char wide[] =
    "LIN_description_file;\nLIN_protocol_version = \"2.2\";\nLIN_language_version = \"2.2\";\nLIN_speed = 19.2 kbps;\n"
    "Nodes { Master: m, 5 ms, 0.1 ms; Slaves: s;; }\nSchedule_tables { t { MasterReq delay 10 ms; } }\n";

/* What settings and LDFs a bench is opened with. */
static void benches_opened(void) {
    linsim_bench_settings settings = {.size = sizeof settings};
    const linsim_settings script = {16, 0, 0};
    linsim_handle handle = {NULL};
    settings.capacity = 1025;
    CHECK(is_left(opened(&handle, ldf, ldf_length, &settings), LINSIM_BAD_CAPACITY, 0, 0, 0, 0));
    settings.capacity = SIZE_MAX;
    CHECK(is_left(opened(&handle, ldf, ldf_length, &settings), LINSIM_BAD_CAPACITY, 0, 0, 0, 0));
    settings.flags = 1u << 31 | LINSIM_FIELD;
    CHECK(is_left(opened(&handle, ldf, ldf_length, &settings), LINSIM_UNKNOWN_FLAGS, 0, 0, 0, 0));
    settings.flags = 8;
    CHECK(is_left(opened(&handle, ldf, ldf_length, &settings), LINSIM_UNKNOWN_FLAGS, 0, 0, 0, 0));
    settings.flags = settings.capacity = 0;
    settings.format = 3;
    CHECK(is_left(opened(&handle, bytes("x"), 1, &settings), LINSIM_UNKNOWN_FORMAT, 0, 0, 0, 0));
    settings.format = 65535;
    CHECK(is_left(opened(&handle, ldf, ldf_length, &settings), LINSIM_UNKNOWN_FORMAT, 0, 0, 0, 0));
    settings.format = LINSIM_FORMAT_NAMED;
    settings.table = 1;
    CHECK(is_left(opened(&handle, nowhere, 0, &settings), LINSIM_BAD_LDF, 0, 1, 1, 4));
    CHECK(is_left(opened(&handle, bytes("\n/*"), 3, &settings), LINSIM_BAD_LDF, 0, 2, 1, 2));
    CHECK(is_left(opened(&handle, bytes(no_table), strlen(no_table), &settings), LINSIM_FINDING, 0, 1, 1, 16));
    CHECK(is_left(opened(&handle, ldf, ldf_length, &settings), LINSIM_NO_TABLE, 0, 0, 0, 0));
    settings.table = 65535;
    CHECK(is_left(opened(&handle, ldf, ldf_length, &settings), LINSIM_NO_TABLE, 0, 0, 0, 0));
    CHECK(handle.at == NULL);
    settings.table = 0;
    /* the wider grammar reads more, and of what is wrong in both it says the same */
    CHECK(is_left(opened(&handle, bytes(wide), strlen(wide), &settings), LINSIM_BAD_LDF, 0, 5, 44, 4));
    settings.flags = LINSIM_FIELD | LINSIM_PHYSICAL;
    CHECK(is_left(opened(&handle, bytes("\n/*"), 3, &settings), LINSIM_BAD_LDF, 0, 2, 1, 2));
    CHECK(is_left(opened(&handle, bytes(no_table), strlen(no_table), &settings), LINSIM_FINDING, 0, 1, 1, 16));
    CHECK(is_left(opened(&handle, bytes(wide), strlen(wide), &settings), LINSIM_DONE, 0, 0, 0, 0));
    CHECK(is_left(opened(&handle, bytes(wide), strlen(wide), &settings), LINSIM_IS_OPEN, 0, 0, 0, 0));
    settings.size = 0;
    CHECK(is_left(opened(&handle, nowhere, 0, &settings), LINSIM_IS_OPEN, 0, 0, 0, 0));
    clear();
    CHECK(is_left(linsim_open(ldf, ldf_length, &script, &handle, &report), LINSIM_IS_OPEN, 0, 0, 0, 0));
    linsim_close(&handle);
    CHECK(handle.at == NULL);
    clear();
    CHECK(is_left(linsim_open(ldf, ldf_length, &script, &handle, &report), LINSIM_DONE, 0, 0, 0, 0));
    CHECK(is_left(opened(&handle, ldf, ldf_length, &settings), LINSIM_IS_OPEN, 0, 0, 0, 0));
    CHECK(is_left(made(&handle, "nonsense", sizeof out), LINSIM_BAD_LINE, 0, 1, 0, 0));
    linsim_close(&handle);
    CHECK(is_left(opened(&handle, ldf, ldf_length, &settings), LINSIM_BAD_SIZE, 0, 0, 0, 0));
}

/* A line's answer is this text with this number, also if its room is one byte short, and when it is had again. */
static void answers(linsim_handle *handle, const char *line, const char *text, uint32_t number, int line_of_check) {
    const size_t length = strlen(text);
    check(is_left(made(handle, line, length), LINSIM_DONE, length, 0, 0, number), line_of_check, line);
    check(memcmp(out, text, length) == 0, line_of_check, text);
    clear();
    check(is_left(linsim_newest(handle, out, length - 1, &report), LINSIM_NO_ROOM, length, 0, 0, number), line_of_check, line);
    clear();
    check(is_left(linsim_newest(handle, out, length, &report), LINSIM_DONE, length, 0, 0, number), line_of_check, line);
    check(memcmp(out, text, length) == 0, line_of_check, text);
}
#define ANSWERS(line, text, number) answers(&handle, line, text, number, __LINE__)

/* Each end of an answer, and what a bench has after it. */
static void benches(void) {
    static const char one_slot[] = "bus open\n> slot 0 0 -\nbus finish\n> seen silent\n# ok\n";
    static const char second_slot[] = "bus open\n> slot 0 1 7D\nbus finish\n> seen none\n# ok\n";
    linsim_bench_settings settings = {.size = sizeof settings};
    linsim_handle handle = {NULL};
    int n;
    CHECK(is_left(opened(&handle, ldf, ldf_length, &settings), LINSIM_DONE, 0, 0, 0, 0));
    clear();
    CHECK(is_left(linsim_newest(&handle, nowhere, 0, &report), LINSIM_DONE, 0, 0, 0, 0));
    ANSWERS("\xEF\xBB\xBF? time", "# is 0\n", LINSIM_END_IS);
    ANSWERS("", "# ok\n", LINSIM_END_OK);
    ANSWERS("> slot 0 0", "# ok\n", LINSIM_END_OK);
    ANSWERS("# is 5", "# ok\n", LINSIM_END_OK);
    ANSWERS("slot\r", one_slot, LINSIM_END_OK);
    ANSWERS("bus finish", "bus finish\n> refused 13\n# refused 13 NoSlot\n", LINSIM_END_REFUSED);
    ANSWERS("expect sent cem", "# expected sent cem: none\n", LINSIM_END_EXPECTED);
    ANSWERS("nonsense", "# bad line: unknown step nonsense\n", LINSIM_END_BAD_LINE);
    ANSWERS("bus open\n# ok", "# bad line: unknown step open?#\n", LINSIM_END_BAD_LINE);
    ANSWERS("\xEF\xBB\xBFslot", "# bad line: unknown step \xEF\xBB\xBFslot\n", LINSIM_END_BAD_LINE);
    /* the line is made, though its answer has no room */
    CHECK(is_left(made(&handle, "slot", 0), LINSIM_NO_ROOM, strlen(second_slot), 0, 0, LINSIM_END_OK));
    clear();
    CHECK(is_left(linsim_newest(&handle, out, sizeof out, &report), LINSIM_DONE, strlen(second_slot), 0, 0, LINSIM_END_OK));
    CHECK(memcmp(out, second_slot, strlen(second_slot)) == 0);
    ANSWERS("? time", "# is 20000\n", LINSIM_END_IS);
    clear();
    CHECK(is_left(linsim_line(&handle, nowhere, 0, nowhere, 0, &report), LINSIM_NO_ROOM, 5, 0, 0, LINSIM_END_OK));
    linsim_close(&handle);
    CHECK(handle.at == NULL);
    CHECK(is_left(made(&handle, "slot", sizeof out), LINSIM_IS_CLOSED, 0, 0, 0, 0));
    clear();
    CHECK(is_left(linsim_newest(&handle, out, sizeof out, &report), LINSIM_IS_CLOSED, 0, 0, 0, 0));
    /* the capacity is that of the settings, and 16 without one */
    CHECK(is_left(opened(&handle, ldf, ldf_length, &settings), LINSIM_DONE, 0, 0, 0, 0));
    for (n = 0; n < 16; n++)
        CHECK(made(&handle, "send cem door 3E", sizeof out) == LINSIM_DONE && report.number == LINSIM_END_OK);
    CHECK(made(&handle, "send cem door 3E", sizeof out) == LINSIM_DONE && report.number == LINSIM_END_REFUSED);
    linsim_close(&handle);
    settings.capacity = 1;
    settings.format = LINSIM_FORMAT_NAMED;
    CHECK(is_left(opened(&handle, ldf, ldf_length, &settings), LINSIM_DONE, 0, 0, 0, 0));
    CHECK(made(&handle, "send cem door 3E", sizeof out) == LINSIM_DONE && report.number == LINSIM_END_OK);
    CHECK(made(&handle, "send cem door 3E", sizeof out) == LINSIM_DONE && report.number == LINSIM_END_REFUSED);
    linsim_close(&handle);
}

/* The longest LDF and the longest line, and those of a byte more. The statuses' numbers are those that callers were
 * compiled with. */
static void limits(void) {
    enum { LONGEST_LDF = 4194304, LONGEST_LINE = 16777216 };
    static uint8_t text[LONGEST_LDF + 1], line[LONGEST_LINE + 2];
    static const char long_line[] = "# bad line: the line has more than 16,777,216 bytes\n";
    linsim_settings settings = {16, 0, 0};
    linsim_bench_settings bench = {.size = sizeof bench};
    linsim_handle handle = {NULL};
    memset(text, ' ', sizeof text);
    memcpy(text, ldf, ldf_length);
    clear();
    CHECK(is_left(linsim_replay(text, LONGEST_LDF + 1, &settings, bytes("bus open"), 8, out, sizeof out, &report), LINSIM_BAD_LDF,
                  0, 0, 0, 0));
    clear();
    CHECK(is_left(linsim_open(text, LONGEST_LDF + 1, &settings, &handle, &report), LINSIM_BAD_LDF, 0, 0, 0, 0));
    CHECK(handle.at == NULL);
    settings.capacity = 0;
    clear();
    CHECK(is_left(linsim_open(text, LONGEST_LDF + 1, &settings, &handle, &report), LINSIM_BAD_CAPACITY, 0, 0, 0, 0));
    settings.capacity = 16;
    clear();
    CHECK(is_left(linsim_open(text, LONGEST_LDF, &settings, &handle, &report), LINSIM_DONE, 0, 0, 0, 0));
    memset(line, '#', sizeof line);
    clear();
    CHECK(is_left(linsim_line(&handle, line, LONGEST_LINE + 1, out, sizeof out, &report), LINSIM_BAD_LINE, 0, 1, 0, 0));
    clear();
    CHECK(is_left(linsim_line(&handle, line, LONGEST_LINE, out, sizeof out, &report), LINSIM_DONE, 0, 0, 0, 0));
    line[LONGEST_LINE] = '\r';
    clear();
    CHECK(is_left(linsim_line(&handle, line, LONGEST_LINE + 1, out, sizeof out, &report), LINSIM_DONE, 0, 0, 0, 0));
    linsim_close(&handle);
    CHECK(is_left(opened(&handle, text, LONGEST_LDF + 1, &bench), LINSIM_BAD_LDF, 0, 0, 0, 0));
    bench.flags = LINSIM_FIELD;
    CHECK(is_left(opened(&handle, text, LONGEST_LDF + 1, &bench), LINSIM_BAD_LDF, 0, 0, 0, 0));
    CHECK(is_left(opened(&handle, text, LONGEST_LDF, &bench), LINSIM_DONE, 0, 0, 0, 0));
    clear();
    CHECK(is_left(linsim_line(&handle, line, LONGEST_LINE + 1, out, sizeof out, &report), LINSIM_DONE, 5, 0, 0, LINSIM_END_OK));
    line[LONGEST_LINE] = '#';
    clear();
    CHECK(is_left(linsim_line(&handle, line, LONGEST_LINE, out, sizeof out, &report), LINSIM_DONE, 5, 0, 0, LINSIM_END_OK));
    clear();
    CHECK(is_left(linsim_line(&handle, line, LONGEST_LINE + 1, out, sizeof out, &report), LINSIM_DONE, strlen(long_line), 0, 0,
                  LINSIM_END_BAD_LINE));
    CHECK(memcmp(out, long_line, strlen(long_line)) == 0);
    linsim_close(&handle);
    CHECK(LINSIM_DONE == 0 && LINSIM_UNKNOWN_FLAGS == 1 && LINSIM_BAD_CAPACITY == 2 && LINSIM_BAD_LDF == 3);
    CHECK(LINSIM_FINDING == 4 && LINSIM_NO_TABLE == 5 && LINSIM_LONG_SCRIPT == 6 && LINSIM_BAD_LINE == 7);
    CHECK(LINSIM_NO_ROOM == 8 && LINSIM_NO_MEMORY == 9 && LINSIM_LOG_FULL == 10 && LINSIM_UNTOLD == 11);
    CHECK(LINSIM_IS_OPEN == 12 && LINSIM_IS_CLOSED == 13 && LINSIM_BAD_SIZE == 14 && LINSIM_UNKNOWN_FORMAT == 15);
    CHECK(LINSIM_END_OK == 1 && LINSIM_END_IS == 2 && LINSIM_END_REFUSED == 3 && LINSIM_END_EXPECTED == 4);
    CHECK(LINSIM_END_BAD_LINE == 5 && LINSIM_END_SLOT_LIMIT == 6);
    CHECK(LINSIM_FORMAT_LOG == 0 && LINSIM_FORMAT_NAMED == 1 && LINSIM_FORMAT_JSONL == 2 && LINSIM_FIELD == 1 && LINSIM_PHYSICAL == 2);
    CHECK(LINSIM_CONFIGURATION == 4);
}

/* Each status was seen but those that a full memory or a full log has. */
static void all_seen(void) {
    uint32_t status;
    for (status = 0; status < STATUSES; status++)
        CHECK(is_seen[status] == (status < LINSIM_NO_MEMORY || status > LINSIM_UNTOLD));
}

static void handles(void) {
    linsim_handle handle = {NULL}, other = {NULL};
    linsim_settings settings = {16, 0, 0}, wrong = {16, 0, 9};
    const size_t length = strlen(open_text);
    CHECK(is_left(made(&handle, "bus open", sizeof out), LINSIM_IS_CLOSED, 0, 0, 0, 0));
    clear();
    CHECK(is_left(linsim_newest(&handle, out, sizeof out, &report), LINSIM_IS_CLOSED, 0, 0, 0, 0));
    linsim_close(&handle);
    CHECK(handle.at == NULL);
    clear();
    CHECK(is_left(linsim_open(ldf, ldf_length, &wrong, &handle, &report), LINSIM_NO_TABLE, 0, 0, 0, 0));
    CHECK(handle.at == NULL);
    clear();
    CHECK(is_left(linsim_open(bytes("\n x"), 3, &wrong, &handle, &report), LINSIM_BAD_LDF, 0, 2, 2, 4));
    clear();
    CHECK(is_left(linsim_open(bytes(no_table), strlen(no_table), &wrong, &handle, &report), LINSIM_FINDING, 0, 1, 1, 16));
    wrong.capacity = 0;
    clear();
    CHECK(is_left(linsim_open(ldf, ldf_length, &wrong, &handle, &report), LINSIM_BAD_CAPACITY, 0, 0, 0, 0));
    wrong.flags = 2;
    clear();
    CHECK(is_left(linsim_open(ldf, ldf_length, &wrong, &handle, &report), LINSIM_UNKNOWN_FLAGS, 0, 0, 0, 0));
    clear();
    CHECK(is_left(linsim_open(ldf, ldf_length, &settings, &handle, &report), LINSIM_DONE, 0, 0, 0, 0));
    clear();
    CHECK(is_left(linsim_open(ldf, ldf_length, &wrong, &handle, &report), LINSIM_IS_OPEN, 0, 0, 0, 0));
    clear();
    CHECK(is_left(linsim_newest(&handle, out, 0, &report), LINSIM_DONE, 0, 0, 0, 0));
    CHECK(is_left(made(&handle, "nonsense", sizeof out), LINSIM_BAD_LINE, 0, 1, 0, 0));
    CHECK(is_left(made(&handle, "bus open\nbus finish", sizeof out), LINSIM_BAD_LINE, 0, 1, 0, 0));
    CHECK(is_left(made(&handle, "# bus open", 0), LINSIM_DONE, 0, 0, 0, 0));
    CHECK(is_left(made(&handle, "", 0), LINSIM_DONE, 0, 0, 0, 0));
    /* of these lines none was made, so the slot is the first; its text has no room, but the step is made */
    CHECK(is_left(made(&handle, "bus open\r", length - 1), LINSIM_NO_ROOM, length, 0, 0, 0));
    clear();
    CHECK(is_left(linsim_newest(&handle, out, length - 1, &report), LINSIM_NO_ROOM, length, 0, 0, 0));
    clear();
    CHECK(is_left(linsim_newest(&handle, out, length, &report), LINSIM_DONE, length, 0, 0, 0));
    CHECK(memcmp(out, open_text, length) == 0);
    /* two clusters at once have nothing in common */
    CHECK(linsim_open(ldf, ldf_length, &settings, &other, &report) == LINSIM_DONE);
    CHECK(is_left(made(&other, "bus open", length), LINSIM_DONE, length, 0, 0, 0));
    CHECK(memcmp(out, open_text, length) == 0);
    CHECK(is_left(made(&handle, "bus finish", sizeof out), LINSIM_DONE, strlen(finish_text), 0, 0, 0));
    CHECK(memcmp(out, finish_text, strlen(finish_text)) == 0);
    linsim_close(&handle);
    linsim_close(&handle);
    CHECK(is_left(made(&handle, "bus open", sizeof out), LINSIM_IS_CLOSED, 0, 0, 0, 0));
    CHECK(linsim_open(ldf, ldf_length, &settings, &handle, &report) == LINSIM_DONE);
    CHECK(is_left(made(&handle, "bus open", sizeof out), LINSIM_DONE, length, 0, 0, 0));
    linsim_close(&handle);
    linsim_close(&other);
}

int main(int argc, char **argv) {
    FILE *file = argc == 3 ? fopen(argv[1], "rb") : NULL;
    if (!file)
        return 2;
    ldf_length = fread(ldf, 1, sizeof ldf, file);
    fclose(file);
    version(argv[2]);
    whole_runs();
    handles();
    sizes();
    benches_opened();
    benches();
    nothing();
    limits();
    layouts();
    all_seen();
    printf("%lu passed, %lu failed\n", passed, failed);
    return failed != 0;
}
