/* bench FILE.ldf TABLE FLAGS FORMAT [ROOM] < LINES: writes the answer to each line, as `linsim live` does. Each line is given ROOM
 * bytes (without ROOM: enough), and an answer that is longer is had again from linsim_newest. The number of each report is that of
 * the answer's last line. The exit status is that of `live`; 2 and a line on standard error for another status of linsim_open_bench,
 * 100 and more for what isn't so. */
#include "linsim.h"

#include <stdio.h>
#include <stdlib.h>
#include <string.h>

static void expect(int is_so, const char *what) {
    if (!is_so) {
        fprintf(stderr, "bench: %s\n", what);
        exit(101);
    }
}

static uint8_t *read_all(FILE *file, size_t *length) {
    size_t room = 1 << 16;
    uint8_t *bytes = malloc(room);
    *length = 0;
    while (bytes) {
        *length += fread(bytes + *length, 1, room - *length, file);
        if (*length < room)
            return bytes;
        room *= 2;
        bytes = realloc(bytes, room);
    }
    exit(100);
}

static int begins(const uint8_t *line, size_t length, const char *words) {
    return length >= strlen(words) && memcmp(line, words, strlen(words)) == 0;
}

/* The number of an answer, by its last line. */
static uint32_t ending_of(const uint8_t *answer, size_t length) {
    static const struct {
        const char *words, *object;
        uint32_t number;
    } ends[] = {{"# ok\n", "{\"type\":\"answer\",\"end\":\"ok\"}\n", LINSIM_END_OK},
                {"# is ", "{\"type\":\"answer\",\"end\":\"is\",", LINSIM_END_IS},
                {"# refused ", "{\"type\":\"answer\",\"end\":\"refused\",", LINSIM_END_REFUSED},
                {"# expected ", "{\"type\":\"answer\",\"end\":\"expected\",", LINSIM_END_EXPECTED},
                {"# bad line: ", "{\"type\":\"answer\",\"end\":\"bad line\",", LINSIM_END_BAD_LINE},
                {"# slot limit\n", "{\"type\":\"answer\",\"end\":\"slot limit\"}\n", LINSIM_END_SLOT_LIMIT}};
    size_t from = length, n;
    expect(length > 0 && answer[length - 1] == '\n', "an answer has no last line");
    for (from = length - 1; from > 0 && answer[from - 1] != '\n'; from--)
        ;
    for (n = 0; n < sizeof ends / sizeof *ends; n++)
        if (begins(answer + from, length - from, ends[n].words) || begins(answer + from, length - from, ends[n].object))
            return ends[n].number;
    return 0;
}

static uint8_t *out, *again;
static size_t room = 1 << 16, most = 1 << 16;

/* Makes both buffers as long as this. */
static void make_room(size_t length) {
    if (length <= most)
        return;
    most = length;
    out = realloc(out, most);
    again = realloc(again, most);
    expect(out && again, "no memory");
}

/* Writes the answer to a line, and returns its number. */
static uint32_t answer(linsim_handle *handle, const uint8_t *line, size_t length) {
    linsim_report report, told;
    uint32_t status = linsim_line(handle, line, length, out, room, &report);
    make_room(report.length);
    expect(linsim_newest(handle, again, most, &told) == LINSIM_DONE, "the answer isn't told again");
    expect(told.length == report.length && told.number == report.number && report.line == 0 && report.column == 0,
           "the answer is told again with another report");
    expect(status == (report.length > room ? LINSIM_NO_ROOM : LINSIM_DONE), "a line isn't answered");
    expect(status == LINSIM_NO_ROOM || memcmp(out, again, report.length) == 0, "another answer is told again");
    expect(report.number == ending_of(again, report.length), "an answer has another number");
    fwrite(again, 1, report.length, stdout);
    return report.number;
}

int main(int argc, char **argv) {
    linsim_bench_settings settings = {.size = sizeof settings};
    linsim_handle handle = {NULL};
    linsim_report report;
    size_t ldf_length, length, from = 0;
    uint8_t *ldf, *lines;
    uint32_t status;
    int is_bad = 0, is_unmet = 0;
    FILE *file = argc == 5 || argc == 6 ? fopen(argv[1], "rb") : NULL;
    if (!file)
        return 102;
    ldf = read_all(file, &ldf_length);
    fclose(file);
    lines = read_all(stdin, &length);
    settings.table = (uint16_t)atoi(argv[2]);
    settings.flags = (uint32_t)atoi(argv[3]);
    settings.format = (uint16_t)atoi(argv[4]);
    if (argc == 6)
        room = (size_t)atol(argv[5]);
    out = malloc(most);
    again = malloc(most);
    expect(out && again && room <= most, "no memory");

    status = linsim_open_bench(ldf, ldf_length, &settings, &handle, &report);
    if (status != LINSIM_DONE) {
        fprintf(stderr, "%lu %lu:%lu %lu\n", (unsigned long)status, (unsigned long)report.line, (unsigned long)report.column,
                (unsigned long)report.number);
        return 2;
    }
    while (from < length) {
        const uint8_t *end = memchr(lines + from, '\n', length - from);
        size_t count = end ? (size_t)(end - (lines + from)) : length - from;
        uint32_t number = answer(&handle, lines + from, count);
        is_bad |= number == LINSIM_END_BAD_LINE || number == LINSIM_END_SLOT_LIMIT;
        is_unmet |= number == LINSIM_END_EXPECTED;
        from += count + 1;
    }
    linsim_close(&handle);
    free(out);
    free(again);
    free(ldf);
    free(lines);
    return is_bad ? 1 : is_unmet ? 6 : 0;
}
