/* replay FILE.ldf TABLE CAPACITY < SCRIPT: writes the script's log, made whole by linsim_replay, and checks that the same
 * lines make the same log, one by one, behind a handle. The exit status is that of linsim_replay. */
#include "linsim.h"

#include <stdio.h>
#include <stdlib.h>
#include <string.h>

static uint8_t *read_all(FILE *file, size_t *length) {
    size_t room = 1 << 16;
    uint8_t *bytes = malloc(room);
    *length = 0;
    while (bytes) {
        *length += fread(bytes + *length, 1, room - *length, file);
        if (*length < room)
            return bytes;
        room *= 2;
        bytes = realloc(bytes, room);
    }
    exit(100);
}

static void expect(int is_so, const char *what) {
    if (!is_so) {
        fprintf(stderr, "replay: %s\n", what);
        exit(101);
    }
}

/* The log of the script's lines, made one by one, is this one. */
static void by_lines(const uint8_t *ldf, size_t ldf_length, const linsim_settings *settings, const uint8_t *script,
                     size_t script_length, const uint8_t *log, size_t log_length) {
    linsim_handle handle = {NULL};
    linsim_report report;
    size_t from = 0, written = 0;
    uint8_t *out = malloc(log_length + 1);
    expect(out != NULL, "no memory");
    expect(linsim_open(ldf, ldf_length, settings, &handle, &report) == LINSIM_DONE, "not opened");
    while (from <= script_length) {
        const uint8_t *end = memchr(script + from, '\n', script_length - from);
        size_t length = end ? (size_t)(end - (script + from)) : script_length - from;
        expect(linsim_line(&handle, script + from, length, out + written, log_length - written, &report) == LINSIM_DONE,
               "a line isn't made");
        written += report.length;
        from += length + 1;
    }
    expect(written == log_length && memcmp(out, log, written) == 0, "lines make another log");
    linsim_close(&handle);
    free(out);
}

int main(int argc, char **argv) {
    linsim_settings settings = {0, 0, 0};
    linsim_report report;
    size_t ldf_length, script_length;
    uint8_t none, *ldf, *script, *log;
    uint32_t status;
    FILE *file = argc == 4 ? fopen(argv[1], "rb") : NULL;
    if (!file)
        return 102;
    ldf = read_all(file, &ldf_length);
    fclose(file);
    script = read_all(stdin, &script_length);
    settings.table = (uint16_t)atoi(argv[2]);
    settings.capacity = (size_t)atoi(argv[3]);

    status = linsim_replay(ldf, ldf_length, &settings, script, script_length, &none, 0, &report);
    if (status == LINSIM_NO_ROOM) {
        size_t needed = report.length;
        log = malloc(needed);
        expect(log != NULL, "no memory");
        status = linsim_replay(ldf, ldf_length, &settings, script, script_length, log, needed, &report);
        expect(status == LINSIM_DONE && report.length == needed, "another length was needed");
        by_lines(ldf, ldf_length, &settings, script, script_length, log, needed);
        fwrite(log, 1, needed, stdout);
        free(log);
    } else if (status != LINSIM_DONE) {
        fprintf(stderr, "%lu:%lu %lu\n", (unsigned long)report.line, (unsigned long)report.column,
                (unsigned long)report.number);
    }
    free(ldf);
    free(script);
    return (int)status;
}
