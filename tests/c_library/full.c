/* A log that is full: full FILE.ldf, the built-in cluster, with a library whose log takes 5 entries. Writes a line for each failed
 * check, and then `N passed, M failed`. */
#include "linsim.h"

#include <stdio.h>
#include <string.h>

static uint8_t ldf[1 << 16], out[1 << 16];
static size_t ldf_length;
static linsim_report report;
static unsigned long passed, failed;

static void check(int is_so, int line, const char *what) {
    if (is_so) {
        passed++;
    } else {
        failed++;
        printf("full.c:%d: not so: %s\n", line, what);
    }
}
#define CHECK(is_so) check((is_so), __LINE__, #is_so)

static uint32_t made(linsim_handle *handle, const char *line) {
    memset(out, 0xAA, sizeof out);
    memset(&report, 0x55, sizeof report);
    return linsim_line(handle, (const uint8_t *)line, strlen(line), out, sizeof out, &report);
}

/* The report is 0, and nothing was written. */
static int is_untouched(void) {
    size_t at = 0;
    while (at < sizeof out && out[at] == 0xAA)
        at++;
    return at == sizeof out && report.length == 0 && report.line == 0 && report.column == 0 && report.number == 0;
}

/* The log of a script: a further step isn't made, and what was made stays. */
static void script(void) {
    static const char newest[] = "bus open\n> slot 0 0 -\n";
    const linsim_settings settings = {16, 0, 0};
    linsim_handle handle = {NULL};
    int n;
    CHECK(linsim_open(ldf, ldf_length, &settings, &handle, &report) == LINSIM_DONE);
    for (n = 0; n < 5; n++)
        CHECK(made(&handle, n % 2 ? "bus finish" : "bus open") == LINSIM_DONE);
    for (n = 0; n < 2; n++) {
        CHECK(made(&handle, "bus finish") == LINSIM_LOG_FULL);
        CHECK(is_untouched() && handle.at != NULL);
    }
    CHECK(made(&handle, "# no step") == LINSIM_DONE);
    CHECK(made(&handle, "nonsense") == LINSIM_BAD_LINE);
    CHECK(linsim_newest(&handle, out, sizeof out, &report) == LINSIM_DONE && report.length == strlen(newest)
          && memcmp(out, newest, strlen(newest)) == 0);
    linsim_close(&handle);
}

/* That of a bench, which is closed by a line that would make more. */
static void bench(void) {
    const linsim_bench_settings settings = {.size = sizeof settings};
    linsim_handle handle = {NULL};
    CHECK(linsim_open_bench(ldf, ldf_length, &settings, &handle, &report) == LINSIM_DONE);
    CHECK(made(&handle, "slots 2") == LINSIM_DONE && report.number == LINSIM_END_OK);
    CHECK(made(&handle, "open") == LINSIM_DONE && report.number == LINSIM_END_OK);
    CHECK(made(&handle, "? time") == LINSIM_DONE && report.number == LINSIM_END_IS);
    CHECK(made(&handle, "finish") == LINSIM_LOG_FULL);
    CHECK(is_untouched() && handle.at == NULL);
    CHECK(made(&handle, "? time") == LINSIM_IS_CLOSED);
    CHECK(linsim_open_bench(ldf, ldf_length, &settings, &handle, &report) == LINSIM_DONE);
    CHECK(made(&handle, "slots 3") == LINSIM_LOG_FULL);
    CHECK(is_untouched() && handle.at == NULL);
}

int main(int argc, char **argv) {
    FILE *file = argc == 2 ? fopen(argv[1], "rb") : NULL;
    if (!file)
        return 2;
    ldf_length = fread(ldf, 1, sizeof ldf, file);
    fclose(file);
    script();
    bench();
    printf("%lu passed, %lu failed\n", passed, failed);
    return failed != 0;
}
