/* calls FILE.ldf SCRIPT LONG_SCRIPT LOG LONG_LOG LINES ANSWERS SECONDS: times 100,000 whole runs of SCRIPT, whose log is LOG; the
 * lines of LONG_SCRIPT on one open cluster, whose log is LONG_LOG; and the LINES of a bench script on one bench, whose answers are
 * ANSWERS, and which `live` answers in so many SECONDS of processor time. */
#include "linsim.h"

#include <stdio.h>
#include <stdlib.h>
#include <string.h>
#include <time.h>

#define RUNS 100000
#define TIMES 5

typedef struct text {
    uint8_t *bytes;
    size_t length;
} text;

static const linsim_settings settings = {16, 0, 0};
static linsim_report report;

static void expect(int is_so, const char *what) {
    if (!is_so) {
        fprintf(stderr, "calls: %s\n", what);
        exit(1);
    }
}

static text text_of(const char *path) {
    text it;
    FILE *file = fopen(path, "rb");
    long length;
    expect(file && fseek(file, 0, SEEK_END) == 0 && (length = ftell(file)) >= 0, path);
    rewind(file);
    it.length = (size_t)length;
    it.bytes = malloc(it.length + 1);
    expect(it.bytes && fread(it.bytes, 1, it.length, file) == it.length, path);
    fclose(file);
    return it;
}

static double seconds(void) {
    return (double)clock() / CLOCKS_PER_SEC;
}

static double whole_runs(text ldf, text script, text log, uint8_t *out) {
    double best = 1e9;
    int time, run;
    for (time = 0; time < TIMES; time++) {
        double began = seconds();
        for (run = 0; run < RUNS; run++)
            expect(linsim_replay(ldf.bytes, ldf.length, &settings, script.bytes, script.length, out, log.length, &report)
                           == LINSIM_DONE && report.length == log.length && memcmp(out, log.bytes, log.length) == 0,
                   "a whole run writes another log");
        if (seconds() - began < best)
            best = seconds() - began;
    }
    return best / RUNS;
}

/* The lines of a script on one open cluster, or of a bench script on one bench. */
static double lines(int is_bench, text ldf, text script, text log, uint8_t *out) {
    const linsim_bench_settings bench = {.size = sizeof bench};
    double best = 1e9;
    size_t made = 0;
    int time;
    for (time = 0; time < TIMES; time++) {
        linsim_handle handle = {NULL};
        size_t from = 0, written = 0;
        double began = seconds();
        made = 0;
        expect((is_bench ? linsim_open_bench(ldf.bytes, ldf.length, &bench, &handle, &report)
                         : linsim_open(ldf.bytes, ldf.length, &settings, &handle, &report))
                       == LINSIM_DONE,
               "not opened");
        while (from < script.length) {
            const uint8_t *line = script.bytes + from;
            const uint8_t *end = memchr(line, '\n', script.length - from);
            size_t length = end ? (size_t)(end - line) : script.length - from;
            expect(linsim_line(&handle, line, length, out + written, log.length - written, &report) == LINSIM_DONE,
                   "a line isn't made");
            written += report.length;
            from += length + 1;
            made++;
        }
        linsim_close(&handle);
        if (seconds() - began < best)
            best = seconds() - began;
        expect(written == log.length && memcmp(out, log.bytes, written) == 0, "lines make another log");
    }
    return best / (double)made;
}

static size_t count_of(text lines) {
    size_t at, count = 0;
    for (at = 0; at < lines.length; at++)
        count += lines.bytes[at] == '\n';
    return count;
}

int main(int argc, char **argv) {
    text ldf, first, script, log, long_log, bench, answers;
    uint8_t *out;
    double run, line, live;
    expect(argc == 9, "FILE.ldf SCRIPT LONG_SCRIPT LOG LONG_LOG LINES ANSWERS SECONDS");
    ldf = text_of(argv[1]);
    first = text_of(argv[2]);
    script = text_of(argv[3]);
    log = text_of(argv[4]);
    long_log = text_of(argv[5]);
    bench = text_of(argv[6]);
    answers = text_of(argv[7]);
    out = malloc(long_log.length > answers.length ? long_log.length : answers.length);
    expect(out != NULL, "no memory");
    run = whole_runs(ldf, first, log, out);
    printf("C: a whole run %.2f microseconds, %.0f a second\n", 1e6 * run, 1 / run);
    printf("C: a line %.2f microseconds\n", 1e6 * lines(0, ldf, script, long_log, out));
    line = lines(1, ldf, bench, answers, out);
    live = atof(argv[8]) / (double)count_of(bench);
    printf("C: a line of a bench script %.2f microseconds, %.2f times as long as in live\n", 1e6 * line, line / live);
    return run > 1e-4 || line > 1.5 * live;
}
