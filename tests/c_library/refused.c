/* Each call with each of its requests for memory refused in turn: refused FILE.ldf, the built-in cluster. It is linked with
 * -Wl,--wrap=malloc -Wl,--wrap=realloc. Writes a line for each failed check, and then `N passed, M failed`. */
#include "linsim.h"

#include <stdio.h>
#include <stdlib.h>
#include <string.h>

void *__real_malloc(size_t size);
void *__real_realloc(void *at, size_t size);

/* How many requests are still met before one is refused, and whether one was; none is while `is_on` is 0. And the largest
 * request. */
static long before;
static int is_on, was_refused;
static size_t largest;

static int refuses(size_t size) {
    if (size > largest)
        largest = size;
    if (!is_on || before-- != 0)
        return 0;
    was_refused = 1;
    return 1;
}

void *__wrap_malloc(size_t size) {
    return refuses(size) ? NULL : __real_malloc(size);
}

void *__wrap_realloc(void *at, size_t size) {
    return refuses(size) ? NULL : __real_realloc(at, size);
}

static void refuse(long number) {
    before = number;
    was_refused = 0;
    is_on = 1;
}

static uint8_t ldf[1 << 16], out[1 << 16], wanted[1 << 16];
static size_t ldf_length;
static linsim_report report;
static const linsim_settings settings = {16, 0, 0};
static unsigned long passed, failed;

static void check(int is_so, int line, const char *what) {
    if (is_so) {
        passed++;
    } else {
        failed++;
        printf("refused.c:%d: not so: %s\n", line, what);
    }
}
#define CHECK(is_so) check((is_so), __LINE__, #is_so)

static void clear(void) {
    memset(out, 0xAA, sizeof out);
    memset(&report, 0x55, sizeof report);
}

/* The report is 0, and nothing was written. */
static int is_untouched(void) {
    size_t at = 0;
    while (at < sizeof out && out[at] == 0xAA)
        at++;
    return at == sizeof out && report.length == 0 && report.line == 0 && report.column == 0 && report.number == 0;
}

static uint32_t replayed(void) {
    const char *script = "h0 send 0 1 0102030405060708\nbus open\nn0 answer 0\nbus finish\nbus open\nbus finish\n";
    clear();
    return linsim_replay(ldf, ldf_length, &settings, (const uint8_t *)script, strlen(script), out, sizeof out, &report);
}

static void whole_runs(void) {
    size_t length;
    uint32_t status;
    long number = 0;
    CHECK(replayed() == LINSIM_DONE);
    length = report.length;
    memcpy(wanted, out, sizeof wanted);
    for (;; number++) {
        refuse(number);
        status = replayed();
        is_on = 0;
        if (!was_refused)
            break;
        CHECK(status == LINSIM_NO_MEMORY);
        CHECK(is_untouched());
    }
    CHECK(number > 20);
    CHECK(status == LINSIM_DONE && report.length == length && memcmp(out, wanted, sizeof wanted) == 0);
}

/* The version is given without memory. */
static void version(void) {
    refuse(0);
    clear();
    CHECK(linsim_version(out, sizeof out, &report) == LINSIM_DONE);
    is_on = 0;
    CHECK(!was_refused);
}

static void opened(void) {
    linsim_handle handle = {NULL};
    uint32_t status;
    long number = 0;
    for (;; number++) {
        refuse(number);
        clear();
        status = linsim_open(ldf, ldf_length, &settings, &handle, &report);
        is_on = 0;
        if (!was_refused)
            break;
        CHECK(status == LINSIM_NO_MEMORY);
        CHECK(is_untouched() && handle.at == NULL);
    }
    CHECK(number > 20);
    CHECK(status == LINSIM_DONE && handle.at != NULL);
    linsim_close(&handle);
}

/* A line whose requests are refused in turn, until none is: the newest entry is that of the line before it (LINSIM_NO_MEMORY)
 * or its own (LINSIM_UNTOLD), after which it isn't made again. The counts are those of the two statuses. */
static void one_line(linsim_handle *handle, const char *line, const char *text, const char *earlier, unsigned *unmade, unsigned *untold) {
    long number = 0;
    for (;; number++) {
        uint32_t status;
        int is_refused;
        refuse(number);
        clear();
        status = linsim_line(handle, (const uint8_t *)line, strlen(line), out, sizeof out, &report);
        is_on = 0;
        is_refused = was_refused;
        if (!is_refused) {
            CHECK(status == LINSIM_DONE && report.length == strlen(text) && memcmp(out, text, strlen(text)) == 0);
            return;
        }
        CHECK(status == LINSIM_NO_MEMORY || status == LINSIM_UNTOLD);
        CHECK(is_untouched());
        clear();
        CHECK(linsim_newest(handle, out, sizeof out, &report) == LINSIM_DONE);
        if (status == LINSIM_UNTOLD) {
            ++*untold;
            CHECK(report.length == strlen(text) && memcmp(out, text, strlen(text)) == 0);
            refuse(0);
            clear();
            CHECK(linsim_newest(handle, out, sizeof out, &report) == LINSIM_NO_MEMORY);
            is_on = 0;
            CHECK(is_untouched());
            return;
        }
        ++*unmade;
        CHECK(report.length == strlen(earlier) && memcmp(out, earlier, strlen(earlier)) == 0);
    }
}

enum { LINES = 40, ROOM = 256 };

static const char *line_of(int number) {
    return number % 2 ? "bus finish" : "bus open";
}

/* The texts of these lines' entries, each behind that of the line before it; before the first line there is none. */
static void tell_lines(char texts[LINES + 1][ROOM]) {
    linsim_handle handle = {NULL};
    int n;
    CHECK(linsim_open(ldf, ldf_length, &settings, &handle, &report) == LINSIM_DONE);
    for (n = 0; n < LINES; n++) {
        const char *line = line_of(n);
        CHECK(linsim_line(&handle, (const uint8_t *)line, strlen(line), (uint8_t *)texts[n + 1], ROOM - 1, &report) == LINSIM_DONE);
    }
    linsim_close(&handle);
}

static void lines(void) {
    static char texts[LINES + 1][ROOM];
    unsigned unmade = 0, untold = 0;
    linsim_handle handle = {NULL};
    int n;
    tell_lines(texts);
    CHECK(linsim_open(ldf, ldf_length, &settings, &handle, &report) == LINSIM_DONE);
    for (n = 0; n < LINES; n++)
        one_line(&handle, line_of(n), texts[n + 1], texts[n], &unmade, &untold);
    CHECK(unmade > 0);
    CHECK(untold > 0);
    linsim_close(&handle);
}

/* A bench, opened with each of its requests refused. */
static void opened_bench(uint32_t flags) {
    linsim_bench_settings bench = {.size = sizeof bench};
    linsim_handle handle = {NULL};
    uint32_t status;
    long number = 0;
    bench.flags = flags;
    for (;; number++) {
        refuse(number);
        clear();
        status = linsim_open_bench(ldf, ldf_length, &bench, &handle, &report);
        is_on = 0;
        if (!was_refused)
            break;
        CHECK(status == LINSIM_NO_MEMORY);
        CHECK(is_untouched() && handle.at == NULL);
    }
    CHECK(number > 20);
    CHECK(status == LINSIM_DONE && handle.at != NULL);
    linsim_close(&handle);
}

/* The lines of a bench script, with each request of each line refused in turn: the bench is closed then, and nothing is written; or
 * the line needs the memory only to be faster, and has the answer that it has with memory. */
static void bench_lines(uint16_t format) {
    static const char *const made[] = {"? time",          "when door 3E 7E",       "send cem door 3E", "slots idle",
                                       "expect sent cem", "expect message door 3", "? idle",           "nonsense of a line",
                                       "every 10 ms send cem door 0102030405060708", "slots 20 ms", "expect no lost"};
    enum { COUNT = sizeof made / sizeof *made };
    linsim_bench_settings bench = {.size = sizeof bench};
    linsim_handle handle = {NULL};
    unsigned n, closed = 0;
    long number;
    bench.format = format;
    for (n = 0; n < COUNT; n++) {
        size_t length = 0;
        for (number = -1;; number++) {
            unsigned earlier;
            uint32_t status;
            int is_last;
            CHECK(linsim_open_bench(ldf, ldf_length, &bench, &handle, &report) == LINSIM_DONE);
            for (earlier = 0; earlier < n; earlier++)
                CHECK(linsim_line(&handle, (const uint8_t *)made[earlier], strlen(made[earlier]), out, sizeof out, &report) == LINSIM_DONE);
            refuse(number);
            is_on = number >= 0;
            clear();
            status = linsim_line(&handle, (const uint8_t *)made[n], strlen(made[n]), out, sizeof out, &report);
            is_on = 0;
            is_last = !was_refused;
            if (number < 0) {
                length = report.length;
                memcpy(wanted, out, sizeof wanted);
            }
            if (status == LINSIM_DONE) {
                CHECK(report.length == length && report.number >= LINSIM_END_OK && report.number <= LINSIM_END_BAD_LINE);
                CHECK(memcmp(out, wanted, sizeof wanted) == 0);
                refuse(0);
                clear();
                CHECK(linsim_newest(&handle, out, sizeof out, &report) == LINSIM_DONE && memcmp(out, wanted, sizeof wanted) == 0);
                is_on = 0;
                CHECK(!was_refused);
                linsim_close(&handle);
                if (number >= 0 && is_last)
                    break;
                continue;
            }
            closed++;
            CHECK(status == LINSIM_NO_MEMORY && number >= 0);
            CHECK(is_untouched() && handle.at == NULL);
            CHECK(linsim_newest(&handle, out, sizeof out, &report) == LINSIM_IS_CLOSED);
        }
    }
    CHECK(closed > COUNT);
}

/* The slots of a message of 4,095 bytes: the message is copied once, when it has arrived, and not in each of its 683 slots. What
 * else is as large is the log where it grows, and what is received of the message. */
static void long_message(void) {
    enum { LENGTH = 4095, SLOTS = 683, MOST = 40 };
    static const char *const made[] = {"bus open", "n0 answer 0", "bus finish", "bus open", "bus finish"};
    static char line[16 + 2 * LENGTH];
    static const char delivered[] = "> sent 0 1\n";
    linsim_handle handle = {NULL};
    unsigned large = 0;
    size_t n;
    memcpy(line, "h0 send 0 1 ", 12);
    for (n = 0; n < LENGTH; n++)
        memcpy(line + 12 + 2 * n, "5A", 2);
    CHECK(linsim_open(ldf, ldf_length, &settings, &handle, &report) == LINSIM_DONE);
    CHECK(linsim_line(&handle, (const uint8_t *)line, 12 + 2 * LENGTH, out, sizeof out, &report) == LINSIM_DONE);
    for (n = 0; n < 5 * SLOTS - 2; n++) {
        largest = 0;
        if (linsim_line(&handle, (const uint8_t *)made[n % 5], strlen(made[n % 5]), out, sizeof out, &report) != LINSIM_DONE)
            break;
        large += largest >= LENGTH;
    }
    CHECK(n == 5 * SLOTS - 2);
    CHECK(report.length > strlen(delivered) && memcmp(out + report.length - strlen(delivered), delivered, strlen(delivered)) == 0);
    CHECK(large > 0 && large <= MOST);
    linsim_close(&handle);
}

int main(int argc, char **argv) {
    FILE *file = argc == 2 ? fopen(argv[1], "rb") : NULL;
    if (!file)
        return 2;
    ldf_length = fread(ldf, 1, sizeof ldf, file);
    fclose(file);
    version();
    whole_runs();
    opened();
    lines();
    opened_bench(0);
    opened_bench(LINSIM_PHYSICAL);
    opened_bench(LINSIM_FIELD);
    opened_bench(LINSIM_CONFIGURATION);
    bench_lines(LINSIM_FORMAT_LOG);
    bench_lines(LINSIM_FORMAT_NAMED);
    bench_lines(LINSIM_FORMAT_JSONL);
    long_message();
    printf("%lu passed, %lu failed\n", passed, failed);
    return failed != 0;
}
