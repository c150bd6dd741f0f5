/* How much stack each call takes, which linsim.h promises: stack FILE.ldf SCRIPT BENCH_SCRIPT. Writes a line for each call, and for each
 * one that takes more than it may; the last line is `N passed, M failed`. */
#define _POSIX_C_SOURCE 200809L
#include "linsim.h"

#include <pthread.h>
#include <stdio.h>
#include <stdlib.h>
#include <string.h>

enum { LEAST = 80 * 1024, MOST = 192 * 1024, ROOM = 1 << 20, PAINT = 0xA5 };

static uint8_t ldf[1 << 22], script[1 << 24], out[1 << 24], stack[ROOM] __attribute__((aligned(4096)));
static size_t ldf_length, script_length;
static linsim_report report;
static linsim_settings settings = {16, 0, 0};
static linsim_bench_settings bench_settings = {.size = sizeof bench_settings, .format = LINSIM_FORMAT_NAMED};
static linsim_handle handle = {NULL};
static uint32_t status;
static unsigned long passed, failed;

/* A call in a thread whose stack is painted: how many bytes of it are written, without those of a thread that does nothing. */
static size_t taken_by(void *(*call)(void *)) {
    pthread_attr_t attributes;
    pthread_t thread;
    size_t at = 0;
    memset(stack, PAINT, sizeof stack);
    if (pthread_attr_init(&attributes) || pthread_attr_setstack(&attributes, stack, sizeof stack)
        || pthread_create(&thread, &attributes, call, NULL) || pthread_join(thread, NULL))
        exit(2);
    pthread_attr_destroy(&attributes);
    while (at < sizeof stack && stack[at] == PAINT)
        at++;
    return sizeof stack - at;
}

static void *nothing(void *unused) {
    return unused;
}

static void *replayed(void *unused) {
    status = linsim_replay(ldf, ldf_length, &settings, script, script_length, out, sizeof out, &report);
    return unused;
}

static void *opened(void *unused) {
    status = linsim_open(ldf, ldf_length, &settings, &handle, &report);
    return unused;
}

static void *bench_opened(void *unused) {
    status = linsim_open_bench(ldf, ldf_length, &bench_settings, &handle, &report);
    return unused;
}

static void *all_lines(void *unused) {
    size_t from = 0, at;
    status = LINSIM_DONE;
    for (at = 0; at < script_length && status == LINSIM_DONE; at++)
        if (script[at] == '\n') {
            status = linsim_line(&handle, script + from, at - from, out, sizeof out, &report);
            from = at + 1;
        }
    return unused;
}

static void *newest(void *unused) {
    status = linsim_newest(&handle, out, sizeof out, &report);
    return unused;
}

static void *closed(void *unused) {
    linsim_close(&handle);
    status = LINSIM_DONE;
    return unused;
}

static void measure(const char *name, void *(*call)(void *), size_t most) {
    size_t taken = taken_by(call), idle = taken_by(nothing);
    taken -= taken < idle ? taken : idle;
    printf("%s: %lu bytes of stack\n", name, (unsigned long)taken);
    if (status == LINSIM_DONE && taken > 0 && taken <= most) {
        passed++;
    } else {
        failed++;
        printf("%s: status %lu, and it may take %lu bytes\n", name, (unsigned long)status, (unsigned long)most);
    }
}

static size_t read_all(const char *name, uint8_t *to, size_t room) {
    FILE *file = fopen(name, "rb");
    size_t length;
    if (!file)
        exit(2);
    length = fread(to, 1, room, file);
    fclose(file);
    return length;
}

int main(int argc, char **argv) {
    static const uint32_t flags[] = {0, LINSIM_PHYSICAL, LINSIM_FIELD | LINSIM_PHYSICAL,
                                     LINSIM_FIELD | LINSIM_PHYSICAL | LINSIM_CONFIGURATION};
    size_t n;
    if (argc != 4)
        return 2;
    ldf_length = read_all(argv[1], ldf, sizeof ldf);
    script_length = read_all(argv[2], script, sizeof script);
    measure("linsim_replay", replayed, MOST);
    measure("linsim_open", opened, MOST);
    measure("linsim_line", all_lines, LEAST);
    measure("linsim_newest", newest, LEAST);
    measure("linsim_close", closed, LEAST);
    script_length = read_all(argv[3], script, sizeof script);
    for (n = 0; n < sizeof flags / sizeof *flags; n++) {
        bench_settings.flags = flags[n];
        printf("flags %lu:\n", (unsigned long)flags[n]);
        measure("linsim_open_bench", bench_opened, MOST);
        measure("linsim_line of a bench", all_lines, MOST);
        measure("linsim_newest of a bench", newest, LEAST);
        measure("linsim_close of a bench", closed, LEAST);
    }
    printf("%lu passed, %lu failed\n", passed, failed);
    return failed != 0;
}
