// Lines into a thread's file, through a window that is mapped. A process that is killed loses nothing that was put here:
// the file then ends with zeros, which are no lines.
#define _GNU_SOURCE
#include "recorder.h"
#include <errno.h>
#include <fcntl.h>
#include <stdio.h>
#include <stdlib.h>
#include <string.h>
#include <sys/mman.h>
#include <unistd.h>

#define WINDOW ((uint64_t)1 << 22)

// Nothing more can be written: the log ends here, as if the process had been killed.
static void give_up(Thread *t, const char *what) {
    perror(what);
    fputs("hhrec: the recording ends here\n", stderr);
    is_recording = false;
    t->task = NULL;
}

static bool grow_file(Log *log) {
    off_t end = (off_t)(log->start + WINDOW);
    if (fallocate(log->file, 0, (off_t)log->start, (off_t)WINDOW) == 0) return true;
    return errno == EOPNOTSUPP && ftruncate(log->file, end) == 0;
}

static bool open_window(Log *log) {
    if (!grow_file(log)) return false;
    void *window = mmap(NULL, WINDOW, PROT_READ | PROT_WRITE, MAP_SHARED, log->file, (off_t)log->start);
    if (window == MAP_FAILED) return false;
    log->window = log->at = window;
    log->end = log->window + WINDOW;
    return true;
}

static bool next_window(Log *log) {
    munmap(log->window, WINDOW);
    log->start += WINDOW;
    return open_window(log);
}

static void put(Thread *t, const char *bytes, size_t size) {
    Log *log = &t->log;
    while (size > 0) {
        if (log->at == log->end && !next_window(log)) {
            log->window = NULL;
            give_up(t, "hhrec");
            return;
        }
        size_t room = (size_t)(log->end - log->at);
        size_t part = size < room ? size : room;
        __real_memcpy(log->at, bytes, part);
        log->at += part;
        bytes += part;
        size -= part;
    }
}

// The same for a line, which is whole or not there: its line feed is put last.
static void put_line(Thread *t, const char *bytes, size_t size) {
    if (!t->log.window) return;
    put(t, bytes, size);
    t->lines++;
}

static char *put_number(char *at, uint64_t number) {
    char digits[20];
    int from = 20;
    do {
        digits[--from] = (char)('0' + number % 10);
        number /= 10;
    } while (number > 0);
    __real_memcpy(at, digits + from, (size_t)(20 - from));
    return at + 20 - from;
}

static char *put_word(char *at, uint64_t number) {
    *at++ = ' ';
    return put_number(at, number);
}

void log_open(Thread *t, const char *name) {
    Log *log = &t->log;
    static const char version[] = "hhlog 1\n";
    log->file = open(name, O_RDWR | O_CREAT | O_TRUNC | O_CLOEXEC, 0644);
    if (log->file < 0 || !open_window(log)) {
        perror(name);
        exit(125);
    }
    put_line(t, version, sizeof version - 1);
}

// The file is whole.
void log_close(Thread *t) {
    Log *log = &t->log;
    put_line(t, "end\n", 4);
    if (!log->window) return;
    off_t size = (off_t)(log->start + (uint64_t)(log->at - log->window));
    munmap(log->window, WINDOW);
    log->window = NULL;
    if (ftruncate(log->file, size) != 0) perror("hhrec");
    close(log->file);
}

void log_line(Thread *t, char letter, int count, const uint64_t *numbers) {
    char line[80], *at = line;
    *at++ = letter;
    for (int i = 0; i < count; i++) at = put_word(at, numbers[i]);
    *at++ = '\n';
    put_line(t, line, (size_t)(at - line));
}

void log_run(Thread *t, const Run *run) {
    char line[160], *at = line;
    bool is_dense = run->count == 1 || run->step == run->length;
    uint64_t length = is_dense ? run->length * run->count : run->length;
    *at++ = "rwRW"[run->kind];
    at = put_word(at, run->block);
    at = put_word(at, run->offset);
    if (length > 1 || !is_dense) at = put_word(at, length);
    if (!is_dense) {
        at = put_word(at, run->count);
        at = put_word(at, run->step);
    }
    *at++ = ' ';
    *at++ = '@';
    at = put_number(at, run->site);
    *at++ = '\n';
    put_line(t, line, (size_t)(at - line));
    site_seen(run->site);
}

// What the format has no words for makes the log one that is refused, at a line that says why.
void log_refuse(Thread *t, const char *why) {
    char line[160];
    int size = snprintf(line, sizeof line, "unsupported: %s\n", why);
    put_line(t, line, (size_t)size);
    fprintf(stderr, "hhrec: %s: the log will be refused\n", why);
}
