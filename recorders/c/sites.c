// Places in the program that accesses were made by, and their names: a file of the log that the end of the run adds.
#define _GNU_SOURCE
#include "recorder.h"
#include <stdio.h>
#include <stdlib.h>
#include <string.h>
#include <unistd.h>

#define PLACES ((uint32_t)1 << 16)

static _Atomic uint64_t places[PLACES];

// If the table is full, further places go without names.
void site_seen(uint64_t site) {
    uint32_t at = (uint32_t)(site * 0x9E3779B97F4A7C15u >> 48);
    for (uint32_t tries = 0; tries < 64; tries++, at = (at + 1) % PLACES) {
        uint64_t there = atomic_load_explicit(&places[at], memory_order_relaxed);
        if (there == site) return;
        if (there == 0 && atomic_compare_exchange_strong(&places[at], &there, site)) return;
        if (there == site) return;
    }
}

// Asks addr2line for each place: a return address, so the access stands a byte before.
static bool ask(const char *program, const char *answers) {
    char command[1200];
    snprintf(command, sizeof command, "addr2line -s -e '%s' > '%s' 2> /dev/null", program, answers);
    FILE *questions = popen(command, "w");
    if (!questions) return false;
    for (uint32_t at = 0; at < PLACES; at++)
        if (places[at]) fprintf(questions, "%lx\n", (unsigned long)places[at] - 1);
    return pclose(questions) == 0;
}

// Writes what addr2line answered, one line for each place in the table's order; what it doesn't know has no name.
static void write_names(FILE *names, FILE *answers) {
    char answer[600];
    fputs("hhlog 1\n", names);
    for (uint32_t at = 0; at < PLACES; at++) {
        if (!places[at]) continue;
        if (!fgets(answer, sizeof answer, answers)) break;
        answer[strcspn(answer, " \n")] = 0;
        if (answer[0] != '?') fprintf(names, "@ %lu %s\n", (unsigned long)places[at], answer);
    }
    fputs("end\n", names);
}

void sites_write(const char *name) {
    char program[500], temporary[500];
    ssize_t size = readlink("/proc/self/exe", program, sizeof program - 1);
    if (size < 0) return;
    program[size] = 0;
    snprintf(temporary, sizeof temporary, "%s.part", name);
    if (ask(program, temporary)) {
        FILE *answers = fopen(temporary, "r");
        FILE *names = answers ? fopen(name, "w") : NULL;
        if (names) write_names(names, answers);
        if (names) fclose(names);
        if (answers) fclose(answers);
    }
    unlink(temporary);
}
