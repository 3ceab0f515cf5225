// Accesses become runs. A strand is a set of accesses: one that a run has already is dropped, and those of one place in
// the program in equal steps are one line.
#include "recorder.h"

#define MOST_LOCATIONS ((uint64_t)1 << 28)      // of a line
#define LONGEST_STEP 4096

static void write_run(Thread *t, Run *run) {
    if (!run->is_open) return;
    log_run(t, run);
    run->is_open = false;
}

// Writes all open runs, and the work since the last time: at the end of each strand and piece of one.
void runs_settle(Thread *t) {
    for (uint32_t i = 0; i < t->used_count; i++) write_run(t, &t->runs[t->used_runs[i]]);
    t->used_count = 0;
    if (t->accesses == t->reported) return;
    log_line(t, 'k', 1, (uint64_t[]){t->accesses - t->reported});
    t->reported = t->accesses;
}

// A second access gives a run its step, forwards or backwards.
static bool extend_single(Run *run, uint64_t offset) {
    if (offset == run->offset) return true;
    if (offset >= run->offset + run->length && offset - run->offset < LONGEST_STEP) {
        run->step = offset - run->offset;
    } else if (offset + run->length == run->offset) {
        run->offset = offset;
        run->step = run->length;
    } else {
        return false;
    }
    run->count = 2;
    return true;
}

// Whether a run has an access, or could be made to have it.
static bool extend(Run *run, uint64_t offset) {
    if (run->count == 1) return extend_single(run, offset);
    uint64_t end = run->offset + run->count * run->step;
    if (offset >= run->offset && offset < end) return (offset - run->offset) % run->step == 0;
    if ((run->count + 1) * run->length > MOST_LOCATIONS) return false;
    if (offset + run->step == run->offset) run->offset = offset;
    else if (offset != end) return false;
    run->count++;
    return true;
}

static bool is_alike(const Run *run, const Run *access) {
    return run->is_open && run->site == access->site && run->kind == access->kind && run->block == access->block &&
           run->length == access->length;
}

// Opens a run in a set: in a place that is free, else in that of the set's oldest run.
static void open_run(Thread *t, uint32_t set, const Run *access) {
    uint32_t at = set;
    while (at < set + SET && t->runs[at].is_open) at++;
    if (at == set + SET) {
        at = set + t->turns[set / SET]++ % SET;
        write_run(t, &t->runs[at]);
    } else {
        t->used_runs[t->used_count++] = (uint8_t)at;
    }
    t->runs[at] = *access;
}

// (a set of places for each site, so that sites whose addresses clash don't put each other out)
static void note_part(Thread *t, uintptr_t address, uint32_t length, uint8_t kind, uint64_t site) {
    Run access = {.count = 1, .site = site, .length = length, .kind = kind, .is_open = true};
    access.block = block_of(t, address, &access.offset);
    uint32_t set = ((uint32_t)site * 0x9E3779B1u >> 20) % (RUNS / SET) * SET;
    for (uint32_t at = set; at < set + SET; at++)
        if (is_alike(&t->runs[at], &access) && extend(&t->runs[at], access.offset)) return;
    open_run(t, set, &access);
}

// An access by the running task. `site` is the address that its call returns to.
void note(const volatile void *address, size_t length, int kind, uintptr_t site) {
    Thread *t = me;
    if (!t || !t->task || length == 0) return;
    t->accesses++;
    site -= program_base;
    if (t->atomic_depth > 0) kind |= ATOMIC_READ;
    uintptr_t from = (uintptr_t)address;
    while (length > MOST_LOCATIONS) {
        note_part(t, from, MOST_LOCATIONS, (uint8_t)kind, site);
        from += MOST_LOCATIONS;
        length -= MOST_LOCATIONS;
    }
    note_part(t, from, (uint32_t)length, (uint8_t)kind, site);
}
