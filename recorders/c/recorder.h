// What the parts of the recorder share. README.md says how it is used, docs/LOGS.md has the format of what it writes.
#ifndef RECORDER_H
#define RECORDER_H

#include <pthread.h>
#include <stdatomic.h>
#include <stdbool.h>
#include <stddef.h>
#include <stdint.h>

#define RUNS 64          // open runs of a thread
#define SET 4            // of a set of them
#define SEGMENTS 4096    // tasks that a thread may be in at once, each of which waits for the next
#define MOST_THREADS 4096

enum { READ, WRITE, ATOMIC_READ, ATOMIC_WRITE };

// The file of a thread: a window of it is mapped, so that what was written outlives a crash.
typedef struct {
    int file;
    uint64_t start;      // where the window starts in the file
    char *window, *at, *end;
} Log;

typedef struct Task Task;

// A child that its parent hasn't joined.
typedef struct {
    Task *task;
    pthread_t thread;
    uint32_t group;      // how many task groups of its parent it was spawned in
    bool is_joined;      // some call has waited for it, and its line isn't written yet
} Open;

struct Task {
    uint32_t number;
    uint32_t strand;     // how many spawns and joins came before
    uint32_t open_count, open_room;
    uint32_t group;      // task groups that it is in
    bool leaks;          // it ended before its own children were joined
    Open *open;
};

// Accesses by one place in the program, of one length and kind, in equal steps: what becomes one line.
typedef struct {
    uint64_t offset, count, step, site;
    uint32_t block, length;
    uint8_t kind;
    bool is_open;
} Run;

// A stretch of a thread's stack, from its base down: the frames of one task.
typedef struct {
    uintptr_t base;
    uint32_t block;
} Segment;

typedef struct Thread Thread;

struct Thread {
    Task *task;          // what this thread works on; nothing is recorded if there is none
    Thread *next_idle;
    Log log;
    uintptr_t stack_low, stack_high;
    uint32_t segment_count;
    Segment segments[SEGMENTS];
    Run runs[RUNS];
    uint8_t used_runs[RUNS];
    uint8_t turns[RUNS / SET];
    uint32_t used_count;
    bool in_runtime;     // in a call of the OpenMP run-time, whose own memory and threads are none of the program's
    uint32_t atomic_depth;
    uint64_t accesses, reported, lines;
};

extern __thread Thread *me;
extern Thread *_Atomic threads[MOST_THREADS];     // never unmapped
extern _Atomic uint32_t thread_count;
extern _Atomic bool is_recording;

// log.c: bytes, lines, the file
void log_open(Thread *t, const char *name);
void log_close(Thread *t);
void log_line(Thread *t, char letter, int count, const uint64_t *numbers);
void log_run(Thread *t, const Run *run);
void log_refuse(Thread *t, const char *why);

// tasks.c: tasks, their strands, spawns and joins
Task *task_new(void);
void task_free(Task *task);
void task_resume(Thread *t, Task *task);
void task_return(Thread *t, Task *task, uint64_t lines_before);
uint32_t task_enter(Thread *t, Task *task, uintptr_t stack_base);
void task_leave(Thread *t, uint32_t segment_count, Task *before);
Open *task_spawn(Thread *t, Task *child);
void task_join_marked(Thread *t, bool with_descendants);
void task_end(Thread *t);
uint32_t task_total(void);

// runs.c: accesses to runs
void note(const volatile void *address, size_t length, int kind, uintptr_t site);
void runs_settle(Thread *t);

// blocks.c: addresses to blocks
uint32_t block_new(void);
void block_born(uintptr_t base, size_t size, bool is_told);
void block_released(uintptr_t base, bool is_told);
uint32_t block_of(Thread *t, uintptr_t address, uint64_t *offset);
size_t block_size(uintptr_t base);
extern uintptr_t program_base, program_end;

// sites.c: names of the program's places
void site_seen(uint64_t site);
void sites_write(const char *name);

// start.c
Thread *thread_begin(void);
void thread_end(Thread *t);

// pthreads.c
void pthreads_begin(void);

// The allocator below ours, and memory functions that aren't recorded.
void *__libc_malloc(size_t);
void *__libc_calloc(size_t, size_t);
void *__libc_realloc(void *, size_t);
void *__libc_memalign(size_t, size_t);
void __libc_free(void *);
void *__real_memcpy(void *, const void *, size_t);
void *__real_memmove(void *, const void *, size_t);
void *__real_memset(void *, int, size_t);

// Where the caller's caller stands in the program.
#define CALLER ((uintptr_t)__builtin_return_address(0))

#endif
