// The recording's begin and end, and those of each thread.
#define _GNU_SOURCE
#include "recorder.h"
#include <link.h>
#include <stdio.h>
#include <stdlib.h>
#include <string.h>
#include <sys/mman.h>
#include <unistd.h>

__thread Thread *me;
Thread *_Atomic threads[MOST_THREADS];
_Atomic uint32_t thread_count;
_Atomic bool is_recording;
static char prefix[400];
static Thread *idle;
static pthread_mutex_t idle_lock = PTHREAD_MUTEX_INITIALIZER;

static void file_name(char *name, size_t size, uint32_t number) { snprintf(name, size, "%s.%u", prefix, number); }

static void find_stack(Thread *t) {
    pthread_attr_t attributes;
    void *low;
    size_t size;
    if (pthread_getattr_np(pthread_self(), &attributes) != 0) abort();
    pthread_attr_getstack(&attributes, &low, &size);
    pthread_attr_destroy(&attributes);
    t->stack_low = (uintptr_t)low;
    t->stack_high = (uintptr_t)low + size;
}

static Thread *new_thread(void) {
    Thread *t = mmap(NULL, sizeof *t, PROT_READ | PROT_WRITE, MAP_PRIVATE | MAP_ANONYMOUS | MAP_NORESERVE, -1, 0);
    uint32_t number = atomic_fetch_add(&thread_count, 1);
    if (t == MAP_FAILED || number >= MOST_THREADS) {
        fputs("hhrec: too many threads at once\n", stderr);
        abort();
    }
    char name[440];
    file_name(name, sizeof name, number);
    log_open(t, name);
    threads[number] = t;
    return t;
}

// A thread has a file to itself; when it is over the next one may go on with that.
Thread *thread_begin(void) {
    pthread_mutex_lock(&idle_lock);
    Thread *t = idle;
    if (t) idle = t->next_idle;
    pthread_mutex_unlock(&idle_lock);
    if (!t) t = new_thread();
    t->segment_count = 0;
    find_stack(t);
    return me = t;
}

// The thread is over, and its stack may be another one's.
void thread_end(Thread *t) {
    t->task = NULL;
    t->stack_low = t->stack_high = 0;
    me = NULL;
    pthread_mutex_lock(&idle_lock);
    t->next_idle = idle;
    idle = t;
    pthread_mutex_unlock(&idle_lock);
}

// The log of an earlier run that had more threads.
static void remove_old_files(void) {
    char name[440];
    uint32_t number = 0;
    do file_name(name, sizeof name, number++);
    while (unlink(name) == 0);
    snprintf(name, sizeof name, "%s.names", prefix);
    unlink(name);
}

static int find_program(struct dl_phdr_info *info, size_t size, void *data) {
    (void)size, (void)data;
    program_base = info->dlpi_addr;
    for (int i = 0; i < info->dlpi_phnum; i++) {
        uintptr_t end = info->dlpi_addr + info->dlpi_phdr[i].p_vaddr + info->dlpi_phdr[i].p_memsz;
        if (info->dlpi_phdr[i].p_type == PT_LOAD && end > program_end) program_end = end;
    }
    return 1;      // the program stands first
}

static void write_summary(void) {
    uint64_t accesses = 0, lines = 0;
    for (uint32_t k = 0; k < thread_count; k++) {
        accesses += threads[k]->accesses;
        lines += threads[k]->lines;
    }
    fprintf(stderr, "hhrec: accesses %lu lines %lu tasks %u\n", (unsigned long)accesses, (unsigned long)lines, task_total());
}

// A thread that still runs a task leaves its file without an end, so the log is one that was cut.
static void end_recording(void) {
    if (!is_recording || !me) return;
    if (me == threads[0] && me->task && me->segment_count == 1) task_end(me);
    else if (me->task) runs_settle(me);
    bool is_whole = me == threads[0] && me->segment_count == 1;
    is_recording = false;
    me->task = NULL;
    for (uint32_t k = 0; k < thread_count; k++) {
        Thread *t = threads[k];
        if (t && !t->task && t->log.window && (t != me || is_whole)) log_close(t);
    }
    char name[440];
    snprintf(name, sizeof name, "%s.names", prefix);
    if (!getenv("HHREC_NO_NAMES")) sites_write(name);
    if (getenv("HHREC_SUMMARY")) write_summary();
}

// The child of a fork is another process, which has the files too: it records nothing.
static void forget_recording(void) {
    is_recording = false;
    if (me) me->task = NULL;
}

__attribute__((constructor)) static void begin_recording(void) {
    const char *wanted = getenv("HHREC");
    snprintf(prefix, sizeof prefix, "%s", wanted && *wanted ? wanted : "hhrec");
    dl_iterate_phdr(find_program, NULL);
    pthreads_begin();
    remove_old_files();
    Thread *t = thread_begin();
    pthread_atfork(NULL, NULL, forget_recording);
    atexit(end_recording);
    is_recording = true;
    task_enter(t, task_new(), t->stack_high);
}
