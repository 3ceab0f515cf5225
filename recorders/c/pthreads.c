// Threads: each is a task, spawned where it is created and joined where its parent joins it.
#define _GNU_SOURCE
#include "recorder.h"
#include <dlfcn.h>

typedef int Create(pthread_t *, const pthread_attr_t *, void *(*)(void *), void *);
typedef int Join(pthread_t, void **);
static Create *real_create;
static Join *real_join;

typedef struct {
    void *(*function)(void *);
    void *argument;
    Task *task;
} Start;

void pthreads_begin(void) {
    real_create = (Create *)dlsym(RTLD_NEXT, "pthread_create");
    real_join = (Join *)dlsym(RTLD_NEXT, "pthread_join");
}

static bool is_told(void) { return me && me->task && !me->in_runtime; }

// At a return from the thread's function, at pthread_exit, and when it is cancelled.
static void end_thread(void *thread) {
    Thread *t = thread;
    if (t->task) task_end(t);
    thread_end(t);
}

static void *run_thread(void *argument) {
    Start start = *(Start *)argument;
    void *result;
    __libc_free(argument);
    Thread *t = thread_begin();
    task_enter(t, start.task, (uintptr_t)__builtin_frame_address(0));
    pthread_cleanup_push(end_thread, t);
    result = start.function(start.argument);
    pthread_cleanup_pop(1);
    return result;
}

// The thread couldn't be made: its task is empty.
static void write_empty_task(Thread *t, Open *open) {
    Task *parent = t->task;
    task_resume(t, open->task);
    log_line(t, '.', 0, NULL);
    task_resume(t, parent);
    open->is_joined = true;
    task_join_marked(t, false);
}

int pthread_create(pthread_t *id, const pthread_attr_t *attributes, void *(*function)(void *), void *argument) {
    if (!is_told()) return real_create(id, attributes, function, argument);
    Thread *t = me;
    Start *start = __libc_malloc(sizeof *start);
    if (!start) return real_create(id, attributes, function, argument);
    Task *task = task_new();
    *start = (Start){function, argument, task};
    Open *open = task_spawn(t, task);
    t->in_runtime = true;
    int result = real_create(id, attributes, run_thread, start);
    t->in_runtime = false;
    if (result == 0) {
        open->thread = *id;
    } else {
        __libc_free(start);
        write_empty_task(t, open);
    }
    return result;
}

static Open *find_open(Task *task, pthread_t id) {
    for (uint32_t i = task->open_count; i-- > 0;)
        if (pthread_equal(task->open[i].thread, id)) return &task->open[i];
    return NULL;
}

int pthread_join(pthread_t id, void **out) {
    int result = real_join(id, out);
    if (result != 0 || !is_told()) return result;
    Open *open = find_open(me->task, id);
    if (open) {
        open->is_joined = true;
        task_join_marked(me, false);
    } else {
        log_refuse(me, "a thread that another than its parent joins");
    }
    return result;
}
