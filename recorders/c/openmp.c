// OpenMP as gcc compiles it: a layer between the program and libgomp. A task is a task; a member of a team is one
// from barrier to barrier, spawned by the task that made the team.
#define _GNU_SOURCE
#include "recorder.h"
#include <dlfcn.h>
#include <stdio.h>
#include <stdlib.h>

static void *next(const char *name) {
    void *function = dlsym(RTLD_NEXT, name);
    if (function) return function;
    fprintf(stderr, "hhrec: libgomp's %s isn't there\n", name);
    abort();
}

#define NEXT(name) \
    static typeof(name) *real; \
    if (!real) real = (typeof(name) *)next(#name)

enum { FLAG_DEPEND = 8, FLAG_DETACH = 8192 };

extern int omp_get_max_threads(void) __attribute__((weak));
extern int omp_in_final(void) __attribute__((weak));

static bool is_told(void) { return me && me->task; }

// A call of libgomp's in which the thread may run other tasks: what it needs to go on.
typedef struct {
    Thread *thread;
    Task *task;
    uint64_t lines;
} Call;

static Call leave_program(void) {
    Thread *t = me;
    runs_settle(t);
    t->in_runtime = true;
    return (Call){t, t->task, t->lines};
}

static Thread *enter_program(Call call) {
    call.thread->in_runtime = false;
    task_return(call.thread, call.task, call.lines);
    return call.thread;
}

// TASKS

// A task's function with its own copy of its data, which is a separate block.
typedef struct {
    void (*function)(void *);
    void *data;
    Task *task;
} Job;

static Job *new_job(void (*function)(void *), void *data, void (*copy)(void *, void *), size_t size, size_t alignment) {
    Job *job = __libc_malloc(sizeof *job);
    void *own = __libc_memalign(alignment < 16 ? 16 : alignment, size + 16);
    if (!job || !own) abort();
    block_born((uintptr_t)own, size, false);
    if (copy) copy(own, data);
    else __real_memcpy(own, data, size);
    *job = (Job){function, own, task_new()};
    return job;
}

static void run_task(void *argument) {
    Job *job = *(Job **)argument;
    Thread *t = me ? me : thread_begin();
    Task *before = t->task;
    bool in_runtime = t->in_runtime;
    t->in_runtime = false;
    uint32_t segments = task_enter(t, job->task, (uintptr_t)__builtin_frame_address(0));
    job->function(job->data);
    task_end(t);
    task_leave(t, segments, before);
    t->in_runtime = in_runtime;
    block_released((uintptr_t)job->data, false);
    __libc_free(job->data);
    __libc_free(job);
}

// An undeferred task is waited for by its parent, as by a join.
static bool is_included(bool may_defer) { return !may_defer || (omp_in_final && omp_in_final()); }

static void mark_last(Task *task) { task->open[task->open_count - 1].is_joined = true; }

void GOMP_task(void (*function)(void *), void *data, void (*copy)(void *, void *), long size, long alignment, bool may_defer,
               unsigned flags, void **depend, int priority, void *detach) {
    NEXT(GOMP_task);
    if (!is_told()) {
        real(function, data, copy, size, alignment, may_defer, flags, depend, priority, detach);
        return;
    }
    if (flags & FLAG_DEPEND) log_refuse(me, "a task that depends on another");
    if (flags & FLAG_DETACH) log_refuse(me, "a detached task");
    bool is_joined = is_included(may_defer);
    Job *job = new_job(function, data, copy, (size_t)size, (size_t)alignment);
    task_spawn(me, job->task);
    Call call = leave_program();
    real(run_task, &job, NULL, sizeof job, _Alignof(Job *), may_defer, flags, depend, priority, detach);
    Thread *t = enter_program(call);
    if (!is_joined) return;
    mark_last(t->task);
    task_join_marked(t, false);
}

static void mark_group(Task *task, uint32_t group) {
    for (uint32_t i = 0; i < task->open_count; i++) task->open[i].is_joined = task->open[i].group >= group;
}

void GOMP_taskwait(void) {
    NEXT(GOMP_taskwait);
    if (!is_told() || me->task->open_count == 0) {
        real();
        return;
    }
    Call call = leave_program();
    real();
    Thread *t = enter_program(call);
    mark_group(t->task, 0);
    task_join_marked(t, false);
}

void GOMP_taskgroup_start(void) {
    NEXT(GOMP_taskgroup_start);
    if (is_told()) me->task->group++;
    real();
}

void GOMP_taskgroup_end(void) {
    NEXT(GOMP_taskgroup_end);
    if (!is_told()) {
        real();
        return;
    }
    Call call = leave_program();
    real();
    Thread *t = enter_program(call);
    mark_group(t->task, t->task->group--);
    task_join_marked(t, true);
}

// TEAMS

// A member's tasks, one from each barrier to the next.
typedef struct {
    Task **stretches;
    uint32_t count, room;
} Member;

typedef struct {
    void (*function)(void *);
    void *data;
    uint32_t planned;
    _Atomic uint32_t count;
    Member *members;
} Team;

static __thread Team *team;
static __thread Member *member;

static void add_stretch(Member *of, Task *task) {
    if (of->count == of->room) {
        of->room = of->room * 2 + 4;
        of->stretches = __libc_realloc(of->stretches, of->room * sizeof *of->stretches);
        if (!of->stretches) abort();
    }
    of->stretches[of->count++] = task;
}

// The first stretches are spawned before the team runs, so that a log that is cut has them.
static Call team_begin(Team *new, void (*function)(void *), void *data, unsigned wanted) {
    Thread *t = me;
    *new = (Team){.function = function, .data = data};
    new->planned = wanted ? wanted : (uint32_t)omp_get_max_threads();
    new->members = __libc_calloc(new->planned, sizeof *new->members);
    if (!new->members) abort();
    for (uint32_t k = 0; k < new->planned; k++) {
        Task *first = task_new();
        add_stretch(&new->members[k], first);
        task_spawn(t, first);
    }
    return leave_program();
}

static void run_member(void *argument) {
    Team *old_team = team, *new = argument;
    Member *old_member = member;
    Thread *t = me ? me : thread_begin();
    Task *before = t->task;
    bool in_runtime = t->in_runtime;
    uint32_t number = atomic_fetch_add(&new->count, 1);
    if (number >= new->planned) abort();
    team = new;
    member = &new->members[number];
    t->in_runtime = false;
    uint32_t segments = task_enter(t, member->stretches[0], (uintptr_t)__builtin_frame_address(0));
    new->function(new->data);
    task_end(t);
    task_leave(t, segments, before);
    t->in_runtime = in_runtime;
    team = old_team;
    member = old_member;
}

// The stretches between two barriers, of all members, are joined before those after the second one are spawned.
static uint32_t spawn_stretches(Thread *t, Team *old, uint32_t number) {
    uint32_t count = 0;
    for (uint32_t k = 0; k < old->planned; k++) {
        if (number >= old->members[k].count) continue;
        task_spawn(t, old->members[k].stretches[number]);
        count++;
    }
    return count;
}

static void join_newest(Thread *t, uint32_t count) {
    for (uint32_t i = 1; i <= count; i++) t->task->open[t->task->open_count - i].is_joined = true;
    task_join_marked(t, true);
}

// Members that never came are empty tasks.
static void write_missing(Thread *t, Team *old) {
    Task *parent = t->task;
    if (old->count == old->planned) return;
    for (uint32_t k = old->count; k < old->planned; k++) {
        task_resume(t, old->members[k].stretches[0]);
        log_line(t, '.', 0, NULL);
    }
    task_resume(t, parent);
}

static void team_end(Call call, Team *old) {
    Thread *t = enter_program(call);
    write_missing(t, old);
    uint32_t count = old->planned;
    for (uint32_t number = 1; count > 0; number++) {
        join_newest(t, count);
        count = spawn_stretches(t, old, number);
    }
    for (uint32_t k = 0; k < old->planned; k++) __libc_free(old->members[k].stretches);
    __libc_free(old->members);
}

#define PARALLEL(name, parameters, arguments) \
    void name parameters { \
        NEXT(name); \
        if (!is_told()) { \
            real arguments; \
            return; \
        } \
        Team new; \
        Call call = team_begin(&new, function, data, threads_wanted); \
        function = run_member; \
        data = &new; \
        real arguments; \
        team_end(call, &new); \
    }

#define FUNCTION void (*function)(void *), void *data, unsigned threads_wanted
#define LOOP(name) \
    PARALLEL(GOMP_parallel_loop_##name, (FUNCTION, long start, long end, long step, long chunk, unsigned flags), \
             (function, data, threads_wanted, start, end, step, chunk, flags))
#define LOOP_OF_RUNTIME(name) \
    PARALLEL(GOMP_parallel_loop_##name, (FUNCTION, long start, long end, long step, unsigned flags), \
             (function, data, threads_wanted, start, end, step, flags))

PARALLEL(GOMP_parallel, (FUNCTION, unsigned flags), (function, data, threads_wanted, flags))
PARALLEL(GOMP_parallel_sections, (FUNCTION, unsigned count, unsigned flags), (function, data, threads_wanted, count, flags))
LOOP(static)
LOOP(dynamic)
LOOP(guided)
LOOP(nonmonotonic_dynamic)
LOOP(nonmonotonic_guided)
LOOP_OF_RUNTIME(runtime)
LOOP_OF_RUNTIME(nonmonotonic_runtime)
LOOP_OF_RUNTIME(maybe_nonmonotonic_runtime)

// BARRIERS

// A member has come past a barrier: its stretch ended there, and the next one begins.
static void next_stretch(Call call) {
    Thread *t = enter_program(call);
    task_end(t);
    Task *next = task_new();
    add_stretch(member, next);
    t->task = NULL;
    task_resume(t, next);
}

#define BARRIER(name) \
    void name(void) { \
        NEXT(name); \
        if (!is_told() || !team) { \
            real(); \
            return; \
        } \
        Call call = leave_program(); \
        real(); \
        next_stretch(call); \
    }

BARRIER(GOMP_barrier)
BARRIER(GOMP_loop_end)
BARRIER(GOMP_sections_end)

// `single` with `copyprivate`: all but the one that does it wait at the start, that one at the end.
void *GOMP_single_copy_start(void) {
    NEXT(GOMP_single_copy_start);
    if (!is_told() || !team) return real();
    Call call = leave_program();
    void *copied = real();
    if (copied) next_stretch(call);
    else enter_program(call);
    return copied;
}

void GOMP_single_copy_end(void *data) {
    NEXT(GOMP_single_copy_end);
    if (!is_told() || !team) {
        real(data);
        return;
    }
    Call call = leave_program();
    real(data);
    next_stretch(call);
}

// An update that no instruction makes is one under a lock of libgomp's: its accesses are atomic ones.
void GOMP_atomic_start(void) {
    NEXT(GOMP_atomic_start);
    real();
    if (is_told()) me->atomic_depth++;
}

void GOMP_atomic_end(void) {
    NEXT(GOMP_atomic_end);
    if (is_told()) me->atomic_depth--;
    real();
}

// What forks and joins can't express.

#define REFUSED(result, name, parameters, arguments, why) \
    result name parameters { \
        NEXT(name); \
        if (is_told()) log_refuse(me, why); \
        return real arguments; \
    }

REFUSED(void, GOMP_taskloop, (void (*function)(void *), void *data, void (*copy)(void *, void *), long size, long alignment,
                              unsigned flags, unsigned long tasks, int priority, long start, long end, long step),
        (function, data, copy, size, alignment, flags, tasks, priority, start, end, step), "taskloop")
REFUSED(void, GOMP_taskwait_depend, (void **depend), (depend), "a taskwait that depends")
REFUSED(unsigned, GOMP_parallel_reductions, (FUNCTION, unsigned flags), (function, data, threads_wanted, flags),
        "a reduction by tasks")
REFUSED(bool, GOMP_cancel, (int which, bool may), (which, may), "cancel")
REFUSED(bool, GOMP_barrier_cancel, (void), (), "a barrier in a region that may be cancelled")
REFUSED(void, GOMP_doacross_wait, (long first, long second), (first, second), "an ordered loop")
