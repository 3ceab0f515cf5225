// Tasks and their strands: who spawned whom, what has been joined, and which task a thread works on.
#include "recorder.h"
#include <stdlib.h>

static _Atomic uint32_t next_task = 0;      // the first one is the root

Task *task_new(void) {
    Task *task = __libc_calloc(1, sizeof *task);
    if (!task) abort();
    task->number = atomic_fetch_add(&next_task, 1);
    return task;
}

void task_free(Task *task) {
    __libc_free(task->open);
    __libc_free(task);
}

uint32_t task_total(void) { return next_task; }

// The thread goes on with a task.
void task_resume(Thread *t, Task *task) {
    t->task = task;
    log_line(t, 's', 2, (uint64_t[]){task->number, task->strand});
}

// The same after a call in which it may have run others: if nothing was written, the task's strand is still open.
void task_return(Thread *t, Task *task, uint64_t lines_before) {
    if (t->lines == lines_before) t->task = task;
    else task_resume(t, task);
}

// The thread starts a task, whose frames lie below a place of its stack; returns how many stretches there were before.
uint32_t task_enter(Thread *t, Task *task, uintptr_t stack_base) {
    if (t->task) runs_settle(t);
    uint32_t before = t->segment_count;
    if (before == SEGMENTS) {
        log_refuse(t, "tasks that wait for one another are nested too deep");
        abort();
    }
    t->segments[before] = (Segment){stack_base, block_new()};
    t->segment_count = before + 1;
    task_resume(t, task);
    return before;
}

// Back to what the thread did before it entered a task; the caller resumes that.
void task_leave(Thread *t, uint32_t segment_count, Task *before) {
    t->segment_count = segment_count;
    t->task = before;
}

Open *task_spawn(Thread *t, Task *child) {
    Task *task = t->task;
    runs_settle(t);
    log_line(t, '+', 1, (uint64_t[]){child->number});
    task->strand++;
    if (task->open_count == task->open_room) {
        task->open_room = task->open_room * 2 + 4;
        task->open = __libc_realloc(task->open, task->open_room * sizeof *task->open);
        if (!task->open) abort();
    }
    Open *open = &task->open[task->open_count++];
    *open = (Open){.task = child, .group = task->group};
    return open;
}

static void write_join(Thread *t, uint32_t child) {
    log_line(t, '-', 1, (uint64_t[]){child});
    t->task->strand++;
}

// Joins the children that a call has waited for, last first. A wait for children alone doesn't wait for their children:
// if some of those may run on, forks and joins don't order them.
void task_join_marked(Thread *t, bool with_descendants) {
    Task *task = t->task;
    runs_settle(t);
    for (uint32_t i = task->open_count; i-- > 0;) {
        Open *open = &task->open[i];
        if (!open->is_joined) continue;
        if (open->task->leaks && !with_descendants) log_refuse(t, "a wait for a task that didn't wait for its own");
        write_join(t, open->task->number);
        task_free(open->task);
        open->task = NULL;
    }
    uint32_t kept = 0;
    for (uint32_t i = 0; i < task->open_count; i++)
        if (task->open[i].task) task->open[kept++] = task->open[i];
    task->open_count = kept;
}

// The task's end. Whoever waits for all joins what it left unjoined: no act follows, so its own end is the same place.
void task_end(Thread *t) {
    Task *task = t->task;
    runs_settle(t);
    task->leaks = task->open_count > 0;
    while (task->open_count > 0) write_join(t, task->open[--task->open_count].task->number);
    log_line(t, '.', 0, NULL);
}
