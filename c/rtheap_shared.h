/* rtheap_shared.h: a garbage-collected heap that 1 to 16 threads of a program share, for C99 and
   later and C++98 and later. Link with librtheap. Read rtheap.h first: registers, objects,
   commands, units and statuses are the same.

   The heap has a worker for each of its threads, with 16 registers of its own. Register 0 of each
   starts as a reference to the one shared array. A thread of the program attaches a worker to a
   handle and gives it one command at a time: rtheap_worker_start announces the command, and
   rtheap_worker_poll carries it out, at most so many steps in a call. No call takes a lock or
   starts a thread; only rtheap_worker_ask waits; only rtheap_group_open, _attach and _return
   allocate.

       static void let_others_run(void *context) { (void)context; sched_yield(); }

       rtheap_group group = RTHEAP_GROUP_CLOSED;
       rtheap_worker worker = RTHEAP_WORKER_CLOSED;    one for each thread
       rtheap_config config = RTHEAP_CONFIG(512, 128);
       config.threads = 4;
       status = rtheap_group_open(&group, &config);
       status = rtheap_group_attach(&group, &worker);  the first time: the worker of thread 0
       status = rtheap_worker_ask(&worker, rtheap_cmd_record(1, 2), let_others_run, NULL, NULL);

   The replies of all workers are those of one order of all commands. In it each worker's commands
   have the order in which it was given them, and a command whose reply was returned comes before
   each command, of any worker, that is started later. So a thread that has waited for a semaphore
   reads what another had put before it posted that. rtheap_group_finish says this of the whole life
   of a heap, rtheap_worker_poll of what one worker has seen, and rtheap_worker_follow of two. No
   clause says it of a heap of which a worker was closed and not given back. There are no notes, as
   Rattle's shared heap has: an object that passes to another thread in any way is covered by the
   order of the calls, or by a stamp that passes with it.

   The program has to ensure what rtheap.h asks for a handle, of these two kinds of handles as well.
   It also has to poll each command to its end: while one is not done, the others may not get on. A
   thread that stops in the middle of a command holds up the others. */
#ifndef RTHEAP_SHARED_H
#define RTHEAP_SHARED_H

#include "rtheap.h"

#ifdef __cplusplus
extern "C" {
#endif

/* ---- rtheap_group_open: open, share out and close a heap of several threads ---- */

/* The workers of a heap that have no handle. The program does not use the words. */
typedef struct rtheap_group {
    uint64_t words[32];
} rtheap_group;

/* A worker with its heap, for one thread at a time. The program does not use the words. */
typedef struct rtheap_worker {
    uint64_t words[32];
} rtheap_worker;

/* Closed handles, as RTHEAP_CLOSED; RTHEAP_INIT is for static ones. */
#ifdef __cplusplus
#define RTHEAP_GROUP_CLOSED (::rtheap_group())
#define RTHEAP_WORKER_CLOSED (::rtheap_worker())
#else
#define RTHEAP_GROUP_CLOSED ((rtheap_group)RTHEAP_INIT)
#define RTHEAP_WORKER_CLOSED ((rtheap_worker)RTHEAP_INIT)
#endif

/* Opens a heap of config.threads threads, 1 to 16, whose workers are then in the group. The other
   numbers are those of rtheap_open; `live` counts the registers of every worker. rtheap_group_open
   takes memory from malloc, and the other from an allocator of the program, which has to work until
   the last handle of the heap is closed, and for calls of several threads at once. */
RTHEAP_CHECKED rtheap_status rtheap_group_open(rtheap_group *group, const rtheap_config *config);
RTHEAP_CHECKED rtheap_status rtheap_group_open_with(rtheap_group *group,
                                                    const rtheap_config *config,
                                                    const rtheap_memory *memory);

/* Moves the first worker of the group to a closed handle. They are in thread order, and those that
   were given back come last. Or: RTHEAP_ERR_CLOSED (the group is closed), RTHEAP_ERR_OPEN (the
   worker's handle is open), RTHEAP_ERR_NO_WORKER, RTHEAP_ERR_MEMORY. */
RTHEAP_CHECKED rtheap_status rtheap_group_attach(rtheap_group *group, rtheap_worker *worker);

/* Gives a worker back to the group that it was attached from, and closes its handle. Or, and
   nothing has changed: RTHEAP_ERR_CLOSED (one of the handles is closed), RTHEAP_ERR_BUSY (the
   worker's command is not done), RTHEAP_ERR_WRONG_GROUP, RTHEAP_ERR_MEMORY. The group may attach it
   again. Its registers keep what they hold. */
RTHEAP_CHECKED rtheap_status rtheap_group_return(rtheap_group *group, rtheap_worker *worker);

/* Closes the heap with the workers that its group has, and the group's handle; the number of cycles
   of collection that were started is written unless `cycles` is NULL. Then there was one order of
   all commands. In it the commands of each of these workers are those that it was given, in their
   order, with the replies that it had. Of a worker whose handle was closed it has some of the
   commands that it was given, in their order. A command that had its effect before another was
   started comes before it. Or, and nothing has changed: RTHEAP_ERR_CLOSED (the group is closed),
   RTHEAP_ERR_NO_WORKER (it has none), RTHEAP_ERR_WORKERS_OUT (a worker's handle is open). */
RTHEAP_CHECKED rtheap_status rtheap_group_finish(rtheap_group *group, uint64_t *cycles);

/* Closes the group's handle, and drops the workers that have no handle. The heap remains until its
   last worker is closed. Its status may be ignored, as that of rtheap_close. */
rtheap_status rtheap_group_close(rtheap_group *group);

/* Closes a worker's handle, and frees the heap if it was the last. RTHEAP_ERR_BUSY: its command is
   not done, and nothing has changed. What its registers referred to stays alive for the others, and
   no other worker takes its place: rtheap_group_return keeps it for later. */
RTHEAP_CHECKED rtheap_status rtheap_worker_close(rtheap_worker *worker);

/* Moves a handle, as rtheap_move does. */
RTHEAP_CHECKED rtheap_status rtheap_group_move(rtheap_group *to, rtheap_group *from);
RTHEAP_CHECKED rtheap_status rtheap_worker_move(rtheap_worker *to, rtheap_worker *from);

/* ---- rtheap_worker_statistics: gauges of a worker ---- */

/* The number of the worker's thread, from 0. */
RTHEAP_CHECKED rtheap_status rtheap_worker_thread(const rtheap_worker *worker, uint32_t *thread);

/* What is left of the worker's life, and how many commands it has executed. RTHEAP_ERR_BUSY while a
   command is not done. */
RTHEAP_CHECKED rtheap_status rtheap_worker_units_left(const rtheap_worker *worker, uint64_t *units);
RTHEAP_CHECKED rtheap_status rtheap_worker_objects_left(const rtheap_worker *worker,
                                                        uint64_t *objects);
RTHEAP_CHECKED rtheap_status rtheap_worker_asked(const rtheap_worker *worker, uint64_t *commands);

/* The same as rtheap_read_statistics: of this worker's commands, units, objects and fulls. */
RTHEAP_CHECKED rtheap_status rtheap_worker_read_statistics(const rtheap_worker *worker,
                                                           rtheap_statistics *statistics,
                                                           size_t size);

/* ---- rtheap_worker_ask: commands of a worker, and stamps ---- */

/* Announces a command, and carries out none of it. RTHEAP_OK, RTHEAP_ERR_CLOSED, RTHEAP_ERR_BOUNDS,
   RTHEAP_ERR_LIFE, RTHEAP_ERR_BUSY or RTHEAP_ERR_NO_SUCH_COMMAND. */
RTHEAP_CHECKED rtheap_status rtheap_worker_start(rtheap_worker *worker, rtheap_command command);

/* Carries out at most `most` steps of the command that was started. RTHEAP_NOT_DONE: it has to be
   polled again, best when other threads have run, since its last step may have waited for them.
   RTHEAP_OK, or RTHEAP_ERR_FULL to RTHEAP_ERR_RANGE: it is done, and its reply is written unless
   `reply` is NULL. RTHEAP_ERR_NO_COMMAND, RTHEAP_ERR_CLOSED: nothing was done. */
RTHEAP_CHECKED rtheap_status rtheap_worker_poll(rtheap_worker *worker, uint64_t most,
                                                rtheap_reply *reply);

/* Starts a command and polls it to its end, 64 steps at a time. Between two polls it calls `wait`
   with this context, if that is not NULL: a function of the program that lets other threads run,
   such as one that calls sched_yield, and returns soon. There is no bound on how long it takes
   while other threads are held up. */
RTHEAP_CHECKED rtheap_status rtheap_worker_ask(rtheap_worker *worker, rtheap_command command,
                                               void (*wait)(void *context), void *context,
                                               rtheap_reply *reply);

/* Draws a stamp: a number that may pass to other threads by any channel. RTHEAP_OK,
   RTHEAP_ERR_CLOSED or RTHEAP_ERR_BUSY (a command is not done). `stamp` may be NULL. */
RTHEAP_CHECKED rtheap_status rtheap_worker_stamp(rtheap_worker *worker, uint64_t *stamp);

/* Gives a stamp of another worker of the heap to a worker. RTHEAP_OK: this one has now seen all
   that the other had seen when it drew the stamp, its own commands included, and what it is given
   from now on comes after that in the one order; or 2^64 stamps were drawn. RTHEAP_ERR_NOT_SEEN:
   the stamp is none that was drawn before. RTHEAP_ERR_CLOSED, RTHEAP_ERR_BUSY: nothing was done. */
RTHEAP_CHECKED rtheap_status rtheap_worker_follow(rtheap_worker *worker, uint64_t stamp);

/* ---- rtheap_worker_last_error: what was wrong ---- */

/* What was wrong, as rtheap_last_error and rtheap_explain tell it of a heap. */
RTHEAP_CHECKED rtheap_status rtheap_group_last_error(const rtheap_group *group, rtheap_error *error,
                                                     size_t size);
RTHEAP_CHECKED rtheap_status rtheap_worker_last_error(const rtheap_worker *worker,
                                                      rtheap_error *error, size_t size);

#ifdef __cplusplus
}
#endif
#endif
