/* A peer in C: does a job of version 1, and trusts it. Built with -DBUMP it allocates from a room
   that is taken before the threads run, and frees nothing: the floor. Else its heap is that of
   Boehm's collector, which stops the threads, or marks step by step if it is built with -DSTEPS.

       peer run < JOB                   prints what `rtheap run` prints, but for works and totals
       peer time TAIL WARM TURNS < JOB  does the job, then the last TAIL commands of each thread again
                                        and again: WARM times, and TURNS times more that are timed */
#define GC_THREADS
#ifndef BUMP
#include <gc.h>
#endif
#include <pthread.h>
#include <stdint.h>
#include <stdio.h>
#include <stdlib.h>
#include <string.h>
#include <time.h>

/* 0 is nil, 2v + 1 the number v, and all else refers to an object. */
typedef uintptr_t value;

/* A name is odd, so that the collector takes it for no reference. */
typedef struct {
    uint64_t name, length;
    value fields[];
} object;

enum kind { NEW, SET, NIL, MOV, GET, PUT, LEN, SAME, SAY };

typedef struct {
    uint8_t kind, d, s;
    uint64_t i;
} command;

/* The first four have a number, which stands with them in a reply. */
enum told { MADE, INT, REF, LENGTH, OK, VALUE_NIL, YES, NO, NULL_, KIND, RANGE };

typedef struct {
    uint8_t told;
    uint64_t number;
} reply;

static const char *const says[] = {"new", "int", "ref", "len", "ok",  "nil",
                                   "yes", "no",  "null", "kind", "range"};

/* Times are counted by classes: 32 of them to a power of two. */
enum { PARTS = 32, CLASSES = 64 * PARTS, MOST = 131072 };

typedef struct {
    command *commands;
    reply *replies;
    size_t count;
    uint64_t id, serial, longest, times[CLASSES];
    char *room;
} thread;

static object *shared;
static pthread_barrier_t meeting;
static uint64_t tail, warm, turns;

static void *or_fail(void *room) {
    if (!room) {
        fprintf(stderr, "peer: no memory\n");
        exit(7);
    }
    return room;
}

static uint64_t now(void) {
    struct timespec t;
    clock_gettime(CLOCK_MONOTONIC, &t);
    return (uint64_t)t.tv_sec * 1000000000 + (uint64_t)t.tv_nsec;
}

static unsigned class_of(uint64_t time) {
    if (time < PARTS) return (unsigned)time;
    unsigned power = 63 - (unsigned)__builtin_clzll(time);
    return (power - 4) * PARTS + (unsigned)(time >> (power - 5)) % PARTS;
}

static uint64_t greatest_of(unsigned class) {
    if (class < PARTS) return class;
    return ((uint64_t)(PARTS + class % PARTS + 1) << (class / PARTS - 1)) - 1;
}

static object *make(thread *who, uint64_t name, uint64_t length) {
    size_t size = sizeof(object) + length * sizeof(value);
#ifdef BUMP
    object *o = (object *)who->room;
    who->room += size;
#else
    (void)who;
    object *o = or_fail(GC_MALLOC(size));
#endif
    o->name = 2 * name + 1;
    o->length = length;
    return o;
}

static reply told(enum told told) { return (reply){told, 0}; }

static reply shown(value v) {
    if (v == 0) return told(VALUE_NIL);
    if (v & 1) return (reply){INT, v >> 1};
    return (reply){REF, ((object *)v)->name >> 1};
}

static reply access_field(value *registers, const command *c) {
    value v = registers[c->s];
    if (v == 0) return told(NULL_);
    if (v & 1) return told(KIND);
    object *o = (object *)v;
    if (c->kind == LEN) return (reply){LENGTH, o->length};
    if (c->i >= o->length) return told(RANGE);
    if (c->kind == PUT) {
        __atomic_store_n(&o->fields[c->i], registers[c->d], __ATOMIC_SEQ_CST);
        return told(OK);
    }
    registers[c->d] = __atomic_load_n(&o->fields[c->i], __ATOMIC_SEQ_CST);
    return shown(registers[c->d]);
}

static reply answer(thread *who, value *registers, const command *c) {
    switch (c->kind) {
    case NEW: {
        uint64_t name = who->id << 32 | ++who->serial;
        registers[c->d] = (value)make(who, name, c->i);
        return (reply){MADE, name};
    }
    case SET: registers[c->d] = 2 * c->i + 1; return told(OK);
    case NIL: registers[c->d] = 0; return told(OK);
    case MOV: registers[c->d] = registers[c->s]; return told(OK);
    case SAME: return told(registers[c->d] == registers[c->s] ? YES : NO);
    case SAY: return shown(registers[c->s]);
    default: return access_field(registers, c);
    }
}

static void answer_all(thread *who, value *registers, size_t from, int is_timed) {
    uint64_t last = is_timed ? now() : 0;
    for (size_t k = from; k < who->count; k++) {
        who->replies[k] = answer(who, registers, &who->commands[k]);
        if (is_timed) {
            uint64_t read = now(), time = read - last;
            last = read;
            if (time > who->longest) who->longest = time;
            who->times[class_of(time)]++;
        }
    }
}

static void *run(void *argument) {
    thread *who = argument;
    value registers[16] = {(value)shared};
    size_t from = who->count > tail ? who->count - tail : 0;
    pthread_barrier_wait(&meeting);
    answer_all(who, registers, 0, 0);
    for (uint64_t turn = 0; turn < warm + turns; turn++)
        answer_all(who, registers, from, turn >= warm);
#ifndef BUMP
    GC_reachable_here(registers);
#endif
    return 0;
}

static uint64_t number(char **text) {
    while (**text == ' ') ++*text;
    return strtoull(*text, text, 10);
}

static command command_of(char *line) {
    static const char *const words[] = {"new", "set", "nil", "mov", "get", "put",
                                        "len", "same", "say", "arr"};
    size_t word = 0, length = strcspn(line, " ");
    while (strlen(words[word]) != length || strncmp(words[word], line, length)) word++;
    command c = {word == 9 ? NEW : (uint8_t)word, 0, 0, 0};
    char *rest = line + length;
    if (c.kind == PUT) {
        c.s = (uint8_t)number(&rest), c.i = number(&rest), c.d = (uint8_t)number(&rest);
    } else if (c.kind == LEN || c.kind == SAY) {
        c.s = (uint8_t)number(&rest);
    } else {
        c.d = (uint8_t)number(&rest);
        if (c.kind == MOV || c.kind == GET || c.kind == SAME) c.s = (uint8_t)number(&rest);
        if (c.kind == NEW || c.kind == SET || c.kind == GET) c.i = number(&rest);
    }
    return c;
}

static thread *read_job(unsigned *count, unsigned *slots) {
    char line[128];
    if (scanf("rtheap 1 threads %u blocks %*u live %*u object %*u shared %u ", count, slots) != 2)
        exit(3);
    thread *threads = or_fail(calloc(*count, sizeof(thread))), *who = threads;
    while (fgets(line, sizeof line, stdin) && strncmp(line, "end", 3)) {
        line[strcspn(line, "\n")] = 0;
        if (!strncmp(line, "thread ", 7)) {
            who = threads + atoi(line + 7);
            who->id = (uint64_t)(who - threads);
            who->commands = or_fail(malloc(MOST * sizeof(command)));
            who->replies = or_fail(malloc(MOST * sizeof(reply)));
            memset(who->replies, 0, MOST * sizeof(reply));
        } else {
            who->commands[who->count++] = command_of(line);
        }
    }
    return threads;
}

/* The room of all objects that the thread will make. */
static void take_room(thread *who) {
#ifdef BUMP
    size_t size = 0, from = who->count > tail ? who->count - tail : 0;
    for (size_t k = 0; k < who->count; k++)
        if (who->commands[k].kind == NEW)
            size += (sizeof(object) + who->commands[k].i * sizeof(value))
                  * (k < from ? 1 : 1 + warm + turns);
    who->room = or_fail(calloc(1, size + 1));
#else
    (void)who;
#endif
}

static void print_reply(const thread *who, reply r) {
    printf("%u %s", (unsigned)who->id, says[r.told]);
    if (r.told == MADE || r.told == REF)
        printf(" %u.%u", (unsigned)(r.number >> 32), (unsigned)r.number);
    else if (r.told == INT || r.told == LENGTH)
        printf(" %llu", (unsigned long long)r.number);
    puts(r.told == MADE ? " work 0" : "");
}

/* The least time that so many thousandths of all take at most, to a 32nd. */
static uint64_t percentile(const thread *threads, unsigned count, uint64_t thousandths) {
    uint64_t all = 0, seen = 0;
    for (unsigned t = 0; t < count; t++)
        for (unsigned k = 0; k < CLASSES; k++) all += threads[t].times[k];
    for (unsigned k = 0; k < CLASSES; k++) {
        for (unsigned t = 0; t < count; t++) seen += threads[t].times[k];
        if (seen * 1000 >= all * thousandths) return greatest_of(k);
    }
    return 0;
}

static void print_times(const thread *threads, unsigned count) {
    uint64_t longest = 0;
    for (unsigned t = 0; t < count; t++)
        if (threads[t].longest > longest) longest = threads[t].longest;
    printf("median %llu most %llu longest %llu\n",
           (unsigned long long)percentile(threads, count, 500),
           (unsigned long long)percentile(threads, count, 999), (unsigned long long)longest);
}

int main(int words, char **word) {
    unsigned count, slots;
    pthread_t threads_of[16];
    if (words == 5) tail = (uint64_t)atoll(word[2]), warm = (uint64_t)atoll(word[3]),
                    turns = (uint64_t)atoll(word[4]);
#ifndef BUMP
    GC_set_all_interior_pointers(0);
    GC_INIT();
    GC_set_max_heap_size((size_t)64 << 20);
    GC_allow_register_threads();
#ifdef STEPS
    GC_set_time_limit(1);
    GC_enable_incremental();
#endif
#endif
    thread *threads = read_job(&count, &slots);
    thread opening = {.room = calloc(1, sizeof(object) + slots * sizeof(value))};
    shared = make(&opening, (uint64_t)count << 32, slots);
    pthread_barrier_init(&meeting, 0, count);
    for (unsigned t = 0; t < count; t++) take_room(threads + t);
    for (unsigned t = 0; t < count; t++)
        if (pthread_create(threads_of + t, 0, run, threads + t)) exit(7);
    for (unsigned t = 0; t < count; t++) pthread_join(threads_of[t], 0);
    if (turns) {
        print_times(threads, count);
        return 0;
    }
    for (unsigned t = 0; t < count; t++)
        for (size_t k = 0; k < threads[t].count; k++)
            print_reply(threads + t, threads[t].replies[k]);
    puts("end cycles 0 work 0");
    return 0;
}
