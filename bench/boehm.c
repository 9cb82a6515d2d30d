/* Runs a job of one thread and of version 1 on Boehm's collector, and prints what `rtheap run`
   prints, but for works and cycles, which are 0. It trusts its input, and bench/collector compares
   what is answered. */
#include <gc.h>
#include <stdint.h>
#include <stdio.h>
#include <stdlib.h>
#include <string.h>

/* 0 is nil, 2v + 1 the number v, and all else refers to an object. */
typedef uintptr_t value;

/* A name is odd, so that the collector takes it for no reference. */
typedef struct {
    uint64_t name, length;
    value fields[];
} object;

enum kind { NEW, SET, NIL, MOV, GET, PUT, LEN, SAME, SAY };

typedef struct {
    uint8_t kind, d, s;
    uint64_t i;
} command;

/* The first four have a number, which stands with them in a reply. */
enum told { MADE, INT, REF, LENGTH, OK, VALUE_NIL, YES, NO, NULL_, KIND, RANGE };

typedef struct {
    uint8_t told;
    uint64_t number;
} reply;

static const struct {
    char word[5];
    uint8_t kind;
} words[] = {{"new", NEW}, {"put", PUT}, {"get", GET}, {"set", SET}, {"arr", NEW},
             {"nil", NIL}, {"mov", MOV}, {"len", LEN}, {"same", SAME}, {"say", SAY}};

static void *or_fail(void *room) {
    if (!room) {
        fputs("boehm: no memory\n", stderr);
        exit(7);
    }
    return room;
}

/* The input, behind what was read of it. */
static char *input;

static uint64_t number(void) {
    uint64_t n = 0;
    for (input++; *input >= '0'; input++) n = 10 * n + (uint64_t)(*input - '0');
    return n;
}

/* The next line's command; none at `end`. */
static int read_command(command *c) {
    size_t length = strcspn(input, " \n");
    for (size_t k = 0; k < sizeof words / sizeof *words; k++) {
        if (memcmp(words[k].word, input, length) || words[k].word[length]) continue;
        input += length;
        c->kind = words[k].kind;
        switch (c->kind) {
        case NEW: case SET: c->d = number(); c->i = number(); break;
        case MOV: case SAME: c->d = number(); c->s = number(); break;
        case GET: c->d = number(); c->s = number(); c->i = number(); break;
        case PUT: c->s = number(); c->i = number(); c->d = number(); break;
        case NIL: c->d = number(); break;
        default: c->s = number();
        }
        input++;
        return 1;
    }
    return 0;
}

static reply shown(value v) {
    if (v == 0) return (reply){VALUE_NIL, 0};
    if (v & 1) return (reply){INT, v >> 1};
    return (reply){REF, ((object *)v)->name >> 1};
}

static object *made(uint64_t serial, uint64_t length) {
    object *o = or_fail(GC_MALLOC(sizeof(object) + length * sizeof(value)));
    o->name = serial << 1 | 1;
    o->length = length;
    return o;
}

/* What a command is answered where the value refers to no object; else the object is in `o`. */
static int is_refused(value v, object **o, reply *r) {
    if (v == 0) *r = (reply){NULL_, 0};
    else if (v & 1) *r = (reply){KIND, 0};
    else return *o = (object *)v, 0;
    return 1;
}

static reply done(value *registers, const command *c, uint64_t *serial) {
    object *o;
    reply r = {OK, 0};
    switch (c->kind) {
    case NEW:
        registers[c->d] = (value)made(++*serial, c->i);
        return (reply){MADE, *serial};
    case SET: registers[c->d] = c->i << 1 | 1; return r;
    case NIL: registers[c->d] = 0; return r;
    case MOV: registers[c->d] = registers[c->s]; return r;
    case LEN:
        if (is_refused(registers[c->s], &o, &r)) return r;
        return (reply){LENGTH, o->length};
    case SAME: return (reply){registers[c->d] == registers[c->s] ? YES : NO, 0};
    case SAY: return shown(registers[c->s]);
    default:
        if (is_refused(registers[c->s], &o, &r)) return r;
        if (c->i >= o->length) return (reply){RANGE, 0};
        if (c->kind == PUT) {
            o->fields[c->i] = registers[c->d];
            return r;
        }
        registers[c->d] = o->fields[c->i];
        return shown(registers[c->d]);
    }
}

/* Makes the line of a reply. The shared array has serial 0 and the name 1.0. */
static char *printed(char *out, reply r) {
    static const char *texts[] = {
        [MADE] = "new 0.", [INT] = "int ", [REF] = "ref 0.", [LENGTH] = "len ", [OK] = "ok",
        [VALUE_NIL] = "nil", [YES] = "yes", [NO] = "no", [NULL_] = "null", [KIND] = "kind",
        [RANGE] = "range"};
    char digits[21], *at = digits + 20;
    out = stpcpy(out, "0 ");
    out = stpcpy(out, r.told == REF && r.number == 0 ? "ref 1." : texts[r.told]);
    if (r.told <= LENGTH) {
        *at = 0;
        do *--at = (char)('0' + r.number % 10);
        while (r.number /= 10);
        out = stpcpy(out, at);
    }
    return stpcpy(out, r.told == MADE ? " work 0\n" : "\n");
}

int main(void) {
    GC_INIT();
    size_t room = 16777217, most = 131072; /* the longest input, and the most commands */
    input = or_fail(malloc(room + 1));
    input[fread(input, 1, room, stdin)] = 0;
    unsigned long long shared = 0;
    int read = 0;
    sscanf(input, "rtheap 1 threads 1 blocks %*u live %*u object %*u shared %llu thread 0%n", &shared,
        &read);
    if (read == 0) {
        fputs("boehm: no job of one thread and version 1\n", stderr);
        return 3;
    }
    input += read + 1;
    size_t count = 0;
    command *trace = or_fail(malloc(most * sizeof *trace));
    while (count < most && read_command(trace + count)) count++;

    reply *log = or_fail(malloc((count + 1) * sizeof *log));
    value registers[16] = {(value)made(0, shared)};
    uint64_t serial = 0;
    for (size_t k = 0; k < count; k++) log[k] = done(registers, trace + k, &serial);
    GC_reachable_here(registers);

    char out[65536], *end = out;
    for (size_t k = 0; k < count; k++) {
        end = printed(end, log[k]);
        if (end - out > 65000) {
            fwrite(out, 1, (size_t)(end - out), stdout);
            end = out;
        }
    }
    end = stpcpy(end, "end cycles 0 work 0\n");
    fwrite(out, 1, (size_t)(end - out), stdout);
    return 0;
}
