/* Texts: what was wrong, and commands as lines of a job. */
#include "handles.h"

#include <string.h>

typedef struct writer {
    char *text;
    size_t size, length;
} writer;

static void put_text(writer *w, const char *text) {
    for (; *text; text++, w->length++)
        if (w->length + 1 < w->size) w->text[w->length] = *text;
}

static void put_number(writer *w, uint64_t number) {
    char digits[21];
    int at = 20;
    digits[at] = 0;
    do digits[--at] = (char)('0' + number % 10);
    while ((number /= 10) != 0);
    put_text(w, digits + at);
}

/* Ends the text, cut off where it is too long, and returns its whole length. */
static size_t ended(const writer *w) {
    if (w->size > 0) w->text[w->length < w->size ? w->length : w->size - 1] = 0;
    return w->length;
}

/* ---- What was wrong ---- */

static void put_error(writer *w, const rtheap_error *e) {
    put_text(w, rtheap_status_text(e->status));
    if (!e->argument) return;
    put_text(w, ": ");
    put_text(w, e->argument);
    put_text(w, " is ");
    put_number(w, e->value);
    if (e->least > 0) {
        put_text(w, "; at least ");
        put_number(w, e->least);
    }
    if (e->most != UINT64_MAX) {
        put_text(w, "; at most ");
        put_number(w, e->most);
    }
}

size_t rtheap_error_text(const rtheap_error *error, char *text, size_t size) {
    writer w = {text, text ? size : 0, 0};
    if (error) put_error(&w, error);
    return ended(&w);
}

size_t rtheap_explain(const rtheap *heap, char *text, size_t size) {
    const rtheap_error none = {RTHEAP_ERR_NULL_HANDLE, NULL, 0, 0, UINT64_MAX};
    return rtheap_error_text(heap ? &((const rtheap_handle *)heap)->error : &none, text, size);
}

/* ---- Jobs ---- */

enum { MOST_COMMANDS = 131072, LINE = 120 };

static void tell_line(rtheap_handle *handle, writer *w) {
    put_text(w, "\n");
    (void)ended(w);
    handle->put(handle->put_context, w->text);
}

void rtheap_in_tell(rtheap_handle *handle, const rtheap_command *command) {
    static const char words[13][5] = {"new", "arr", "set",  "nil",  "mov", "get", "put",
                                      "len", "same", "say", "swap", "cas", "idle"};
    const rtheap_operand *row = rtheap_in_operands[command->kind];
    char line[LINE];
    writer w = {line, sizeof line, 0};
    int i;
    put_text(&w, words[command->kind]);
    for (i = 0; i < 4 && row[i].is != RTHEAP_IS_NONE; i++) {
        put_text(&w, " ");
        put_number(&w, rtheap_in_number(command, row[i].from));
    }
    tell_line(handle, &w);
    if (++handle->put_commands == MOST_COMMANDS) rtheap_in_end(handle);
}

void rtheap_in_end(rtheap_handle *handle) {
    if (!handle->put) return;
    handle->put(handle->put_context, "end\n");
    handle->put = NULL;
}

/* The header, and the line of the thread. */
static void tell_header(rtheap_handle *handle) {
    const rtheap_config *c = &handle->config;
    const struct {
        const char *name;
        uint32_t value;
    } parts[6] = {{"rtheap ", rtheap_in_version(c->width)}, {" threads ", c->threads},
                  {" blocks ", c->blocks}, {" live ", c->live}, {" object ", c->object},
                  {" shared ", c->shared}};
    char line[LINE];
    writer w = {line, sizeof line, 0};
    int i;
    for (i = 0; i < 6; i++) {
        put_text(&w, parts[i].name);
        put_number(&w, parts[i].value);
    }
    tell_line(handle, &w);
    handle->put(handle->put_context, "thread 0\n");
}

rtheap_status rtheap_start_job(rtheap *heap, void (*put)(void *context, const char *line),
                               void *context) {
    rtheap_handle *handle = (rtheap_handle *)heap;
    rtheap_status status = rtheap_in_take(handle, RTHEAP_MARK_HEAP);
    if (status != RTHEAP_OK) return status;
    if (!put) {
        status = rtheap_in_blame(handle, RTHEAP_ERR_NULL_POINTER, "put", 0, 1, UINT64_MAX);
    } else if (rtheap_in_counts(handle).asked > 0) {
        status = rtheap_in_blame(handle, RTHEAP_ERR_USED, "commands",
                                 rtheap_in_counts(handle).asked, 0, 0);
    } else {
        handle->put = put;
        handle->put_context = context;
        handle->put_commands = 0;
        tell_header(handle);
    }
    rtheap_in_give(handle);
    return status;
}

rtheap_status rtheap_end_job(rtheap *heap) {
    rtheap_handle *handle = (rtheap_handle *)heap;
    rtheap_status status = rtheap_in_take(handle, RTHEAP_MARK_HEAP);
    if (status != RTHEAP_OK) return status;
    rtheap_in_end(handle);
    rtheap_in_give(handle);
    return status;
}
