/* The version, and statuses as names and texts. */
#include "../rtheap_shared.h"

const char *rtheap_version(void) { return RTHEAP_VERSION; }

uint32_t rtheap_version_number(void) { return RTHEAP_VERSION_NUMBER; }

#define ROW(status, text) {status, #status, text}

static const struct {
    rtheap_status status;
    const char *name, *text;
} rows[] = {
    ROW(RTHEAP_OK, "done"),
    ROW(RTHEAP_ERR_CLOSED, "the handle is closed"),
    ROW(RTHEAP_ERR_BOUNDS, "a number is out of range, or not for blocks of this width"),
    ROW(RTHEAP_ERR_LIFE, "too little is left of the heap's life"),
    ROW(RTHEAP_ERR_OPEN, "the handle is already open"),
    ROW(RTHEAP_ERR_WIDTH, "the width is neither 4 nor 8"),
    ROW(RTHEAP_ERR_LIVE, "registers and shared array exceed the live limit"),
    ROW(RTHEAP_ERR_RATE, "the heap has too few blocks for the live limit"),
    ROW(RTHEAP_ERR_MEMORY, "out of memory"),
    ROW(RTHEAP_ERR_NULL_HANDLE, "the handle is NULL"),
    ROW(RTHEAP_ERR_FULL, "no room: more is reachable than the live limit"),
    ROW(RTHEAP_ERR_NIL, "the register or field holds nil, and no reference"),
    ROW(RTHEAP_ERR_NOT_OBJECT, "the register or field holds a number, and no reference"),
    ROW(RTHEAP_ERR_RANGE, "the object has no such field or element"),
    ROW(RTHEAP_ERR_TOO_SMALL, "the lent memory or buffer is too small"),
    ROW(RTHEAP_ERR_BUSY, "the worker's last command is not done"),
    ROW(RTHEAP_NOT_DONE, "the command is not done yet"),
    ROW(RTHEAP_ERR_NO_COMMAND, "the worker has no command to carry out"),
    ROW(RTHEAP_ERR_NO_SUCH_COMMAND, "there is no command of this number"),
    ROW(RTHEAP_ERR_NO_WORKER, "the group has no worker"),
    ROW(RTHEAP_ERR_NOT_SEEN, "the worker has not seen all that came before the stamp"),
    ROW(RTHEAP_ERR_WORKERS_OUT, "a handle has a worker of the heap"),
    ROW(RTHEAP_ERR_IN_USE, "another call uses the handle"),
    ROW(RTHEAP_ERR_MOVED, "it is a copy of a handle"),
    ROW(RTHEAP_ERR_WRONG_HANDLE, "it is a handle of another kind"),
    ROW(RTHEAP_ERR_WRONG_GROUP, "the worker is of another group"),
    ROW(RTHEAP_ERR_NULL_POINTER, "a pointer that is needed is NULL"),
    ROW(RTHEAP_ERR_CONFIG_SIZE, "the size of the configuration is not known"),
    ROW(RTHEAP_ERR_NOT_NUMBER, "the field holds no number"),
    ROW(RTHEAP_ERR_USED, "the heap has carried out commands"),
    ROW(RTHEAP_ERR_TOO_LARGE, "there are too many objects to be saved and loaded"),
    ROW(RTHEAP_ERR_NOT_SAVED, "the bytes are not those of a saved heap"),
    ROW(RTHEAP_ERR_SAVED_VERSION, "the heap was saved in another version"),
    ROW(RTHEAP_ERR_TORN, "the saved heap is cut short or too long"),
    ROW(RTHEAP_ERR_CHECKSUM, "the saved heap was changed"),
    ROW(RTHEAP_ERR_MALFORMED, "the saved heap has no picture of a heap"),
    ROW(RTHEAP_ERR_OBJECT, "a saved object, or a table of all, is larger than an object may be"),
    ROW(RTHEAP_ERR_NO_ROOM, "the saved heap needs more than the live limit"),
};

static const size_t count = sizeof rows / sizeof *rows;

const char *rtheap_status_name(rtheap_status status) {
    size_t i;
    for (i = 0; i < count; i++)
        if (rows[i].status == status) return rows[i].name;
    return "not a status";
}

const char *rtheap_status_text(rtheap_status status) {
    size_t i;
    for (i = 0; i < count; i++)
        if (rows[i].status == status) return rows[i].text;
    return "not a status";
}
