/* Why a call was refused or failed: which argument, its value, and what it may be. */
#include "handles.h"

rtheap_status rtheap_in_blame(rtheap_handle *handle, rtheap_status status, const char *argument,
                              uint64_t value, uint64_t least, uint64_t most) {
    rtheap_error error = {status, argument, value, least, most};
    handle->error = error;
    return status;
}

/* The blocks of an array. */
static uint32_t blocks_of_array(uint32_t width, uint32_t elements) {
    uint32_t level = (elements + width - 1) / width, blocks;
    if (level == 0) level = 1;
    for (blocks = level; level > 1; blocks += level) level = (level + width - 1) / width;
    return blocks;
}

/* The longest array of so many blocks. */
static uint32_t most_elements(uint32_t width, uint32_t blocks) {
    uint32_t least = 0, most = 65535;
    while (least < most) {
        uint32_t middle = least + (most - least + 1) / 2;
        if (blocks_of_array(width, middle) <= blocks) least = middle;
        else most = middle - 1;
    }
    return least;
}

static uint32_t most_fields(uint32_t width, uint32_t blocks) {
    uint32_t most = (width - 1) * blocks;
    return most < 65535 ? most : 65535;
}

static uint32_t opening_blocks(const rtheap_config *c) {
    return (c->width == 4 ? 5u : 3u) * c->threads + blocks_of_array(c->width, c->shared);
}

/* The first number of a configuration that is out of its bounds. */
static rtheap_status blame_bounds(rtheap_handle *handle, const rtheap_config *c) {
    struct {
        const char *name;
        uint32_t value, least, most;
    } parts[5] = {{"threads", c->threads, 1, 16}, {"blocks", c->blocks, 1, 65535},
                  {"live", c->live, 0, 65535}, {"object", c->object, 1, 1024},
                  {"shared", c->shared, 0, 1024}};
    int i;
    for (i = 0; i < 5; i++)
        if (parts[i].value < parts[i].least || parts[i].value > parts[i].most)
            return rtheap_in_blame(handle, RTHEAP_ERR_BOUNDS, parts[i].name, parts[i].value,
                                   parts[i].least, parts[i].most);
    return rtheap_in_blame(handle, RTHEAP_ERR_BOUNDS, NULL, 0, 0, UINT64_MAX);
}

rtheap_status rtheap_in_blame_config(rtheap_handle *handle, rtheap_status status,
                                     const rtheap_config *c) {
    switch (status) {
    case RTHEAP_OK: return status;
    case RTHEAP_ERR_BOUNDS:
        return blame_bounds(handle, c);
    case RTHEAP_ERR_WIDTH: return rtheap_in_blame(handle, status, "width", c->width, 4, 8);
    case RTHEAP_ERR_LIVE:
        return rtheap_in_blame(handle, status, "live", c->live, opening_blocks(c), 65535);
    case RTHEAP_ERR_RATE:
        return rtheap_in_blame(handle, status, "blocks", c->blocks,
                               c->live + 2 * (1 + (uint64_t)c->threads * c->object), 65535);
    default: return rtheap_in_blame(handle, status, NULL, 0, 0, UINT64_MAX);
    }
}

/* In the order of a line of a job. */
const rtheap_operand rtheap_in_operands[13][4] = {
    {{"d", 'a', RTHEAP_IS_REGISTER}, {"fields", 'b', RTHEAP_IS_FIELDS}},
    {{"d", 'a', RTHEAP_IS_REGISTER}, {"elements", 'b', RTHEAP_IS_ELEMENTS}},
    {{"d", 'a', RTHEAP_IS_REGISTER}, {"value", 'n', RTHEAP_IS_NUMBER}},
    {{"d", 'a', RTHEAP_IS_REGISTER}},
    {{"d", 'a', RTHEAP_IS_REGISTER}, {"s", 'b', RTHEAP_IS_REGISTER}},
    {{"d", 'a', RTHEAP_IS_REGISTER}, {"s", 'b', RTHEAP_IS_REGISTER}, {"i", 'n', RTHEAP_IS_NUMBER}},
    {{"s", 'a', RTHEAP_IS_REGISTER}, {"i", 'n', RTHEAP_IS_NUMBER}, {"v", 'v', RTHEAP_IS_REGISTER}},
    {{"s", 'a', RTHEAP_IS_REGISTER}},
    {{"a", 'a', RTHEAP_IS_REGISTER}, {"b", 'b', RTHEAP_IS_REGISTER}},
    {{"s", 'a', RTHEAP_IS_REGISTER}},
    {{"s", 'a', RTHEAP_IS_REGISTER}, {"i", 'n', RTHEAP_IS_NUMBER}, {"v", 'v', RTHEAP_IS_REGISTER}},
    {{"s", 'a', RTHEAP_IS_REGISTER},
     {"i", 'n', RTHEAP_IS_NUMBER},
     {"a", 'b', RTHEAP_IS_REGISTER},
     {"v", 'v', RTHEAP_IS_REGISTER}},
    {{"units", 'n', RTHEAP_IS_UNITS}},
};

uint64_t rtheap_in_number(const rtheap_command *command, char from) {
    switch (from) {
    case 'a': return command->a;
    case 'b': return command->b;
    case 'v': return command->v;
    default: return command->n;
    }
}

static uint64_t most_of(const rtheap_config *c, rtheap_role is) {
    switch (is) {
    case RTHEAP_IS_REGISTER: return 15;
    case RTHEAP_IS_FIELDS: return most_fields(c->width, c->object);
    case RTHEAP_IS_ELEMENTS: return most_elements(c->width, c->object);
    case RTHEAP_IS_UNITS: return 131070;
    default: return (UINT64_C(1) << 62) - 1;
    }
}

/* The first operand that is out of its bounds, or the width of blocks that have no such command. */
static rtheap_status blame_operand(rtheap_handle *handle, const rtheap_command *command) {
    const rtheap_operand *row = rtheap_in_operands[command->kind];
    int i;
    for (i = 0; i < 4 && row[i].is != RTHEAP_IS_NONE; i++) {
        uint64_t value = rtheap_in_number(command, row[i].from);
        uint64_t most = most_of(&handle->config, row[i].is);
        if (value > most)
            return rtheap_in_blame(handle, RTHEAP_ERR_BOUNDS, row[i].name, value, 0, most);
    }
    if (command->kind >= RTHEAP_COMMAND_SWAP && handle->config.width != 8)
        return rtheap_in_blame(handle, RTHEAP_ERR_BOUNDS, "width", handle->config.width, 8, 8);
    return rtheap_in_blame(handle, RTHEAP_ERR_BOUNDS, NULL, 0, 0, UINT64_MAX);
}

/* What is at its end: commands, objects, or else units. */
static rtheap_status blame_life(rtheap_handle *handle, const rtheap_command *command) {
    rtheap_counts counts = rtheap_in_counts(handle);
    if (counts.asked >= RTHEAP_MOST_COMMANDS)
        return rtheap_in_blame(handle, RTHEAP_ERR_LIFE, "commands", 0, 1, UINT64_MAX);
    if (command->kind <= RTHEAP_COMMAND_ARRAY && counts.objects_left == 0)
        return rtheap_in_blame(handle, RTHEAP_ERR_LIFE, "objects", 0, 1, UINT64_MAX);
    return rtheap_in_blame(handle, RTHEAP_ERR_LIFE, "units", counts.units_left, 0, UINT64_MAX);
}

rtheap_status rtheap_in_blame_command(rtheap_handle *handle, rtheap_status status,
                                      const rtheap_command *command, const rtheap_reply *reply) {
    uint64_t s = command->kind == RTHEAP_COMMAND_GET ? command->b : command->a;
    switch (status) {
    case RTHEAP_OK: return status;
    case RTHEAP_ERR_BOUNDS: return blame_operand(handle, command);
    case RTHEAP_ERR_LIFE: return blame_life(handle, command);
    case RTHEAP_ERR_FULL:
        handle->fulls++;
        handle->full_cycle = reply->value;
        return rtheap_in_blame(handle, status, NULL, reply->value, 0, UINT64_MAX);
    case RTHEAP_ERR_NIL:
    case RTHEAP_ERR_NOT_OBJECT: return rtheap_in_blame(handle, status, "s", s, 0, UINT64_MAX);
    case RTHEAP_ERR_RANGE:
        return rtheap_in_blame(handle, status, "i", command->n, 0, UINT64_MAX);
    case RTHEAP_ERR_NO_SUCH_COMMAND:
        return rtheap_in_blame(handle, status, "kind", command->kind, 0, RTHEAP_COMMAND_IDLE);
    default: return rtheap_in_blame(handle, status, NULL, 0, 0, UINT64_MAX);
    }
}

rtheap_status rtheap_in_last_error(const rtheap_handle *handle, rtheap_error *error, size_t size) {
    if (!handle) return RTHEAP_ERR_NULL_HANDLE;
    if (!error) return RTHEAP_OK;
    rtheap_in_copy(error, size, &handle->error, sizeof handle->error);
    return RTHEAP_OK;
}

rtheap_status rtheap_last_error(const rtheap *heap, rtheap_error *error, size_t size) {
    return rtheap_in_last_error((const rtheap_handle *)heap, error, size);
}
