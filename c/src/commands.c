/* Commands as values. */
#include "handles.h"

rtheap_command rtheap_cmd_record(uint32_t d, uint32_t fields) {
    return rtheap_in_command(RTHEAP_COMMAND_RECORD, d, fields, 0, 0);
}

rtheap_command rtheap_cmd_array(uint32_t d, uint32_t elements) {
    return rtheap_in_command(RTHEAP_COMMAND_ARRAY, d, elements, 0, 0);
}

rtheap_command rtheap_cmd_set(uint32_t d, uint64_t value) {
    return rtheap_in_command(RTHEAP_COMMAND_SET, d, 0, 0, value);
}

rtheap_command rtheap_cmd_nil(uint32_t d) {
    return rtheap_in_command(RTHEAP_COMMAND_NIL, d, 0, 0, 0);
}

rtheap_command rtheap_cmd_mov(uint32_t d, uint32_t s) {
    return rtheap_in_command(RTHEAP_COMMAND_MOV, d, s, 0, 0);
}

rtheap_command rtheap_cmd_get(uint32_t d, uint32_t s, uint64_t i) {
    return rtheap_in_command(RTHEAP_COMMAND_GET, d, s, 0, i);
}

rtheap_command rtheap_cmd_put(uint32_t s, uint64_t i, uint32_t v) {
    return rtheap_in_command(RTHEAP_COMMAND_PUT, s, 0, v, i);
}

rtheap_command rtheap_cmd_len(uint32_t s) {
    return rtheap_in_command(RTHEAP_COMMAND_LEN, s, 0, 0, 0);
}

rtheap_command rtheap_cmd_same(uint32_t a, uint32_t b) {
    return rtheap_in_command(RTHEAP_COMMAND_SAME, a, b, 0, 0);
}

rtheap_command rtheap_cmd_say(uint32_t s) {
    return rtheap_in_command(RTHEAP_COMMAND_SAY, s, 0, 0, 0);
}

rtheap_command rtheap_cmd_swap(uint32_t s, uint64_t i, uint32_t v) {
    return rtheap_in_command(RTHEAP_COMMAND_SWAP, s, 0, v, i);
}

rtheap_command rtheap_cmd_cas(uint32_t s, uint64_t i, uint32_t a, uint32_t v) {
    return rtheap_in_command(RTHEAP_COMMAND_CAS, s, a, v, i);
}

rtheap_command rtheap_cmd_idle(uint64_t units) {
    return rtheap_in_command(RTHEAP_COMMAND_IDLE, 0, 0, 0, units);
}
