# The bounds of a lone thread's commands, in turns: on n threads and m blocks of w payload words,
# for an allocation of k blocks that owes r units, and for another command that owes r units, in a
# heap whose largest object has b blocks and whose shared array has s elements. The near bounds, and
# the stated one of an allocation.
function larger(a, b) { return a > b ? a : b }
function farthest(n, passes,    turns) {
    while (n > 0 && passes-- > 0) turns += --n
    return turns + 0
}
function collecting(n, w, m, r) {
    return r == 0 ? 0 : r * (2 * w + 7) + larger(2 * n + 7 + farthest(n, r - 1), 3 * n + 15) \
        + (3 * n + 15) * int((r - 1) / m)
}
function near_bound(n, w, m, r, k) { return collecting(n, w, m, r) + (w + 4) * k + n + 7 }
function stated_bound(n, r, k) { return (r + 1) * (8 * n + 64) + 16 * k + 8 * n + 64 }
function depth(w, e,    level, levels) {
    level = larger(1, int((e + w - 1) / w))
    while (level > 1) { level = int((level + w - 1) / w); levels++ }
    return levels + 0
}
# The links to the last field of the longest record, or to an element of the longest array.
function links(w, b, s) { return larger(b - 1, depth(w, larger(s, w * b))) }
function events(command, w, b, s) {
    if (command == "set" || command == "nil" || command == "idle") return 1
    if (command == "len" || command == "same" || command == "say") return 2
    if (command == "mov") return 5
    return links(w, b, s) + (command == "put" ? 7 : command == "swap" ? 12 : 8)
}
function near_other(command, n, w, m, r, b, s) {
    return collecting(n, w, m, r) + events(command, w, b, s) + 3
}
