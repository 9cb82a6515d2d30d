# Judges what a run printed, thread by thread, by what any order of the threads allows:
#
#     awk -f judge.awk JOB OUTPUT
#
# Each command has its line, in the order of the job, with a reply of its kind. An allocation made
# exactly its units, its name is the thread's next, and a cycle that a full names had ended before
# the last began, and is not before that of the thread's full before it. A reference is to an object
# that was made. The totals are the sum of the works, and cycles that so many units can make.
# Where that is not so, the first thing that is wrong is printed, and the status is 1.

function wrong(what) {
    print "line " FNR " of the output: " what ": " $0
    failed = 1
    exit 1
}

# The blocks of an object.
function blocks_of(word, length_,    level, sum) {
    if (word == "new") {
        level = int((length_ + width - 2) / (width - 1))
        return level ? level : 1
    }
    level = int((length_ + width - 1) / width)
    sum = level = level ? level : 1
    while (level > 1) sum += level = int((level + width - 1) / width)
    return sum
}

# The least rate that is enough for the heap.
function least_rate(    rate) {
    for (rate = 1; rate <= 2 * m; rate++)
        if (live + 2 * (int((2 * m + rate - 1) / rate) + n * object) <= m) return rate
}

function is_value() {
    if ($2 == "nil") return NF == 2
    if ($2 == "int") return NF == 3
    if ($2 == "ref" && NF == 3) seen[$3]
    return $2 == "ref" && NF == 3
}

function allocates(word, length_,    units) {
    units = rate * blocks_of(word, length_)
    if (NF != 5 || $4 != "work" || $5 != units) wrong("not " units " units")
    work += units
    if ($2 == "new") {
        if ($3 != $1 "." ++made[$1]) wrong("not the name " $1 "." made[$1])
    } else if ($2 == "full") {
        if ($3 < last[$1] || $3 < 1) wrong("the cycle is an earlier one")
        last[$1] = $3 + 0
        if (last[$1] > most) most = last[$1]
        fulls++
    } else wrong("no reply of an allocation")
}

function totals() {
    if (NF != 5 || $2 != "cycles" || $4 != "work") wrong("no totals")
    if ($5 != work) wrong("the works sum up to " work)
    if (($3 - 1) * m > $5 || $5 > 2 * m * $3 || $3 < 1) wrong("so many cycles can't be")
    if (most > ($3 > 2 ? $3 - 1 : 1)) wrong("full " most " names a cycle that had not ended")
    ended = 1
}

FNR == 1 && NR == 1 {
    width = $2 == 1 ? 4 : 8
    n = $4; m = $6; live = $8; object = $10
    rate = least_rate()
    made[n] = 0
    seen[n ".0"]
    next
}
FNR == NR {
    if ($1 == "thread") t = $2
    else if ($1 != "end") command[++commands] = t " " $0
    next
}
ended { wrong("a line behind the totals") }
FNR > commands {
    if ($1 != "end") wrong("no totals")
    totals()
    next
}
{
    split(command[FNR], told)
    if ($1 != told[1]) wrong("not of thread " told[1])
    no_object = NF == 2 && ($2 == "null" || $2 == "kind")
    good = 0
    if (told[2] == "new" || told[2] == "arr") { allocates(told[2], told[4]); good = 1 }
    else if (told[2] ~ /^(set|nil|mov)$/) good = $2 == "ok" && NF == 2
    else if (told[2] == "put") good = NF == 2 && ($2 == "ok" || $2 == "range") || no_object
    else if (told[2] == "get") good = is_value() || NF == 2 && $2 == "range" || no_object
    else if (told[2] == "len") good = $2 == "len" && NF == 3 || no_object
    else if (told[2] == "same") good = NF == 2 && ($2 == "yes" || $2 == "no")
    else if (told[2] == "say") good = is_value()
    if (!good) wrong("no reply of `" substr(command[FNR], index(command[FNR], " ") + 1) "`")
}
END {
    if (failed) exit 1
    if (!ended) { print "the output has no totals"; exit 1 }
    for (name in seen) {
        split(name, part, ".")
        if (name != n ".0" && (part[2] < 1 || part[2] > made[part[1]])) {
            print "no object has the name " name
            exit 1
        }
    }
    print fulls + 0 " of " length(command) " commands were answered full"
}
