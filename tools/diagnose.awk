# Why a text is refused, and where: a second, plain reading of the text and of the task check, for
# people. The verdict comes from the proved program alone; ./lawcheck shows what is printed here
# only where the number is the verdict file's.
#
#   od -An -v -tu1 TEXT | LC_ALL=C awk -v refusal=NUMBER -f tools/text.awk -f tools/diagnose.awk
#
# Prints the refusal's number, a blank and the message, or nothing where it finds no reason. NUMBER
# is the verdict file's: a text without other fault, whose members all have room, is refused with 9
# for its configurations.
#
# Masks become sets of facts: has[row, column, fact], where the mask's low word stands in that
# column and its high word in the next.

BEGIN {
    FACTS = 128
    MEMBERS = 8
    ACTIONS = 256
    WORD = 64 # facts of a word
    MASK = 2 # words of a mask
    # Columns: I, and what has to be zero in row 0; a goal, and the zeros after it; the masks of an
    # action.
    START = 4
    START_ZEROS = START + MASK
    PRE = GOAL = 2
    WAIT = GOAL_ZEROS = PRE + MASK
    ADD = WAIT + MASK
    DEL = ADD + MASK
    LOCAL = 4096
    CONFIGURATIONS = 8192
    PART = 16 # facts of a part of a copy
}

END {
    read_text(WIDTH)
    task()
    tables()
}

# ---- 1 to 6: the task check, in the paper's order

function task(    row, member, action, f) {
    if (records == 0)
        tell(1, "the text is empty; its first record is " FIRST)
    in_range(1, "F", 1, FACTS)
    in_range(2, "n", 1, MEMBERS)
    in_range(3, "m", 0, ACTIONS)
    zeros(2, 0, START_ZEROS, "row 0")
    facts = word[0, 1] + 0
    members = word[0, 2] + 0
    actions = word[0, 3] + 0
    if (records != 1 + members + actions)
        tell(1, "the text has " records " records; n = " members " and m = " actions " ask for " \
            (1 + members + actions) " (1 + n + m)")
    mask(0, START, "row 0, I")
    for (member = 0; member < members; member++) {
        row = 1 + member
        who = "row " row " (goal of member " member ")"
        if (word[row, 1] != member "")
            tell(3, who ", member: " word[row, 1] " is not " member stands(row, 1))
        zeros(3, row, GOAL_ZEROS, who)
        mask(row, GOAL, who ", goal")
    }
    for (action = 0; action < actions; action++) {
        row = 1 + members + action
        who = "row " row " (action " action ")"
        if (!below(word[row, 1], members))
            tell(5, who ", member: " word[row, 1] " is not below n = " members stands(row, 1))
        mask(row, PRE, who ", pre")
        mask(row, WAIT, who ", wait")
        mask(row, ADD, who ", add")
        mask(row, DEL, who ", del")
        for (f = 0; f < facts; f++)
            if (((row, WAIT, f) in has) && !((row, PRE, f) in has))
                tell(6, who ", wait, " in_word(f) ": fact " f " is waited for but is no " \
                    "precondition" place(row, WAIT + int(f / WORD)))
    }
}

# The words of a row from this column on are zero.
function zeros(number, row, column, name) {
    for (; column <= WIDTH; column++)
        if (word[row, column] != "0")
            tell(number, name ", word " column ": " word[row, column] " is not 0" \
                stands(row, column))
}

# Which word of a mask a fact stands in.
function in_word(f) {
    return f < WORD ? "low word" : "high word"
}

function stands(row, column) {
    return " (record " (row + 1) ", field " column ")"
}

# The same with the word.
function place(row, column) {
    return " (record " (row + 1) ", field " column ": " word[row, column] ")"
}

function below(number, limit) {
    return length(number) < 10 && number + 0 < limit
}

function in_range(column, name, least, most) {
    if (!below(word[0, column], most + 1) || word[0, column] + 0 < least)
        tell(2, "row 0, " name ": " word[0, column] " is not within " least " to " most stands(0, column))
}

# The facts of a mask; none may stand at or above F.
function mask(row, column, name,    w) {
    for (w = 0; w < MASK; w++)
        mask_word(row, column, w, name)
}

# Those of its word w.
function mask_word(row, column, w, name,    number, f, digit, half, i, rest) {
    number = word[row, column + w]
    for (f = w * WORD; number != "0"; f++) {
        # Half of the number, digit by digit; what is left over is its lowest bit.
        half = ""
        rest = 0
        for (i = 1; i <= length(number); i++) {
            digit = rest * 10 + substr(number, i, 1)
            rest = digit % 2
            digit = (digit - rest) / 2
            if (half != "" || digit > 0)
                half = half digit
        }
        number = half == "" ? "0" : half
        if (!rest)
            continue
        if (f >= facts)
            tell(4, name ", " in_word(f) ": fact " f " is not below F = " facts \
                place(row, column + w))
        has[row, column, f] = 1
    }
}

# ---- 9: which table, and whose

function tables(    member, room) {
    room = int(LOCAL / (MASK * members))
    for (member = 0; member < members; member++)
        if (exceeds(member, room))
            tell(9, "member " member " has more local copies than its table has room for: " room \
                " rows (" LOCAL " words / (" MASK " * " members \
                (members == 1 ? " member))" : " members))"))
    if (refusal == 9)
        tell(9, "there are more configurations than the configuration table has room for: " \
            int(CONFIGURATIONS / (MASK * (members + 1))) " rows (" CONFIGURATIONS " words / (" MASK \
            " * (" members " + 1)))")
}

# Whether a member has more than so many local copies. A copy is parts of 16 facts each, every part
# a number; what an action makes of a part is kept once it is known, since there are far fewer parts
# than copies.
function exceeds(member, room,    row, own, parts, at, rows, a, p, key) {
    split("", listed)
    parts = int((facts + PART - 1) / PART)
    own = 0
    for (row = 1 + members; row <= members + actions; row++)
        if (word[row, 1] + 0 == member) {
            for (p = 0; p < parts; p++)
                effects[own, p] = effect(row, p)
            own++
        }
    for (p = 0; p < parts; p++)
        new[p] = part(0, START, p)
    rows = 0
    list_copy(rows++, parts)
    for (at = 0; at < rows; at++)
        for (a = 0; a < own; a++) {
            key = ""
            for (p = 0; p < parts; p++) {
                if ((new[p] = made(effects[a, p], copy[at, p])) == "")
                    break
                key = key " " new[p]
            }
            if (p < parts || (key in listed))
                continue
            if (rows == room)
                return 1
            list_copy(rows++, parts)
        }
    return 0
}

# The new copy is this row.
function list_copy(row, parts,    p, key) {
    key = ""
    for (p = 0; p < parts; p++) {
        copy[row, p] = new[p]
        key = key " " new[p]
    }
    listed[key] = 1
}

# Part p of a mask, as a string.
function part(row, column, p,    f, sum) {
    sum = 0
    for (f = PART * (p + 1) - 1; f >= PART * p; f--)
        sum = 2 * sum + ((row, column, f) in has)
    return sum ""
}

# What an action needs, adds and deletes in part p, or nothing at all.
function effect(row, p,    all) {
    all = part(row, PRE, p) " " part(row, ADD, p) " " part(row, DEL, p)
    return all == "0 0 0" ? "" : all
}

# What an action makes of a part of a copy: empty where it needs more than that has.
function made(does, old,    key, masks, bit, value, need, add, del, rest, sum) {
    if (does == "")
        return old
    key = does " " old
    if (key in known)
        return known[key]
    split(does, masks, " ")
    need = masks[1]
    add = masks[2]
    del = masks[3]
    rest = old
    sum = 0
    value = 1
    for (bit = 0; bit < PART; bit++) {
        if (need % 2 && !(rest % 2)) {
            known[key] = ""
            return ""
        }
        if (add % 2 || rest % 2 && !(del % 2))
            sum += value
        need = int(need / 2)
        add = int(add / 2)
        del = int(del / 2)
        rest = int(rest / 2)
        value *= 2
    }
    return known[key] = sum ""
}
