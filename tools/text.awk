# The text of a task, read plainly, for people: its words, or where and why it has not the form.
# What is done with the words stands in a second file:
#
#   od -An -v -tu1 TEXT | LC_ALL=C awk -f tools/text.awk -f tools/FILE.awk
#
# read_text(FIELDS) reads records of so many fields: then word[row, column] has the words, rows
# counted from 0 and columns from 1, and `records` the number of rows. Where the text is not of the
# form it prints the refusal's number, a blank and the message, and ends with status 3.
#
# Numbers stay strings of digits, since a number of awk does not hold 64 bits.

BEGIN {
    MOST = "18446744073709551615"
    RECORDS = 265
    WIDTH = 9 # fields of a record: a number, then four masks of two words
    OLD_WIDTH = 5 # before version 0.7.0: a mask was one word
    SINCE = "since version 0.7.0"
    FIRST = "F,n,m,LOW,HIGH,0,0,0,0"
}

{ for (i = 1; i <= NF; i++) byte[bytes++] = $i + 0 }

function tell(number, message) {
    print number " " message
    exit 3
}

function read_text(width,    at, c) {
    if (bytes >= 3 && byte[0] == 239 && byte[1] == 187 && byte[2] == 191)
        tell(15, "the text begins with a byte order mark; it begins with a digit")
    if (bytes >= 2 && (byte[0] == 254 && byte[1] == 255 || byte[0] == 255 && byte[1] == 254))
        tell(15, "the text begins with a byte order mark of UTF-16; it is digits, commas, CR and LF, a byte each")
    record = 1
    field = 1
    digits = ""
    for (at = 0; at < bytes; at++) {
        c = byte[at]
        if (record > RECORDS)
            tell(15, "record " record ": a text has at most " RECORDS " records")
        if (c >= 48 && c <= 57) {
            digits = digits (c - 48)
            if (length(digits) > 40)
                end_field()
        } else if (c == 44) {
            end_field()
            if (field == WIDTH)
                tell(15, "record " record " has a tenth field; " asked(width))
            field++
        } else if (c == 10) {
            not_blank()
            if (digits != "")
                other_width(width, " --crlf")
            tell(15, "record " record " ends in LF alone; records end in CR LF (./lawcheck --crlf adds them)")
        } else if (c == 13) {
            if (at + 1 == bytes)
                tell(15, "the text ends with the CR of record " record "; LF has to come after it")
            if (byte[at + 1] != 10)
                tell(15, "record " record ": a CR without LF after it")
            not_blank()
            end_record(width)
            at++
        } else
            tell(15, "record " record ", field " field ": " other(c))
    }
    if (field > 1 || digits != "")
        end_record(width)
    records = record - 1
}

function not_blank() {
    if (field == 1 && digits == "")
        tell(15, "record " record " is empty (a blank line)")
}

function end_record(width) {
    end_field()
    other_width(width, "")
    if (field != width)
        tell(15, "record " record " has " field (field == 1 ? " field; " : " fields; ") \
            asked(width))
    record++
    field = 1
}

# How many fields a record has.
function asked(width) {
    return width == WIDTH ? "a record has nine" : "a record of an old text has five"
}

# Whether the text is an old one, which --widen, with this option, rewrites, or one that is
# rewritten already: its first record tells.
function other_width(width, option) {
    if (record > 1)
        return
    if (width == WIDTH && field == OLD_WIDTH)
        tell(15, "record 1 has five fields; rows have nine words " SINCE " (./lawcheck --widen" \
            option " rewrites an old text)")
    if (width == OLD_WIDTH && field == WIDTH)
        tell(15, "record 1 has nine fields already, as rows have " SINCE)
}

# The digits read so far are a field, word [row, column] of the task.
function end_field(    where) {
    where = "record " record ", field " field
    if (digits == "")
        tell(15, where " is empty")
    if (length(digits) > 1 && substr(digits, 1, 1) == "0")
        tell(15, where ": " shown(digits) " has a leading zero")
    if (length(digits) > 20 || length(digits) == 20 && (digits "") > (MOST ""))
        tell(15, where ": " shown(digits) " is above " MOST)
    word[record - 1, field] = digits
    digits = ""
}

# The front of a number that goes on and on.
function shown(number) {
    return length(number) > 40 ? substr(number, 1, 40) ".." : number
}

# A byte that stands in no text.
function other(c) {
    if (c == 32)
        return "a space; a field is digits alone"
    if (c == 9)
        return "a tab; fields have commas between them"
    if (c == 34)
        return "a quote; fields have no quotes"
    if (c == 59)
        return "a semicolon; fields have commas between them"
    if (c == 45)
        return "a minus sign; a number is 0 or more"
    if (record == 1 && (c >= 65 && c <= 90 || c >= 97 && c <= 122))
        return sprintf("%c", c) " is no digit; a text has no header, and record 1 is " FIRST
    if (c > 32 && c < 127)
        return sprintf("%c", c) " is no digit"
    return "byte " c " is no digit"
}
