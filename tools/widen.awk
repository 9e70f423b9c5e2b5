# An old text, of five fields a record, rewritten with nine: each mask, which was one word, becomes
# its low word and a zero, its high word.
#
#   od -An -v -tu1 OLD | LC_ALL=C awk -f tools/text.awk -f tools/widen.awk
#
# The words that had to be zero go where zeros are asked for now: one that is not zero is refused
# with the number that it was refused with. Goal rows need no rule of their own for that.

BEGIN { FIRST = "F,n,m,I,0" }

END {
    read_text(OLD_WIDTH)
    if (records == 0)
        tell(15, "the text is empty; there is nothing to widen")
    widen(0, "%s,%s,%s,%s,0,0,0,0,%s\r\n")
    for (row = 1; row < records; row++)
        widen(row, "%s,%s,0,%s,0,%s,0,%s,0\r\n")
}

function widen(row, form) {
    printf form, word[row, 1], word[row, 2], word[row, 3], word[row, 4], word[row, 5]
}
