# What dromdump said of a dump, in words. Comes in: the bytes of the dump in decimal, a line "program", what the program
# wrote, a line "end". The words are README's.
#
# Nothing is written unless the lines are a whole answer, and one of this dump: as many lines as the first one counts, and
# entries of the lengths that stand in this dump, each where the one before it ends, from the header to the dump's end or
# to the refused entry. A program that was cut short, or lines of another dump, are found out by that.
#
# Exit status: 0 accepted; 1 refused; 3 no such answer.

BEGIN {
    # 4 and 5 are a calling program's faults, which dromdump does not make: they are no answers here.
    wrong[1] = "fewer than 16 bytes: not even a header"
    wrong[2] = "the length in its header is not its size"
    wrong[3] = "a Thunderbolt 3 header (version below 3) in fewer than 22 bytes"
    wrong[6] = "an entry there has length 0"
    wrong[7] = "an entry there runs past the end"
    wrong[8] = "an entry there is too short for its kind"
    wrong[9] = "a name there has no closing zero"
    wrong[10] = "a name there is not UTF-8"
    wrong[11] = "a UTF-16 text there has an odd number of bytes"

    kind[0] = "unknown"
    kind[1] = "adapter (other, or not listed)"
    kind[2] = "unused adapter"
    kind[3] = "DisplayPort"
    kind[4] = "lane"
    kind[5] = "PCIe up"
    kind[6] = "PCIe down"
    kind[7] = "other kind"
    kind[8] = "ASCII vendor name"
    kind[9] = "ASCII model name"
    kind[10] = "TMU"
    kind[11] = "product descriptor"
    kind[12] = "serial number"
    kind[13] = "USB3 map"
    kind[14] = "UTF-16 vendor name"
    kind[15] = "UTF-16 model name"
    kind[16] = "data path"
    kind[17] = "DPTX ranking"
    kind[18] = "embedded link"
}

function some(n, one, more) {
    return n " " (n == 1 ? one : more)
}

# The dump. Its entries begin at 22 if its version is below 3, else at 16.
!said && $0 == "program" { said = NR; at = byte[13] < 3 ? 22 : 16; next }
!said { for (i = 1; i <= NF; i++) byte[size++] = $i; next }

# What the program wrote.
ended { broken = 1 }
$0 == "end" { ended = 1; next }
NR == said + 1 && /^refusal [0-9]+ at [0-9]+ records [0-9]+$/ { number = $2; offset = $4; records = $6; first = 1; next }
NR > said + 1 && /^[0-9]+ [0-9]+ [0-9]+$/ && ($1 in kind) && $2 == at && at < size && $3 == byte[at] {
    line[++read] = "  offset " $2 ", " some($3, "byte", "bytes") ": " kind[$1]
    at += $3
    next
}
{ broken = 1 }

function fits() {
    if (broken || !first || !ended || read + 0 != records)
        return 0
    if (number == 0)
        return offset == 0 && at == size
    if (!(number in wrong))
        return 0
    return number < 6 ? offset == 0 && records == 0 : offset == at && at < size
}

function before() {
    if (number < 6)
        return "nothing of it was read"
    if (records == 0)
        return "there is no entry before it"
    return "the " (records == 1 ? "entry before it was" : records " entries before it were") " read"
}

END {
    if (!fits())
        exit 3
    if (number == 0)
        print "accepted, " some(records, "entry", "entries")
    else
        print "REFUSED " number " at " offset ": " wrong[number] "; " before()
    for (i = 1; i <= read; i++)
        print line[i]
    exit number != 0
}
