# Tells a report (the second file) in the words of its notes (the first): the false line, and what is not 0 at entry.
NR == FNR { notes[FNR] = $0; next }
FNR == 1 {
    count = split("zero ra sp gp tp t0 t1 t2 s0 s1 a0 a1 a2 a3 a4 a5 a6 a7 s2 s3 s4 s5 s6 s7 s8 s9 s10 s11 t3 t4 t5 t6", names, " ")
    for (at = 1; at <= count; at++)
        known["x" (at - 1)] = names[at]
    print FILENAME ": " $0
    if ($3 ~ /^[0-9]+$/)
        print "    line " $3 ": " notes[$3]
    if ($2 == "norow")
        print "    the word there is no instruction of this machine: is --rvc missing, or an --arm profile?"
    next
}
/^byte / { print "    mem8[" $2 "] = " $3; next }
NF == 2 && $2 ~ /^0x/ && $2 !~ /^0x0+$/ { print "    " ($1 in known ? known[$1] : $1) " = " $2 }
