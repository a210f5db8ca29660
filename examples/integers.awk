# Prints the partition that has the integer columns of a free MPS file in the master and all other columns in block 1.
# A column is integer between INTORG and INTEND, or by a bound line of the kind BV, LI or UI.
# usage: awk -f integers.awk MODEL
BEGIN { print "cpxBendersPartition 1" }
/^\*/ { next }
/^[^ \t]/ { section = $1; next }
section == "COLUMNS" && $2 == "'MARKER'" { open = $3 == "'INTORG'"; next }
section == "COLUMNS" && $1 != last { last = $1; names[++count] = $1; integer[$1] = open; next }
# The name of the set may be left out: then a BV line has two fields, and an LI or UI line three.
section == "BOUNDS" && $1 == "BV" { integer[NF > 2 ? $3 : $2] = 1 }
section == "BOUNDS" && ($1 == "LI" || $1 == "UI") { integer[NF > 3 ? $3 : $2] = 1 }
END { for (i = 1; i <= count; i++) if (integer[names[i]]) print names[i], 0 }
