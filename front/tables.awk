# The tables of a case text that the program has accepted. Needs fields.awk.
$1 == "B" {
    kind[buses + 0] = $2
    set_voltage[buses + 0] = number($3)
    load_p[buses + 0] = number($4)
    load_q[buses + 0] = number($5)
    bus_line[buses + 0] = FNR
    buses++
}
$1 == "R" { slack[$2] = 1 }
$1 == "G" { generators++; generator_bus[generators] = $2; qmin[generators] = number($3); qmax[generators] = number($4); generator_line[generators] = FNR }
$1 == "L" || $1 == "K" { lines++; from[lines] = $2; to[lines] = $3; branch_line[lines] = FNR }
$1 == "K" { susceptance[lines] = number($5); tap[lines] = number($10); shift[lines] = number($11); switched[lines] = number($12) }
$1 == "f" || $1 == "c" { letters = second_edition }
$1 == "Y" { entries++; row[entries] = $2; col[entries] = $3; entry_line[entries] = FNR }
