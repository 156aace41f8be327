# gnuplot operations.gp
# Reads operations.tsv of the current folder and writes operations.png there; README.md
# says how the table is made. A missing table ends it with status 1; a missing column is a warning
# on standard error, or status 1 too.
set terminal png size 940,770 font 'Sans,11'
set output 'operations.png'
set datafile separator tab

table = 'operations.tsv'
operations = '"S (replace)" "S and D" "S and not D" "0s" "S or not D" "S xnor D" "not D" ' \
    . '"S nor D" "S or D" "D" "S xor D" "not S and D" "1s" "not S or D" "S nand D" "not S" ' \
    . '"S + D (ADD)" "ADDS" "D - S (SUB)" "SUBS" "MAX" "MIN"'

# The means of each operation with T 0 and 1, at the place 2 x PP + T + 1.
array changed[44]
array states[44]
place(dummy) = 2 * column('PP') + column('T') + 1
share(dummy) = 100.0 * column('changed') / column('visited') / column('PSIZE')
set table $changed
plot table using (place(0)):(share(0)) smooth unique
set table $states
plot table using (place(0)):'states' smooth unique
unset table
set datafile separator whitespace
stats $changed using (changed[int($1)] = $2) nooutput
stats $states using (states[int($1)] = $2) nooutput

# A line for each operation: PP, bits changed with T 0 and 1, states with T 0 and 1.
set print $pairs
do for [pp=0:21] {
    i = 2 * pp + 1
    print pp, changed[i], changed[i + 1], states[i], states[i + 1]
}
unset print

set multiplot
set yrange [21.7:-0.7]
set tmargin at screen 0.855
set bmargin at screen 0.085
set border 3
set tics nomirror
set grid xtics ytics linecolor '#DDDDDD' linetype 1
set label 1 '{/:Bold Transparency costs 2 states a word; six of the 22 operations draw the ' \
    . 'same without it}' at screen 0.5,0.972 center font 'Sans,13'
set label 2 'FILL L of 64 by 16 pixels of 4 bits (256 words); ' \
    . 'means over 16 colours and 8 memories' at screen 0.5,0.938 center
set label 3 'operation  PP' at screen 0.17,0.885 right
set label 4 'T=0' at screen 0.2,0.885 point pointtype 7 pointsize 1.4 \
    linecolor rgb '#0072B2' offset 1,-0.2
set label 5 'T=1' at screen 0.28,0.885 point pointtype 6 pointsize 1.8 linewidth 2 \
    linecolor rgb '#D55E00' offset 1,-0.2
set label 6 'grey: T makes no difference' at screen 0.565,0.885 right
set label 7 'blue: with T=0; orange: what T=1 adds' at screen 0.595,0.885
unset key
set ytics ()
do for [pp=0:21] {
    set ytics add (sprintf('%s  %2d', word(operations, pp + 1), pp) pp)
    if (changed[2 * pp + 1] == changed[2 * pp + 2]) {
        set object pp+1 rectangle from graph 0,first pp-0.46 to graph 1,first pp+0.46 behind \
            fillcolor rgb '#E4E4E4' fillstyle solid noborder
    }
}

set lmargin at screen 0.175
set rmargin at screen 0.57
set xrange [-3:103]
set xtics 25
set xlabel "bits changed, % of the array's bits"
plot $pairs using 2:1:($3 - $2):(0) with vectors nohead linecolor rgb '#888888', \
    $pairs using 2:1 with points pointtype 7 pointsize 1.4 linecolor rgb '#0072B2', \
    $pairs using 3:1 with points pointtype 6 pointsize 1.8 linewidth 2 linecolor rgb '#D55E00'

unset label
set lmargin at screen 0.595
set rmargin at screen 0.985
set xrange [0:2300]
set xtics 500
set ytics format '' 0,1,21
set xlabel 'machine states of the whole FILL'
set style fill solid 1.0 noborder
plot $pairs using 4:1:(0):4:($1 - 0.3):($1 + 0.3) with boxxyerror linecolor rgb '#0072B2', \
    $pairs using 5:1:4:5:($1 - 0.3):($1 + 0.3) with boxxyerror linecolor rgb '#E8935A'
unset multiplot
