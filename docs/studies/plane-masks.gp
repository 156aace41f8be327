# gnuplot plane-masks.gp
# Reads plane-masks.tsv of the current folder and writes plane-masks.png there; README.md
# says how the table is made. A missing table ends it with status 1; a missing column is a warning
# on standard error, or status 1 too.
set terminal png size 960,720 font 'Sans,11'
set output 'plane-masks.png'
set datafile separator tab
set datafile missing NaN

table = 'plane-masks.tsv'
sizes = '1 2 4 8 16'
masks = '0 257 4369 21845 30583 32639 65535'
protected = 'none 1/8 1/4 1/2 3/4 7/8 all'
colours = '#0072B2 #009E73 #C98500 #D55E00 #7B3294'
symbols = '5 7 9 11 13'
colour(i) = word(colours, i)
symbol(i) = int(word(symbols, i))

# A mask's place on the axis.
place(mask) = sum [i=1:words(masks)] (word(masks, i) == mask ? i : 0)
# Is the mask made of copies of one pixel's mask, as the chip wants it?
whole(mask, size) = int(mask) == (int(mask) % 2**size) * (65535 / (2**size - 1))
# A value of one pixel size: without a mask, with one, or either.
either(size, value) = column('PSIZE') == size && whole(column('PMASK'), size) ? value : NaN
bare(size, value) = column('PMASK') == 0 ? either(size, value) : NaN
masked(size, value) = column('PMASK') > 0 ? either(size, value) : NaN
cost(dummy) = column('states') / column('visited')
effect(dummy) = 100.0 * column('changed') / column('visited') / column('PSIZE')

set multiplot
set lmargin at screen 0.095
set rmargin at screen 0.865
set xrange [0.5:7.4]
set grid ytics linecolor '#DDDDDD' linetype 1
set border 3
set tics nomirror
unset key

set label 1 '{/:Bold Any plane mask costs a FILL as much as pixels of twice the size}' \
    at screen 0.48,0.97 center font 'Sans,13'
set label 2 'FILL L of 64 by 32 pixels, replace, rows of whole words; means over 8 memories' \
    at screen 0.48,0.933 center
set tmargin at screen 0.905
set bmargin at screen 0.525
set logscale y 2
set yrange [0.11:5.7]
set ytics ('1/8' 0.125, '1/4' 0.25, '1/2' 0.5, '1' 1, '2' 2, '4' 4)
set ylabel 'machine states per pixel'
set xtics format '' 1,1,7
do for [i=1:5] {
    set label 10+i sprintf('%s-bit pixels', word(sizes, i)) \
        at first 7.25,(word(sizes, i) / 4.0 + 0.0186) textcolor rgb colour(i)
}
plot for [i=1:5] table using (bare(word(sizes, i), 1)):(cost(0)):(6.0):(0.0) \
        with vectors nohead linecolor rgb colour(i), \
    for [i=1:5] table using (place(column('PMASK'))):(bare(word(sizes, i), cost(0))) \
        smooth unique with points linewidth 2 pointsize 1.5 pointtype symbol(i) \
        linecolor rgb colour(i), \
    for [i=1:5] table using (place(column('PMASK'))):(masked(word(sizes, i), cost(0))) \
        smooth unique with linespoints linewidth 2 pointsize 1.5 pointtype symbol(i) \
        linecolor rgb colour(i)

unset label
unset logscale y
set tmargin at screen 0.485
set bmargin at screen 0.13
set yrange [-3:56]
set ytics 10
set ylabel "bits changed, % of the array's bits"
set xlabel 'PMASK, and the share of the planes that it protects' offset 0,-1.2
set label 3 "full time,\nno bit changed" at first 7,12 center
set xtics format '%g' ()
do for [i=1:7] {
    set xtics add (sprintf("%04Xh\n%s", int(word(masks, i)), word(protected, i)) i)
}
plot for [i=1:5] table using (place(column('PMASK')) + (i - 3) * 0.14): \
    (either(word(sizes, i), effect(0))) smooth unique \
    with points linewidth 2 pointsize 1.5 pointtype symbol(i) linecolor rgb colour(i)
unset multiplot
