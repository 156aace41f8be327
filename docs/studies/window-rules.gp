# gnuplot window-rules.gp
# Reads window-rules.tsv of the current folder and writes window-rules.png there; README.md
# says how the table is made. A missing table ends it with status 1; a missing column is a warning
# on standard error, or status 1 too.
set terminal png size 960,770 font 'Sans,11'
set output 'window-rules.png'
set datafile separator tab
set datafile missing NaN

table = 'window-rules.tsv'
colours = '#666666 #009E73 #D55E00 #0072B2'
array rules[4] = ['W=0: no checking', 'W=1: hit detection', 'W=2: miss detection', 'W=3: clipping']
array names[4] = ['visited', 'changed', 'states', 'V']
array labels[4] = ['pixels visited', 'bits changed', 'machine states', 'V flag']
array top[4] = [0.835, 0.61, 0.385, 0.16]
array bottom[4] = [0.64, 0.415, 0.19, 0.095]
array most[4] = [300, 1200, 330, 1.25]
array step[4] = [128, 512, 100, 1]
left(w) = 0.08 + w * 0.232
width = 0.214

# A column's value under one rule; none under the others.
under(w, name) = column('W') == w ? column(name) : NaN

set multiplot
set xrange [10.5:69.5]
set border 3
set tics nomirror
set grid ytics linecolor '#BBBBBB' linetype 1 back
set style fill solid 1.0 noborder
set boxwidth 2.05
unset key
set label 1 '{/:Bold Clipping costs 3 states where the array fits, and saves time where it cuts ' \
    . 'off words}' at screen 0.5,0.972 center font 'Sans,13'
set label 2 'FILL XY of 16 by 16 pixels of 8 bits, moved across a window of 32 by 32; ' \
    . 'means over 8 memories' at screen 0.5,0.937 center
set label 3 'dark: the array fits in the window; light: it lies across an edge; ' \
    . 'black line: the states under W=0' at screen 0.5,0.905 center
set label 4 "X of the array's left edge, in pixels" at screen 0.535,0.03 center
# The array meets the window from X 17 to 63, and fits from 32 to 48.
set object 1 rectangle from 16.5,graph 0 to 63.5,graph 1 behind \
    fillcolor rgb '#F1F1F1' fillstyle solid noborder
set object 2 rectangle from 31,graph 0 to 49,graph 1 behind \
    fillcolor rgb '#DCDCDC' fillstyle solid noborder

do for [w=0:3] {
    do for [r=1:4] {
        set lmargin at screen left(w)
        set rmargin at screen left(w) + width
        set tmargin at screen top[r]
        set bmargin at screen bottom[r]
        set yrange [0:most[r]]
        set ytics step[r]
        set xtics 16
        set format y (w == 0 ? '%g' : '')
        set format x (r == 4 ? '%g' : '')
        if (w == 0) { set label 6 labels[r] at screen 0.02,0.5*(top[r]+bottom[r]) center rotate }
        set title (r == 1 ? rules[w + 1] : '') offset 0,-0.4
        if (w == 1 && r < 4) { set label 5 'nothing is drawn' at graph 0.5,0.5 center }
        plot table using 'DADDR_X':(under(w, names[r])) smooth unique with boxes \
                linecolor rgb word(colours, w + 1), \
            for [k=1:r==3] table using 'DADDR_X':(under(0, 'states')) smooth unique \
                with lines linecolor rgb 'black'
        unset label
    }
}
unset multiplot
