# Draws docs/growth.svg, of the figures that are counted by callgrind:
#
#     dev/bench/run --growth > dev/bench/growth.txt
#     gnuplot dev/bench/growth.gp > docs/growth.svg
set terminal svg size 990,590 font "DejaVu Sans,12" background "#ffffff"
set title "{/:Bold The line call 0 1, which deletes a child: instructions by what the child has}\n" \
    . "Both axes are logarithmic. Along the grey diagonal ten times as many take ten times the instructions."
set logscale xy
set xrange [0.3:1000]
set yrange [1000:1000000]
set xtics ("0" 0.3, "1" 1, "10" 10, "100" 100, "1,000" 1000) nomirror
set ytics ("1,000" 1e3, "10,000" 1e4, "100,000" 1e5, "1,000,000" 1e6) nomirror
set grid lc rgb "#e4e7eb" lt 1
set border 3
set xlabel "how many rows, tables, children or partitions; 0, which has no logarithm, is left of 1"
set key outside right top Left reverse samplen 2 spacing 2

figures = "dev/bench/growth.txt"
array colours = ["#7d4fa8", "#c0392b", "#2f6fbd", "#2e8b57"]
array names = ["partitions in a chain,\neach with a table", "children of the child", "tables without rows", \
               "rows in one table"]
across(size) = size > 0 ? size : 0.3
grouped(n) = sprintf("%d,%03d", int(n) / 1000, int(n) % 1000)
last(size, kind) = size == word("100 200 100 1000", kind) + 0
beside(kind) = kind == 3 ? 2.2 : 0.9        # the figure of tables is right of its point, clear of other curves
plot 1000 * x lc rgb "#d0d5db" lw 3 notitle, \
    for [kind = 1:4] figures index kind - 1 using (across($1)):2 with linespoints \
        lc rgb colours[kind] lw 2 pt 7 ps 0.5 title names[kind], \
    for [kind = 1:4] figures index kind - 1 \
        using (beside(kind) * across($1)):2:(last($1, kind) ? grouped($2) : "") with labels \
        right offset 0, (kind == 3 ? -0.5 : 0.4) tc rgb colours[kind] notitle
