# Makes updates.png of updates.dat: what an update adds to a run, over the frames that it rebuilds.
set terminal pngcairo size 900,540
set output "updates.png"
set logscale xy
set key left top
set grid
set xlabel "frames on the stacks"
set ylabel "microseconds"
set title "A run alone, with a patch that comes too late, and with its update"
plot "< grep '^load' updates.dat" using 3:5 with linespoints title "load: alone", \
     "< grep '^load' updates.dat" using 3:6 with linespoints title "load: patch read, no update", \
     "< grep '^load' updates.dat" using 3:7 with linespoints title "load: updated", \
     "< grep '^recursion' updates.dat" using 3:5 with linespoints title "recursion: alone", \
     "< grep '^recursion' updates.dat" using 3:6 with linespoints title "recursion: patch read, no update", \
     "< grep '^recursion' updates.dat" using 3:7 with linespoints title "recursion: updated"
