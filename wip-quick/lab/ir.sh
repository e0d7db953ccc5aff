#!/bin/bash
# ir.sh SO..: instructions a unit
cd lab
one() { valgrind --tool=callgrind --callgrind-out-file=/dev/null ./drv once $1 $2 $3 2>&1 | awk '/Collected/{print $4}'; }
for so in "$@"; do printf "%-18s" $(basename $so); for w in "loop 874293 1 2" "sort 879858 1 2" "deep 22426 2 22" "calls 19730 2 22"; do set -- $w; a=$(one $1 $so $3); b=$(one $1 $so $4); python3 -c "print('%s %.1f  ' % ('$1', ($b-$a)/($4-$3)/$2), end='')"; done; echo; done
