#!/bin/bash
# wide characters, tabs, and columns behind them
	echo 漢字 $1 "漢" $2
		printf "漢\n" $漢 $3
for f in $(ls *.txt); do echo "$f 😀" $f; done
