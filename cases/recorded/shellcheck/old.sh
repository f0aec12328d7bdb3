#!/bin/sh
# of levels info and style
day=`date +%d`
test -z "$day" -a -n "$1" && echo $day
let n=n+1
read name
[[ $name == x ]] && echo "$n"
