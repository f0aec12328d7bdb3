#!/bin/sh
# words that aren't quoted
list=$(ls $1)
echo $list
if [ $# -gt 1 ]; then
  cd $2
  rm -r $3/$4
fi
unused=7
