#!/bin/bash
# lone CRs in quotes and in a here-document, one that is escaped, and CR LF
printf 'x%s' $1
cat <<EOF
abcd$(echo $1)
EOF
cd "aé"	$2
cd b\
echo $3
echo "ab
$(ls $1)"
