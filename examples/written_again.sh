#!/bin/bash
# Makes of what `rman standby --dump` tells a script that writes it into a new database, of the DBID that is named. A value is told in
# hexadecimal digits.
file=0
echo "CREATE DATABASE DBID ${1:?a DBID that no database has};"
while read -r what number count rest; do
    case $what in
        datafile) file=$((file + 1)) && echo "CREATE DATAFILE BLOCKS $count;" ;;
        block) digits=${rest##* } && printf "WRITE DATAFILE %s BLOCK %s VALUE '%b';\n" $file "$number" "$(sed 's/../\\x&/g' <<< "${digits#-}")" ;;
    esac
done
