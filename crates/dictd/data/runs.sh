# Runs the program $1 by other words over other streams. Each run is told as a row: its number, then its status, what it
# wrote to its output and what to its error output, each tab as ~ and each line feed as ;.
program=$1

# run NUMBER WORD..: one run, whose input is this call's
run() {
    number=$1
    shift
    "$program" "$@" >out 2>err
    told $? <out
}

# told STATUS: the row of a run, whose output is the input of this call
told() {
    printf '%s\t%s out[%s] err[%s]\n' "$number" "$1" "$(tr '\t\n' '~;')" "$(tr '\t\n' '~;' <err)"
}

lookup=$(printf 'dictGet\td\tx\t2')

# counts of made lookups
run 11 demo 4 1 </dev/null
run 12 demo 1000000 1 </dev/null
# out of form
run 20 </dev/null
run 21 once d.sql </dev/null
run 22 once d.sql x </dev/null
run 23 once d.sql "$(printf '\377')" </dev/null
run 24 serve d.sql 127.0.0.1:0 1 1 </dev/null
run 26 demo 0 1 </dev/null
# the definitions file is missing, a folder, another text, too long; it has a fault in its second line, or a layout that is not served
run 30 once missing.sql 1 </dev/null
run 31 once . 1 </dev/null
run 40 once runs.sh 1 </dev/null
printf 'CREATE DICTIONARY d\n(id Float64)' >fault.sql
run 41 once fault.sql 1 </dev/null
sed 's/FLAT()/DIRECT/' d.sql >direct.sql
run 42 once direct.sql 1 </dev/null
head -c 4194305 /dev/zero >long.sql
run 90 once long.sql 1 </dev/null
# the input is answered, is a folder, is too long
echo "$lookup" | run 10 once d.sql 1
run 50 once d.sql 1 <.
head -c 65537 /dev/zero | run 70 once d.sql 1
# the output takes nothing
number=60
echo "$lookup" | "$program" once d.sql 1 >/dev/full 2>err
told $? </dev/null
number=61
"$program" demo 4 1 >/dev/full 2>err
told $? </dev/null
# nor does the error output, which is passed over
number=25
: >err
"$program" 2>/dev/full >out
told $? <out
