# For the scripts of this folder that are written for the shell, each of which sources this file: what they ran, what
# failed, and what they left out and why. The last line is that of tally.py, which tests/program reads.

run=0 failed=0 left_out=0 part_failed=0

# TITLE: a part begins, which fails as a whole
part() {
    run=$((run + 1)) part_failed=0
}

# WORDS..: says what is wrong in this part
wrong() {
    echo "$*"
    [ $part_failed = 1 ] || failed=$((failed + 1))
    part_failed=1
}

# WHAT WHY
leave_out() {
    left_out=$((left_out + 1))
    echo "left out: $1: $2"
}

# TOOL WHAT: whether it is there; where it isn't, what takes it is left out
have() {
    command -v "$1" > /dev/null || { leave_out "$2" "$1 is not there"; false; }
}

# SCRIPT: the last line; the script's status is that of this, and where nothing was tried or left out it has failed
ends() {
    if [ $((run + left_out)) = 0 ]; then
        part
        wrong 'nothing was tried'
    fi
    echo "$1: $run run, $failed failed, $left_out left out"
    [ $failed = 0 ]
}

# SCRIPT WHY: ends a script that can't begin
give_up() {
    echo "$1: $2"
    echo "$1: 1 run, 1 failed, 0 left out"
    exit 1
}
