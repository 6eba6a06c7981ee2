# Shared by the tests of programs that aren't part of the gate. They call `begin` first, which makes
# the directory `work`.

# same NAME STATUS INPUT OUTPUT ERRORS COMMAND..: runs a command on an input. It has to exit with
# the status, write the output, and write the errors to standard error.
same() {
    name=$1 wanted=$2 input=$3 output=$4 errors=$5
    shift 5
    status=0
    "$@" < "$input" > "$work/output" 2> "$work/errors" || status=$?
    diff -u "$output" "$work/output"
    diff -u "$errors" "$work/errors"
    [ "$status" = "$wanted" ] || {
        echo "$name: status $status instead of $wanted"
        exit 1
    }
    echo "$name: passed"
}
