# shellcheck shell=bash
# What bin/diego, bin/pair and bin/headroom read, which run a program: how it is run, and what is said of its end. `name` is what
# the script calls itself.

# One line, whatever stands in it.
say() {
    # shellcheck disable=SC2154
    echo "$name: ${*//$'\n'/ }" >&2
}

# Runs a command, sets `status`, and hands on to the command the signals that come meanwhile. What is closed stays closed.
run() {
    if { : <&0; } 2>/dev/null; then
        (trap - INT QUIT && exec "$@") <&0 &
    else
        (trap - INT QUIT && exec "$@") <&- &
    fi
    local child=$! signal
    for signal in HUP INT QUIT TERM; do
        # shellcheck disable=SC2064
        trap "kill -s $signal $child 2>/dev/null" "$signal"
    done
    wait "$child" 2>/dev/null
    status=$?
    while [ "$status" -gt 128 ] && kill -0 "$child" 2>/dev/null; do
        wait "$child" 2>/dev/null
        status=$?
    done
    trap - HUP INT QUIT TERM
}

# What is said of a program that a signal ended.
signal_name() {
    echo "the program was ended by signal $1 ($(kill -l "$1" 2>/dev/null || echo unknown))"
}
