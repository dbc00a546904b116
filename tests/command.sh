# Read by every command before it does anything: how a command ends. README.md, "Exit status", has the rule.
#   self=..         set before: what the command calls itself where it says something
#   say ..          on the error stream
#   fail ..         the answer is no: says why, status 1
#   cannot ..       bad usage, bad input, no such file, not built, not to be run here: says why, status 2
#   show_help FILE  prints the comment at the head of FILE, which says what the command takes

# Where the error stream takes nothing, the status stands all the same.
say() {
    echo "$*" >&2 || true
}

fail() {
    say "$self: $*"
    exit 1
}

cannot() {
    say "$self: $*"
    exit 2
}

show_help() {
    sed -n '2,/^set /{/^set /d;s/^# \{0,1\}//;p}' "$1"
}
