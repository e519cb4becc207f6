# For scripts that source it: `part COMMAND...` runs a part of the gate and adds to $passed how many things passed, the number
# with which the part's last line begins. A part that fails, or ends without such a number, ends the script with status 1.
# `edits_count COMMAND...` ends it so, too, where that part was `rt ci` and told of must-fail edits that show nothing, which it lets
# pass: bad ones, whose text does not stand in their crate or cannot be read, and ones that are refused only since a name is gone.
passed=0
room=$(mktemp -d)
trap 'rm -rf "$room"' EXIT

part() { # COMMAND...
    rm -f "$room/good"
    { "$@" 2>&1 && touch "$room/good"; } | tee "$room/log"
    [ -f "$room/good" ] || end_gate "failed" "$@"
    count=$(sed -n '$s/^\([1-9][0-9]*\) .*/\1/p' "$room/log")
    [ -n "$count" ] || end_gate "ended without a count" "$@"
    passed=$((passed + count))
}

edits_count() { # COMMAND...
    ! grep -q '^rt: ok.*, [0-9][0-9]* bad' "$room/log" || end_gate 'passed with must-fail edits that are bad' "$@"
    ! grep -q '^rt: must-fail .* (only because a proof file names' "$room/log" ||
        end_gate 'passed with must-fail edits that are refused by a name alone' "$@"
}

end_gate() { # WHY COMMAND...
    why=$1
    shift
    echo "gate: the part '$*' $why" >&2
    exit 1
}
