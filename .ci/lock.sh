# For scripts that source it in the checkout's folder: waits until no other script proves the crates, and keeps others
# from it until descriptor 9 is closed.
{ mkdir -p -m 755 built && true >>built/lock; } 2>/dev/null || {
    echo 'run: the bench is not built yet, and this checkout cannot be written' >&2
    exit 3
}
exec 9>>built/lock
flock -n 9 || {
    echo 'run: another one is proving the crates; waiting for it' >&2
    flock 9
}
