# For scripts that source it, with $here the checkout's folder and a function `end STATUS LINE`: what is built of these sources.
# A build stands in built/, in a folder named by the sources' checksum: the program bench, and the identity of the kit that proved and
# built it. (Proofs are no part of the checksum: another proof leaves the program as it was, and proved.)
find_checksum() {
    sums=$(cd "$here" && sha256sum crates.txt crates/*/src/* crates/*/specs/* 2>/dev/null) ||
        end 3 'the sources cannot be read'
    checksum=$(printf '%s\n' "$sums" | sha256sum)
    checksum=${checksum%% *}
}

# Whether there is a build that fits, and its folder.
find_build() {
    find_checksum
    build=$here/built/$checksum
    [ -x "$build/bench" ] && [ -s "$build/bench" ]
}

version() {
    if find_build; then
        echo "kit $(cat "$build/kit")"
        echo "sources $checksum"
    else
        echo "kit $(rt version 2>/dev/null || echo 'not found')"
        echo "sources $checksum, not built yet"
    fi
}
