# What ./ipp-room and ./demo have in common, to be read by `.` with `here` at the top: the crates that the program is
# made of, and whether a built program is older than their files.

# room_cli and the crates that it stands on, lowest first.
crates_of_program() {
    awk -F: '
        function take(name,    at, count, words) {
            if (!(name in needs) || name in taken) return
            taken[name]
            count = split(needs[name], words, " ")
            for (at = 1; at <= count; at++) take(words[at])
            print name
        }
        /^[a-z]/ { needs[$1] = $2 }
        END { take("room_cli") }' "$here/crates.txt"
}

# Whether the program at a path is not there, or is older than a file that it is made of.
is_stale() {
    [ -x "$1" ] || return 0
    local crate part parts=("$here/crates.txt" "$here/HANDLES")
    for crate in $(crates_of_program); do
        for part in "$here/crates/$crate"/{src,specs,proofs}; do
            [ -d "$part" ] && parts+=("$part")
        done
    done
    [ -n "$(find "${parts[@]}" -newer "$1" -print -quit)" ]
}

# Puts a program that was begun when the file `begun` was made at a path, whole or not at all.
put_program() {
    cp "$1" "$2.new" && touch -r "$begun" "$2.new" && mv "$2.new" "$2"
}
