# What the scripts know of the program: which crates it stands on, where it lies, and whether it is still that of the
# sources. To be sourced, with `top` the top of the repository.
# shellcheck shell=bash
readonly proved=$top/crates/dcerpc/out/dcerpc
# The program of a release archive.
readonly released=$top/libexec/dcerpc
# What `rt try` compiled, with run-time checks and without a proof. Nothing but `./dcerpc` runs it.
readonly unproved=$top/out/unproved/dcerpc-unproved
# About how many minutes of one processor the proofs below the program take from nothing, as they were measured.
readonly proof_minutes=190

# The lines of crates.txt of the crates that the program stands on, each after those that it stands on itself, and
# the program's last.
program_lines() {
    awk '
        { sub(/#.*/, "") }
        /:/ { split($0, half, ":"); split(half[1], head, " "); below[head[1]] = half[2]; line[head[1]] = $0 }
        function take(name, names, count, n) {
            if (name in taken || !(name in below)) return
            taken[name] = 1
            count = split(below[name], names, " ")
            for (n = 1; n <= count; n++) take(names[n])
            print line[name]
        }
        END { take("dcerpc") }' "$top/crates.txt"
}

# The names of these crates.
program_crates() { program_lines | sed 's/[ :].*//'; }

# The folders that a build reads: with the word `proved` those of definitions and proofs too.
source_folders() {
    local name part
    for name in $(program_crates); do
        for part in src $([ "$1" = proved ] && echo specs proofs); do
            [ ! -d "$top/crates/$name/$part" ] || printf '%s\n' "crates/$name/$part"
        done
    done
}

# A sum of the contents of these folders and of the lines that list their crates.
sum_of_sources() (
    cd "$top" || exit
    {
        program_lines
        source_folders "$1" | xargs -I{} find {} -type f -print0 | LC_ALL=C sort -z | xargs -0 sha256sum
    } | sha256sum | cut -d ' ' -f 1
)

# The file that keeps of which sources a program was built. Its second line tells that program from a later one.
record_of() { printf '%s\n' "$top/out/sources-$1"; }

mark_of() { stat -c '%s %i %Y' "$1"; }

# Notes that the program at a place is that of the sources as they stand.
note_fresh() {
    mkdir -p "$top/out"
    printf '%s\n' "$(sum_of_sources "$1")" "$(mark_of "$2")" >"$(record_of "$1")"
}

# Whether no source is newer than the program.
is_newer_than_sources() {
    local folders
    mapfile -t folders < <(source_folders "$1")
    [ -z "$(cd "$top" && find crates.txt "${folders[@]}" -newer "$2" -print -quit 2>&1)" ]
}

# Whether the program of this kind, `proved` or `unproved`, is that of the sources: by their times, or else, as where a
# checkout went to and fro, by their contents.
is_fresh() {
    local program=$proved sum mark
    [ "$1" = proved ] || program=$unproved
    [ -x "$program" ] || return 1
    { read -r sum && read -r mark; } 2>/dev/null <"$(record_of "$1")" || sum='' mark=''
    if is_newer_than_sources "$1" "$program"; then
        [ "$mark" = "$(mark_of "$program")" ] || note_fresh "$1" "$program"
        return
    fi
    [ "$mark" = "$(mark_of "$program")" ] && [ "$sum" = "$(sum_of_sources "$1")" ] || return 1
    touch "$program"
    note_fresh "$1" "$program"
}

# About how long `./prove` takes here.
prove_takes() {
    local count
    count=$(nproc)
    printf 'about %d min on %d processors' $(((proof_minutes + count - 1) / count)) "$count"
}
