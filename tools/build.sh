# For ./skogmund and tools/library: proves and builds where something has changed. They read this in the repository's directory, and have a
# function `say`.

# Ends the script where a program is not there.
needs() {
    command -v "$1" > /dev/null && return
    say "this needs $2: $1 is not on the path"
    exit 1
}

# Ends the script on a processor for which the kit does not compile.
needs_x86_64() {
    [ "$(uname -m)" = x86_64 ] && return
    say "the Rattle kit compiles for x86-64 alone, and this is $(uname -m)"
    exit 1
}

# A crate and all below it, by crates.txt. What stands behind a name, as `staticlib`, says how the crate is built.
with_all_below() {
    awk -v crate="$1" '
        function visit(name,    i, n, names) {
            if (name in seen || !(name in below)) return
            seen[name]
            print name
            n = split(below[name], names, " ")
            for (i = 1; i <= n; i++) visit(names[i])
        }
        { sub(/#.*/, "") }
        split($0, line, ":") == 2 { split(line[1], words, " "); below[words[1]] = line[2] }
        END { visit(crate) }' crates.txt
}

# One line, which is another where anything differs that a crate is made of, whatever the times of the files. What rt keeps in out/ is no part of it.
made_of() {
    {
        sha256sum crates.txt tools/build.sh tools/library
        for name in $(with_all_below "$1"); do
            find "crates/$name" -path "crates/$name/out" -prune -o -type f ! -path '*/must-fail/*' -exec sha256sum {} + | LC_ALL=C sort
        done
    } | sha256sum
}

# build CRATE FILE COMMAND...: the command proves CRATE and writes FILE. It is run unless it wrote this very FILE before, with this kit, from
# what stands here now: target/CRATE.built says so, is removed when it begins and written when it has ended well. Without a kit the one that
# built counts.
build() {
    crate=$1 file=$2 built=target/$1.built log=target/$1.log
    shift 2
    mkdir -p target || return
    made=$(rt version 2> /dev/null || sed 1q "$built" 2> /dev/null; made_of "$crate")
    [ "$(cat "$built" 2> /dev/null)" = "$made
$(sha256sum "$file" 2> /dev/null)" ] && return
    needs rt "the Rattle kit"
    rm -f "$built"
    say "proving and building $file; the first time this takes some minutes"
    began=$(date +%s)
    # Standard input stays the caller's.
    if ! "$@" < /dev/null > "$log" 2>&1 || [ ! -f "$file" ]; then
        # Lines of what is proved, or only read, are no reason.
        grep -v -E -e '^(library|statements|crate|axioms|checked) ' -e '^logic /' -e '^rt: (chose|.*: begins with) ' -e ': proved$' "$log" |
            tail -n 20 | cut -c 1-300 >&2
        say "$file could not be built; $log has all that was said"
        return 1
    fi
    printf '%s\n' "$made" "$(sha256sum "$file")" > "$built"
    say "$file is proved and built, in $(($(date +%s) - began)) s"
}
