# Sourced by native and library, which stand in the repository's root then: is what they made current, the proof with its
# progress, and the kit's compiler. They set `name`, the crate, and `made`, the file that is made, and have functions that
# write it as $made.new.
# shellcheck shell=bash
room=$PWD/target/native machine=$(uname -m)
kit='' tools=''
if command -v rt >/dev/null; then
    kit=$(dirname "$(rt doc)")
    tools=$kit/toolchain
fi

say() {
    echo "${0##*/}: $*" >&2
}

# The crate and those that it needs, a name to a line, each behind all that it uses: the order in which rt proves them.
needed() {
    awk -v crate="$name" '
        function visit(crate, names, count, i) {
            if (!(crate in deps) || seen[crate]++) return
            count = split(deps[crate], names, " ")
            for (i = 1; i <= count; i++) visit(names[i])
            print crate
        }
        sub(/:/, " ") { of = $1; $1 = ""; deps[of] = $0 }
        END { visit(crate) }' <(sed 's/#.*//' crates.txt)
}

# The libraries of the repository that the crate itself names.
used() {
    sed 's/#.*//' crates.txt | awk -v crate="$name" '
        sub(/:/, " ") { listed[$1]; if ($1 == crate) names = $0 }
        END { for (i = split(names, list, " "); i > 1; i--) if (list[i] in listed) print list[i] }'
}

# The kit's identity. Where the kit is not here it is that of the kit which made the file: what is built can be run without it.
kit_version() { # FILE
    if [ -n "$kit" ]; then rt version; else sed -n 1p "$1.state" 2>/dev/null; fi
}

# The kit, and one number for all else that a proved file is made from.
state() {
    kit_version "$made"
    {
        echo "$machine"
        find "tools/${0##*/}" tools/current.sh crates.txt "${crates[@]/#/crates/}" \( -path 'crates/*/out' -o -path 'crates/*/must-fail' \) -prune \
            -o -type f -exec sha256sum {} + | sort
    } | sha256sum
}

is_current() { # STATE
    [ -e "$made" ] && [ "$(cat "$made.state" 2>/dev/null)" = "$1" ]
}

minutes() { # SECONDS
    if [ "$1" -gt 0 ]; then echo "about $((($1 + 59) / 60)) min"; else echo "less than a minute"; fi
}

# What the crates behind one take by tools/weights, or all of them; and the weight of one.
weight_behind() { # [CRATE]
    printf '%s\n' "${crates[@]}" | awk -v name="${1-}" '
        FNR == NR { if ($1 != "#") weight[$1] = $2; next }
        name == "" { sum += $1 in weight ? weight[$1] : 20 }
        $1 == name { name = "" }
        END { print sum + 0 }' tools/weights -
}

weight_of() { # CRATE
    awk -v name="$1" '$1 == name { found = $2 } END { print found ? found : 20 }' tools/weights
}

# Tells of each crate that rt has just proved, one after another, and how long the others will take: their weights, times how much
# longer than theirs the crates so far have taken. The first count for little, so that one slow crate does not make hours of minutes.
# Of a crate that is built already rt says nothing.
progress() {
    local line crate='' began=0 left seconds spent=10 weighed=10
    while IFS= read -r line; do
        if [[ $line =~ ^rt:\ chose\ --jobs\ [0-9]+\ for\ ([a-z0-9_]+)$ ]]; then
            crate=${BASH_REMATCH[1]} began=$SECONDS
        elif [ -n "$crate" ] && [[ $line = 'logic=proved '* ]]; then
            seconds=$((SECONDS - began))
            spent=$((spent + seconds)) weighed=$((weighed + $(weight_of "$crate")))
            left=$(printf '%s\n' "${crates[@]}" | sed "0,/^$crate\$/d" | wc -l)
            say "$((${#crates[@]} - left)) of ${#crates[@]}: $crate proved ($seconds s), to go: $left, $(minutes $(($(weight_behind "$crate") * spent / weighed)))"
            crate=''
        fi
    done
}

# Has rt prove and build the crate and all that it needs, with progress; all that it says is in the log.
prove() { # COMMAND..
    say "proving and building $name, ${#crates[@]} crates: $(minutes "$(weight_behind)") if none is proved yet"
    (cd "crates/$name" && "$@" </dev/null) 2>&1 | tee "$made.log" | progress || fail
}

fail() { # [WHY]
    tail -n 30 "$made.log" >&2
    say "${1:-$name is not proved or not built}; ${made#"$PWD/"}.log has all that was said"
    exit 1
}

# Has the kit compile a proved static library once more, by a compiler that keeps the module that it is given, as $made.bc, and
# the words that it was told with it, one to a line, as $made.words. The archive must be, byte by byte, the one that rt made
# before, so that the module is the one which that is made of; it is kept as $made.kit.a.
keep_module() { # RATTLE'S-WORDS..
    local apart file crate words=()
    # A folder outside the repository: rt ci takes no link in it.
    apart=$(mktemp -d)
    mkdir "$apart/bin"
    cat >"$apart/bin/clang" <<END
#!/bin/sh
for word; do case \$word in *.bc) cp "\$word" "$made.bc"; printf '%s\n' "\$@" >"$made.words" ;; esac; done
exec "$tools/bin/clang" "\$@"
END
    chmod +x "$apart/bin/clang"
    for file in "$tools"/* "$tools"/bin/*; do
        [ -e "$apart/${file#"$tools/"}" ] || ln -s "$file" "$apart/${file#"$tools/"}"
    done
    rm -f "$made.bc"
    for crate in $(used); do words+=(--extern "$crate=$PWD/crates/$crate/out/rlib/$crate.rlib"); done
    for crate in "${crates[@]}"; do
        [ "$crate" = "$name" ] || words+=(-L "dependency=$PWD/crates/$crate/out/rlib")
    done
    (cd "crates/$name" && "$kit/bin/rattle" build --crate-name "$name" src/lib.rt --crate-type staticlib \
        --extern "std=$kit/rlibs/std.rlib" -L "dependency=$kit/rlibs" "${words[@]}" --links "$name=" \
        --antt-project "$kit/rattle/logic/antt-project.json" --logic-built "$kit/logic_built" --incremental out/incremental \
        --toolchain "$apart" --backend llvm "$@" -o "$apart/made.a") </dev/null >>"$made.log" 2>&1 || fail
    cp "crates/$name/out/lib$name.a" "$made.kit.a"
    cmp "$apart/made.a" "$made.kit.a" >&2 || fail "the archive is not the one that rt made"
    rm -r "$apart"
}

# The module that is kept for a file, as text, as the compiler leaves it that is told these words.
module_text() { # FILE WORDS..
    "$tools/bin/clang" --target=x86_64-unknown-linux-gnu -S -emit-llvm "${@:2}" -x ir "$1.bc" -o -
}

# With no function worked into another yet: of this text the kit's own object can be made again.
untouched_text() { # FILE
    module_text "$1" -Xclang -disable-llvm-passes
}

# For a target whose pointers have 4 bytes. The module is written for 8: what it writes part by part and reads as one whole (a byte and a
# reference) would be looked for elsewhere by a compiler that has been told of the target. So the compiler first does its work as for the
# kit's own target, which takes such wholes apart. Were one left, or a reference in a constant or in a place that is laid out by its type,
# there would be no archive.
worked_text() { # FILE
    local text whole='[[{<][^%@]*\<ptr\>[^%@]*'
    text=$(module_text "$1" -O1) || return
    if grep -m 3 -nE "^@.*(constant|global) .*\\<ptr\\>|(load|store) (volatile )?$whole[]}>]|alloca (ptr|$whole[]}>])|getelementptr( [a-z]+)* (ptr|$whole[]}>])," <<<"$text" >&2; then
        say "where a pointer has 4 bytes, these would be read elsewhere than they stand"
        return 1
    fi
    echo "$text"
}

# A module's text for another target than the kit's: what it says of x86-64 is left out.
for_any_target() {
    sed -e '/^target /d' -e 's/"target-cpu"="x86-64"//'
}

# How many bytes a pointer has on a target.
pointer_bytes() { # TARGET
    echo __SIZEOF_POINTER__ | "$tools/bin/clang" "--target=$1" -E -P -x c - | tail -1
}

# Compiles a module's text as the kit's compiler was told to, but for the target, which more words say.
compile() { # TEXT OBJECT KIT'S-WORDS WORDS..
    local words
    mapfile -t words < <(sed -e '/^--target=/d' -e '/^-march=/d' -e '/^--sysroot=/d' -e "s,.*\\.bc\$,$1," -e "s,.*\\.o\$,$2," "$3")
    "$tools/bin/clang" "${words[@]}" -Wno-override-module "${@:4}"
}

# Makes the file current by a function that writes $made.new, if it was made from something else.
make_current() { # STATE FUNCTION
    is_current "$1" && return
    [ -n "$kit" ] || { say "rt is not here, and ${made#"$PWD/"} is not there or not current: install the Rattle kit"; exit 1; }
    exec 9>"$room/lock"
    flock -n 9 || { say "waiting for another start that is proving"; flock 9; }
    is_current "$1" || {
        "$2"
        mv "$made.new" "$made"
        echo "$1" >"$made.state"
    }
    exec 9>&-
}

mapfile -t crates < <(needed)
mkdir -p "$room"
