# What ./build, ./dist.sh and ./test share. They set `top`, the folder of the repository.
#
# crates/dagrun/out/dagrun is the program as the toolchain links it, to the C library of the machine. What is shipped is the same object
# file linked statically: dist/dagrun.o is the object file, dist/dagrun the program.
program=crates/dagrun/out/dagrun
object=dist/dagrun.o

# The crates of this repository that crate $1 stands on, lowest first, and the crate itself.
crates_below() {
    awk -v top="$1" '
        /^[a-z]/ { name = $1; sub(/:$/, "", name); sub(/^[^:]*:/, ""); uses[name] = $0 }
        function visit(name,    parts, count, place) {
            if (!(name in uses) || seen[name]++) return
            count = split(uses[name], parts, " ")
            for (place = 1; place <= count; place++) visit(parts[place])
            print name
        }
        END { visit(top) }' "$top/crates.txt"
}

# The toolchain: as it says itself, or, where there is none, the one that the shipped program was built by.
toolchain() {
    if command -v rt >/dev/null; then rt version; else sed -n 1p "$top/dist/SOURCES"; fi
}

# SHA-256 over the toolchain's version, crates.txt, and the sources and specifications that the program is made from.
sum_of_sources() {
    {
        echo "$1"
        cd -- "$top"
        sha256sum crates.txt
        files_of $(crates_below dagrun) | LC_ALL=C sort | xargs sha256sum
    } | sha256sum | cut -d ' ' -f 1
}

# The files that these crates' code is made from.
files_of() {
    local crate folder
    for crate in "$@"; do
        for folder in "crates/$crate/src" "crates/$crate/specs"; do
            if [ -d "$folder" ]; then find "$folder" -type f; fi
        done
    done
}

# What dist/SOURCES has to say of a program of the sources as they are: the toolchain, the sum of the sources, and its own.
sources() {
    local version
    version=$(toolchain)
    echo "$version"
    sum_of_sources "$version"
    sum_of "$1"
}

# Whether the program $1 with the file of sources $2 is one of the sources as they are. The shipped one has two lines more.
is_of_sources() {
    [ -x "$1" ] && [ -f "$2" ] && [ "$(sed -n 1,3p "$2")" = "$(sources "$1")" ]
}

# Whether the shipped program is of the sources as they are, and the object file beside it is the one that it was linked of. A program that
# was shipped before there was an object file has none.
is_shipped() {
    local sum
    is_of_sources "$top/dist/dagrun" "$top/dist/SOURCES" || return 1
    sum=$(sed -n 4p "$top/dist/SOURCES")
    if [ -n "$sum" ]; then [ -f "$top/$object" ] && [ "$(sum_of "$top/$object")" = "$sum" ]; fi
}

# The SHA-256 of a file.
sum_of() {
    sha256sum <"$1" | cut -d ' ' -f 1
}

# What dist/SOURCES has to say of the shipped program $1, of the object file $2: what it says of any program, the sum of the object file,
# and what it was linked by.
shipped_sources() {
    sources "$1"
    sum_of "$2"
    linker
}

# The toolchain's folder, which holds its linker and the C functions of its library.
kit() {
    dirname -- "$(dirname -- "$(readlink -f -- "$(command -v rt)")")"
}

# Links the object file $1 to the program $2 as the toolchain does it.
link_by_toolchain() {
    local kit
    kit=$(kit)
    "$kit/bin/rattle-link" --target x86_64-unknown-linux-gnu --toolchain "$kit/toolchain" -o "$2" "$1" "$kit/c/libos_c.a" "$kit/c/liblibc_c.a" 2>/dev/null
}

# The system's compiler, with nothing of the environment that changes what it links.
compiler() {
    env -i PATH="$PATH" LC_ALL=C gcc "$@"
}

# What is linked to a static program beside the object file and the toolchain's functions.
static_parts='rcrt1.o crti.o crtbeginS.o libgcc.a libgcc_eh.a libc.a crtendS.o crtn.o'

# Says on standard error what is missing here for a static program, and fails where something is.
has_static_parts() {
    local part missing=
    if ! command -v rt >/dev/null; then missing='the toolchain (rt on the PATH)'; fi
    if ! command -v gcc >/dev/null || ! command -v ld >/dev/null; then
        missing="${missing:+$missing, }gcc and ld"
    else
        # A name with no folder is a file that the compiler doesn't find.
        for part in $static_parts; do
            if [[ $(compiler -print-file-name="$part") != */* ]]; then missing="${missing:+$missing, }$part"; fi
        done
    fi
    if [ -z "$missing" ]; then return; fi
    echo "a static program can't be linked here, for want of: $missing (Debian: apt-get install gcc libc6-dev)" >&2
    return 1
}

# What links a static program here, in one line: the names of the linker and of the C library, and a sum over all that goes in. Two
# machines with the same line make the same program of an object file.
linker() {
    local part sum
    sum=$(for part in $static_parts; do sum_of "$(compiler -print-file-name="$part")"; done | sha256sum | cut -c 1-16)
    echo "$(ld --version | sed -n 1p); $(compiler --version | sed -n 1p); C library and parts $sum"
}

# Links the object file $1 statically to the program $2: to one that may be loaded at any address (PIE), with its tables made read-only.
link_statically() {
    local kit
    kit=$(kit)
    compiler -static-pie -Wl,--gc-sections,-z,relro,-z,now,-z,noexecstack,--build-id=sha1 -o "$2" "$1" "$kit/c/libos_c.a" "$kit/c/liblibc_c.a"
}

# Makes the object file $1 and the static program that is linked of it the shipped ones.
ship() {
    local stage
    stage=$(mktemp -d "$top/dist/.new.XXXXXX")
    if ! cp "$1" "$stage/dagrun.o" || ! link_statically "$1" "$stage/dagrun" || ! shipped_sources "$stage/dagrun" "$1" >"$stage/SOURCES"; then
        rm -rf "$stage"
        return 1
    fi
    chmod 644 "$stage/dagrun.o"
    chmod 755 "$stage/dagrun"
    mv "$stage/dagrun.o" "$stage/dagrun" "$stage/SOURCES" "$top/dist/"
    rmdir "$stage"
}

# Whether what is shipped is what was proved and built, byte for byte. `rt ci` keeps the program that it linked and not always the object
# file, so this goes two ways from the shipped object file: linked by the toolchain it is the program that was proved, and linked statically
# the shipped one. Where the machine has another linker or C library than that by which the program was shipped, or none, the second way can't be
# gone: that is said, and the object file alone is compared. Says on standard output what differs.
is_proved_program() {
    local stage status=0
    if [ ! -f "$top/$object" ]; then
        echo "$object is missing, so dist/dagrun is no static program: ./dist.sh makes both"
        return 1
    fi
    stage=$(mktemp -d)
    if ! link_by_toolchain "$top/$object" "$stage/linked" || ! cmp "$stage/linked" "$top/$program"; then
        echo "$object is not the object file of the program that was proved and built: ./dist.sh renews it"
        status=1
    elif ! has_static_parts 2>&1; then
        echo 'so the object file of dist/dagrun alone is compared'
    elif [ "$(linker)" != "$(sed -n 5p "$top/dist/SOURCES")" ]; then
        echo 'dist/dagrun was linked by another linker or C library than those here, so its object file alone is compared:'
        echo "there: $(sed -n 5p "$top/dist/SOURCES")"
        echo "here:  $(linker)"
        echo './dist.sh --link links it anew, of the same object file'
    elif ! link_statically "$top/$object" "$stage/static" || ! cmp "$stage/static" "$top/dist/dagrun"; then
        echo "dist/dagrun is not $object, linked statically: ./dist.sh renews it"
        status=1
    fi
    rm -rf "$stage"
    return "$status"
}

# Says on standard error how far the check of crate $1 is, number $2 of $3, by what it prints: on a terminal in one line that is
# written over, else by a line as it begins and one as it ends.
show_progress() {
    awk -v crate="$1" -v place="$2" -v count="$3" -v terminal="$([ -t 2 ] && echo 1)" '
        function say(text) { printf (terminal ? "\r%s   " : "%s\n"), text >"/dev/stderr"; fflush("/dev/stderr") }
        function told() { return "proving " crate " (" place " of " count ")" (all ? ", " done " of " all " functions" : "") }
        BEGIN { say(told()) }
        / [0-9]+ of [0-9]+ functions checked/ { done = $3; all = $5 }
        /^checked .*, [0-9]+ of [0-9]+$/ { done = $(NF - 2); all = $NF }
        all && terminal { say(told()) }
        END { if (!terminal && all) say(told()); if (terminal) printf "\n" >"/dev/stderr" }'
}

# Proves and builds the program, over what earlier checks kept. Says how far it is on standard error.
build() {
    local log crates place=0 crate
    log=$(mktemp)
    crates=$(crates_below dagrun)
    for crate in $crates; do
        place=$((place + 1))
        if ! (cd "$top/crates/$crate" && rt check </dev/null) 2>&1 | tee "$log" | show_progress "$crate" "$place" "$(wc -w <<<"$crates")"; then
            cat "$log" >&2
            rm -f "$log"
            return 1
        fi
    done
    # What was built before is not built again, also where its object file is gone.
    if [ ! -f "$top/$program.o" ]; then rm -f "$top/$program.stamp"; fi
    if ! (cd "$top/crates/dagrun" && rt run <stdin) >"$log" 2>&1; then
        cat "$log" >&2
        rm -f "$log"
        return 1
    fi
    rm -f "$log"
    sources "$top/$program" >"$top/$program.sources"
}
