# Which program ./lam runs, and how it is built. ./lam reads this file; it has set here, the top of the repository, kept, the
# folder of the programs, tools, and crate, the program's name: lam, or lam_closed under `--closed`.

say() {
    printf 'lam: %s\n' "$@" >&2
}

# A name as it can be shown on a line.
shown() {
    case $1 in
        *[[:cntrl:]]*) printf %s "${1@Q}" ;;
        *) printf %s "$1" ;;
    esac
}

has_python() {
    command -v python3 >/dev/null 2>&1 || {
        say "there is no python3 on the PATH, and $1 wants it"
        return 1
    }
}

# A source, or a folder of sources, that has changed since this file was written. What counts is when the file system
# changed it (ctime): an older file that is moved to its place is a change too.
changed_since() {
    find "$here/crates.txt" "$here"/crates/*/src "$here"/crates/*/specs "$here"/crates/*/proofs \
        -newercm "$1" -print -quit 2>/dev/null
}

sum_now() {
    cd "$here"
    find crates.txt crates/*/src crates/*/specs crates/*/proofs -type f -print0 2>/dev/null |
        LC_ALL=C sort -z | xargs -0 sha256sum | sha256sum | cut -c 1-16
}

# Sets sum to the sum of the sources. The file out/lam/sources keeps it, and is as old as the start of that reading.
read_sum() {
    local new=$kept/sources.$$
    if [ -s "$kept/sources" ] && [ -z "$(changed_since "$kept/sources")" ]; then
        sum=$(<"$kept/sources")
        return
    fi
    { mkdir -p "$kept" && : >"$new.start"; } 2>/dev/null || true
    sum=$(sum_now)
    { echo "$sum" >"$new" && touch -r "$new.start" "$new" && mv "$new" "$kept/sources"; } 2>/dev/null || true
    rm -f "$new.start"
}

# The file of a program of a kind: `proved` is of lam, `lam_closed.proved` of lam_closed.
place() {
    local name=$crate.
    [ "$crate" != lam ] || name=
    printf %s "$kept/$sum/$name$1"
}

# Keeps the program that `rt ci` or tools/build.py left, where no source has changed since.
keep_proved() {
    local left=$here/crates/$crate/out/$crate file
    file=$(place proved)
    if [ -x "$left" ] && [ -z "$(changed_since "$left")" ]; then
        { mkdir -p "$kept/$sum" && cp "$left" "$file.$$" && mv "$file.$$" "$file"; } 2>/dev/null || program=$left
    fi
}

# Sets program, and kind, to the first of these kinds that is kept for the sources.
choose() {
    local file
    program=
    for kind in "$@"; do
        file=$(place "$kind")
        [ "$kind" != proved ] || [ -x "$file" ] || keep_proved
        [ ! -x "$file" ] || program=$file
        [ -z "$program" ] || return 0
    done
    return 1
}

# Whether anything can be built here at all; if not, says what is missing.
can_build() {
    local kit
    if [ ! -d "$here/crates/$crate" ]; then
        say "these sources have no program $crate"
        return 1
    fi
    if ! command -v rt >/dev/null 2>&1; then
        kit=$(sed -n 's/^Proved with `\(.*\)`.*/\1/p' "$here/CHANGELOG.md" 2>/dev/null | head -n 1)
        say "the Rattle kit is missing: there is no rt on the PATH; ${kit:-a kit} is wanted (README.md, 'Two commands')"
        return 1
    fi
    has_python "the build of a program"
}

# Builds a program of a kind for the sources, and keeps it; drops all but those of the newest three states of the sources.
# Ends with 3 where another kind may be built all the same.
build() {
    can_build || exit 70
    case $1 in
        proved) "$tools/build.py" "$crate" ;;
        optimised) "$tools/quick.py" "$kept/$sum" "$crate" ;;
        checked) "$tools/trial.py" "$kept/$sum" "$crate" ;;
    esac || return
    if [ "$(<"$kept/sources")" != "$sum" ] || [ -n "$(changed_since "$kept/sources")" ]; then
        say "the sources changed while it was built; call it again"
        rm -f "$(place "$1")"
        exit 70
    fi
    ls -1dt "$kept"/*/ | tail -n +4 | xargs -rd '\n' rm -rf
    choose "$1"
}

# What there is to know of a program that was built without proof, once.
tell_of() {
    say "$1; it is not proved here: ./lam --prove (or rt ci) proves the sources and builds the proved one, which is then used"
}

build_proved() {
    build proved || {
        say "not proved; the reason is in $here/build.log"
        exit 70
    }
}

build_checked() {
    build checked || exit 70
    tell_of "this program is built from these sources with checks of each access to memory, and slower"
}

# Builds the optimised program; where this toolchain has no compiler for it, the checked one, from then on.
build_optimised() {
    local status=0
    build optimised || status=$?
    case $status in
        0) tell_of "this program is built from these sources and optimised" ;;
        3)
            choose checked || build_checked
            : >"$(place unoptimised)"
            ;;
        *) exit 70 ;;
    esac
}

# Sets program to the one that is wanted, and builds it where it is not kept.
find_program() {
    read_sum
    case $wanted in
        proved) choose proved || build_proved ;;
        optimised) choose proved optimised || build_optimised ;;
        checked) choose checked || build_checked ;;
        *) choose proved optimised || { [ -e "$(place unoptimised)" ] && choose checked; } || build_optimised ;;
    esac
}

# Prints the kind that runs, or would be built: proved, optimised, checked, or none.
kind_kept() {
    choose proved optimised checked || kind=none
    printf %s "$kind"
}
