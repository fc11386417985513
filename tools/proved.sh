# shellcheck shell=sh
# For the tools that run or link what is proved: whether a program is proved and built from exactly the sources that are here, and proving
# and building it, one call at a time. It is read by a tool that has set `tool`, its name, and `root`, the repository's folder.
#
# target/proved/NAME is the program, or for `capi_c` target/staticlib/libcapi.a the library, and target/proved/NAME.stamp says of what
# sources, by which toolchain and with which bytes it was made. It is written once rt has proved and built just that, and never by times.
# rt itself leaves what it builds in crates/NAME/out, and what it proved for the next time.
: "${tool:?}" "${root:?}"

say() {
    printf '%s: %s\n' "$tool" "$*" >&2
}

# The crates that $@ need, themselves among them, each as its line of crates.txt and after those that it needs, as rt builds them; it fails
# where one is not listed.
needs() {
    awk -v wanted="$*" '
        function visit(name,    of, k, n) {
            if (name in seen) return
            seen[name] = 1
            n = split(uses[name], of, " ")
            for (k = 1; k <= n; k++) if (of[k] in uses) visit(of[k])
            print name ":" uses[name]
        }
        { sub(/#.*/, ""); at = index($0, ":") }
        at { split(substr($0, 1, at - 1), head, " "); uses[head[1]] = substr($0, at + 1) }
        END {
            n = split(wanted, names, " ")
            for (k = 1; k <= n; k++) if (names[k] in uses) visit(names[k]); else exit 1
        }' "$root/crates.txt"
}

# The sum over the sources of $1: the lines of its crates and every file of them that rt looks at.
sources() {
    lines=$(needs "$1" 2>/dev/null) || return 1
    parts=
    for crate in $(printf '%s\n' "$lines" | cut -d: -f1); do
        for part in src specs proofs stdin stdout args status data; do
            [ ! -e "$root/crates/$crate/$part" ] || parts="$parts crates/$crate/$part"
        done
    done
    [ -n "$parts" ] || return 1
    # shellcheck disable=SC2086 # the parts are words: a crate's name has letters, digits and _
    files=$(cd "$root" && find -L $parts -type f) || return 1
    sums=$(cd "$root" && printf '%s\n' "$files" | LC_ALL=C sort | xargs -d '\n' sha256sum) || return 1
    printf '%s\n' "$lines" "$sums" | sha256sum | cut -d ' ' -f 1
}

# The toolchain that is here, or nothing where there is none.
kit=
if command -v rt >/dev/null; then
    kit=$(rt version 2>/dev/null)
fi

# The comment at the head of the tool $1, with the folder in which it stands.
help() {
    folder=$root
    case $folder in
        *[!A-Za-z0-9/._-]*) folder=$(printf '%s\n' "$folder" | sed "s/'/'\\\\''/g; s/.*/'&'/") ;;
    esac
    sed -n '2,/^[^#]/s/^# \{0,1\}//p' "$root/tools/$1" | FOLDER=$folder awk '
        { while (at = index($0, "ROOT")) { printf "%s%s", substr($0, 1, at - 1), ENVIRON["FOLDER"]; $0 = substr($0, at + 4) } print }'
}

# The version of $1, whose crate is $2: the sum of its sources, and the toolchain.
version() {
    sum=$(sources "$2") || { say "the sources of $2 cannot be read"; return 2; }
    printf '%s of Bollardine, sources %.16s, %s\n' "$1" "$sum" "${kit:-no toolchain}"
}

made() {
    case $1 in
        capi_c) printf '%s\n' "$root/target/staticlib/libcapi.a" ;;
        *) printf '%s\n' "$root/target/proved/$1" ;;
    esac
}

# Whether the stamp of $1 speaks of the sources with the sum $2, and of this toolchain where one is here; its bytes are then in `bytes`.
stamped() {
    bytes=
    [ -r "$root/target/proved/$1.stamp" ] || return 1
    { read -r of && read -r by && read -r bytes; } <"$root/target/proved/$1.stamp" || return 1
    [ "$of" = "sources $2" ] && { [ -z "$kit" ] || [ "$by" = "toolchain $kit" ]; }
}

# Whether the file $3 is what the sources of $1 with the sum $2 were proved and built into.
current() {
    stamped "$1" "$2" && [ -r "$3" ] && [ "$bytes" = "bytes $(sha256sum <"$3" | cut -d ' ' -f 1)" ]
}

# Whether all that a build of $1 writes can be written: what is in target/, and what rt keeps in each crate's out/. Where some of it cannot,
# it is in the folder `closed`.
writable() {
    closed=$root/target
    mkdir -p "$root/target/proved" "$root/target/staticlib" 2>/dev/null && [ -w "$closed" ] || return 1
    for crate in $(needs "$1" | cut -d: -f1); do
        closed=$root/crates/$crate
        [ -e "$closed/out" ] || [ -w "$closed" ] || return 1
    done
    for closed in "$root/target/proved" "$root/target/staticlib" "$root"/crates/*/out; do
        [ ! -e "$closed" ] || [ -z "$(find "$closed" ! -writable -print -quit 2>&1)" ] || return 1
    done
}

# Tells how far rt is; the words are the names of the crates in their order. Of a library that is built already rt says nothing.
told() {
    while IFS= read -r line; do
        case $line in
            'crate '*': modules '*)
                crate=${line#crate }
                crate=${crate%%:*}
                ;;
            'logic=proved '*) step "$crate" proved "$@" ;;
            'rt: nothing has changed since the last proved build, by out/'*)
                crate=${line#*by out/}
                step "${crate%%.stamp*}" 'proved (unchanged since it was last proved)' "$@"
                ;;
            'rt: chose '* | 'rt: running '* | 'rt: '*': begins with '*) ;;
            'rt: '*) say "${line#rt: }" ;;
        esac
    done
}

# Says of the crate $1 that it is $2; the words after are the names of the crates in their order.
step() {
    named=$1
    how=$2
    shift 2
    place=$(printf '%s\n' "$@" | grep -nxF -- "$named") && say "${place%%:*} of $# crates: $named $how"
}

# Runs rt with the word $1 in the folder of the crate $2, of which the words after are the crates that it needs, and answers with rt's own
# status. What a program writes goes to target/build.out.
telling() {
    verb=$1
    crate=$2
    shift 2
    given=$root/crates/$crate/stdin
    [ -f "$given" ] || given=/dev/null
    ended=$(
        {
            {
                cd "$root/crates/$crate" && case $verb in
                    lib) rt lib 2>&1 </dev/null ;;
                    *) rt run 2>&1 <"$given" >"$root/target/build.out" ;;
                esac
                echo $? >&3
            } | tee "$root/target/build.log" | told "$@" >&2
        } 3>&1
    )
    return "${ended:-2}"
}

# Proves and builds $1, and answers as rt does: 1 and 3 where it is not proved. A program is run too, on its file stdin: 4 where it then
# writes something else than its file stdout.
built() {
    # shellcheck disable=SC2046 # a crate's name is a word
    set -- "$1" $(needs "$1" | cut -d: -f1)
    case $1 in
        capi_c)
            telling lib "$@"
            return
            ;;
    esac
    telling run "$@"
    ran=$?
    # Once rt runs the program its status is the program's.
    grep -q "^rt: running out/$1;" "$root/target/build.log" || return "$((ran == 0 ? 2 : ran))"
    wanted=$root/crates/$1/stdout
    [ -f "$wanted" ] || wanted=/dev/null
    [ "$ran" = 0 ] && cmp -s "$root/target/build.out" "$wanted" || return 4
}

# Writes the stamp of $1: the sources with the sum $2 were proved and built into what rt has written.
stamp() {
    file=$(made "$1")
    case $1 in
        capi_c) out=$root/crates/$1/out/lib$1.a ;;
        *) out=$root/crates/$1/out/$1 ;;
    esac
    cp "$out" "$file.new" && mv "$file.new" "$file" || return 1
    bytes=$(sha256sum <"$file" | cut -d ' ' -f 1)
    printf '%s\n' "sources $2" "toolchain $kit" "bytes $bytes" >"$root/target/proved/$1.stamp.new" || return 1
    mv "$root/target/proved/$1.stamp.new" "$root/target/proved/$1.stamp"
}

# Proves and builds $1 from the sources with the sum $2: 0, or 1 where they are not proved, or 2.
prove() {
    command -v rt >/dev/null || { say 'rt, the toolchain that proves and builds it, is not found'; return 2; }
    # Where the program is not the one that the stamp of these sources speaks of, it is proved and built anew, whatever rt remembers.
    if stamped "$1" "$2"; then
        rm -f "$root/crates/$1/out/$1.stamp"
    fi
    count=$(needs "$1" | wc -l)
    say "$1 is not there as these sources have it: it is proved and built now, $count crates, some minutes where none of them is proved yet"
    built "$1"
    case $? in
        0) ;;
        1 | 3) say "$1 is not proved; target/build.log says why"; return 1 ;;
        4) say "$1 is proved, and does not write what crates/$1/stdout has; target/build.out is what it writes"; return 1 ;;
        *) say "$1 could not be built; target/build.log says why"; return 2 ;;
    esac
    [ "$(sources "$1")" = "$2" ] || { say "the sources of $1 changed while they were proved: call again"; return 2; }
    stamp "$1" "$2" || { say "what was built of $1 could not be kept in target/"; return 2; }
}

# Has $1 proved and built from exactly the sources that are here: 0, or 1 where they are not proved, or 2. Where several call at once one
# of them builds and the others wait for it. The sum of the sources is then in `sum`.
ensure() {
    sum=$(sources "$1") || { say "the sources of $1 cannot be read"; return 2; }
    if current "$1" "$sum" "$(made "$1")"; then
        return 0
    fi
    if ! writable "$1" || ! { command exec 9>>"$root/target/lock"; } 2>/dev/null; then
        say "$1 is not there as these sources have it, and $closed cannot be written: its owner runs tools/build"
        return 2
    fi
    if ! flock -n 9; then
        say 'another call proves and builds: waiting for it'
        flock 9
    fi
    status=0
    current "$1" "$sum" "$(made "$1")" || prove "$1" "$sum" || status=$?
    exec 9>&-
    return "$status"
}
