# shellcheck shell=bash
# Sourced by the scripts that prove, build and run something: it finds the kit and goes to the repository's root. For them it has
#
#   proving NAME WORD..        runs WORD.., a command of rt that proves the crate NAME and those below it, in that crate's folder, and shows how far it is
#   build_program NAME         makes crates/NAME/out/NAME where it is older than a file of the crates, and sets `command` for it
#   build_host SOURCE NAME [SOURCE..]      makes target/hosts/NAME of sources in C and the static library
#   run_host NAME              sets `command` for it
#   build_second               builds the second program and its like, and sets `built`, the folder that they are in
#
# The kit, its programs and the library are for x86-64 Linux.
cd "$(dirname "${BASH_SOURCE[0]}")/.." || exit 2
kit=$(dirname "$(dirname "$(readlink -f "$(command -v rt)")")")
toolchain=$kit/toolchain
archive=crates/xaluudhiga/out/libxaluudhiga.a
hosts=target/hosts
mkdir -p "$hosts"

# plan NAME: the crates below it and then itself, in the order in which rt proves them, each with a weight. The weight goes by the size of code
# and proofs, and a program has more, since it is also compiled and linked: that is about what the time goes by.
plan() {
    local name
    awk -v want="$1" '
        function visit(n,    a, k, m) {
            m = split(deps[n], a, " ")
            for (k = 1; k <= m; k++) if (a[k] in deps && !(a[k] in seen)) { seen[a[k]] = 1; visit(a[k]) }
            print n
        }
        { sub(/#.*/, "") }
        split($0, part, ":") == 2 { split(part[1], word, " "); deps[word[1]] = part[2] }
        END { visit(want) }' crates.txt | while IFS= read -r name; do
        echo "$name $(($(find "crates/$name/src" "crates/$name/proofs" -type f -exec cat {} + 2>/dev/null | wc -c) / 1000 +
            $([[ -e crates/$name/src/main.rt ]] && echo 60 || echo 5)))"
    done
}

# progress NAME: reads what rt says and tells which crate is done, which comes next and about how long the rest takes. Before anything is
# proved the time is a guess, for two processors. Of a crate that is proved already rt says nothing.
progress() {
    local -a names=() weights=()
    local name weight line at left=0 done=0 spent=0 began=$SECONDS before=$SECONDS per_mille=350
    while read -r name weight; do
        names+=("$name") weights+=("$weight") left=$((left + weight))
    done < <(plan "$1")
    echo "Proving $1 and what it is made of, ${#names[@]} crates: about $((left * per_mille / 60000 + 1)) min where none is proved yet, first ${names[0]}. target/$1.log has what the prover says."
    while IFS= read -r line; do
        [[ $line =~ ^crate\ ([a-z0-9_]+):\ modules ]] || continue
        at=$done
        while ((at < ${#names[@]})) && [[ ${names[at]} != "${BASH_REMATCH[1]}" ]]; do at=$((at + 1)); done
        ((at < ${#names[@]})) || continue
        ((at == done)) || echo "  $at of ${#names[@]} are proved already"
        for (( ; done < at; done++)); do left=$((left - weights[done])); done
        weight=${weights[done]} left=$((left - weights[done])) spent=$((spent + weights[done])) done=$((done + 1))
        ((SECONDS - began < 20)) || per_mille=$(((SECONDS - began) * 1000 / spent))
        echo "  $done of ${#names[@]}  ${names[at]} ($((SECONDS - before)) s)${names[done]:+, then ${names[done]}; about $((left * per_mille / 60000 + 1)) min left}"
        before=$SECONDS
    done
}

# The command's output goes to target/NAME.log; standard error shows how far it is.
proving() {
    local name=$1
    shift
    mkdir -p target
    (cd "crates/$name" && "$@") </dev/null 2>&1 | tee "target/$name.log" | progress "$name" >&2
}

# unproved NAME: shows what was said, and ends.
unproved() {
    cat "target/$1.log" >&2
    exit 2
}

# is_newest FILE: it is there, and no source of a crate is newer.
is_newest() {
    [[ -e $1 && -z $(find crates.txt crates/*/src crates/*/specs crates/*/proofs -newer "$1" -print -quit) ]]
}

# A program is built only where it is proved. What has been proved before and has not changed since is not proved again. Exit status 2 where
# that fails. rt run also runs the program, here with no input and no words, and ends as that does; it is built where rt says that it runs it.
build_program() {
    local program=$PWD/crates/$1/out/$1
    if ! is_newest "$program"; then
        proving "$1" rt run || grep -q "^rt: running out/$1;" "target/$1.log" || unproved "$1"
        touch "$program"
    fi
    # shellcheck disable=SC2034 # for those that source this
    command=("$program")
}

# The folder is another where the machine's settings name a build target.
build_second() {
    # shellcheck disable=SC2034 # for those that source this
    built=second/target/${CARGO_BUILD_TARGET:+$CARGO_BUILD_TARGET/}release
    cargo build --quiet --release --manifest-path second/Cargo.toml --target-dir second/target || exit 2
}

# ---- hosts in C

# compile WORD..: the kit's compiler, with the headers that it lacks (tools/libc) and ours.
compile() {
    "$toolchain/bin/clang" --target=x86_64-unknown-linux-gnu -Wall -Wextra -Werror -pedantic -isystem tools/libc -Iinclude "$@"
}

# The static library, proved and written where it is older than a file of the crates. Exit status 2 where that fails.
build_library() {
    is_newest "$archive" || proving xaluudhiga rt lib || unproved xaluudhiga
}

link() { # SOURCE PROGRAM [SOURCE..]
    local program=$2 source
    local -a objects=()
    for source in "$1" "${@:3}"; do
        objects+=("$program.${#objects[@]}.o")
        compile -std=c99 -O2 -fPIE -c "$source" -o "${objects[-1]}" || return 1
    done
    "$kit/bin/rattle-link" --target x86_64-unknown-linux-gnu --toolchain "$toolchain" -o "$program" "${objects[@]}" "$archive"
}

# Exit status 2, with what was said, where that fails.
build_host() {
    build_library
    link "$1" "$hosts/$2" "${@:3}" >"$hosts/$2.log" 2>&1 || { cat "$hosts/$2.log" >&2; exit 2; }
}

run_host() {
    # shellcheck disable=SC2034 # for those that source this
    command=("$PWD/$hosts/$1")
}
