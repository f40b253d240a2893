# Sourced by the scripts that have the prover work: what it is doing, for people.

# span SECONDS: a time as people say it
span() {
    if [[ $1 -lt 60 ]]; then echo "$1 s"; else echo "$(($1 / 60)) min $(($1 % 60)) s"; fi
}

# needed CRATE: a crate of crates.txt and those that it needs, in the order in which the prover takes them
needed() {
    awk -F: -v of="$1" '
        function take(name, need, count, i) {
            if (name in taken) return
            count = split(needs[name], need, " ")
            for (i = 1; i <= count; i++) take(need[i])
            taken[name] = 1
            print name
        }
        /^[a-z]/ { name = $1; sub(/ .*/, "", name); needs[name] = $2 }
        END { take(of) }' crates.txt
}

# tell CRATE: reads what the prover prints while it proves a crate and those that it needs. Says which one is being proved, and of each how long it took and how
# long all took so far; a crate that has not changed since it was last proved is passed over in silence.
tell() {
    local crates line name='' place=0 start=0 took
    mapfile -t crates < <(needed "$1")
    SECONDS=0
    while IFS= read -r line; do
        case $line in
        'rt: chose --jobs '*' for '*)
            name=${line##* for } start=$SECONDS
            while [[ $place -lt ${#crates[@]} && ${crates[place]} != "$name" ]]; do place=$((place + 1)); done
            echo "proving $name"
            ;;
        'logic='*)
            [[ -n $name ]] || continue
            took="$(span $((SECONDS - start))), "
            [[ $line == 'logic=proved '* ]] || took='NOT PROVED, '
            echo "$((place + 1)) of ${#crates[@]}, $name: $took$(span $SECONDS) so far"
            name=
            ;;
        esac
    done
}

# tell_all: the same of `rt ci`, which proves as many crates at once as the machine can and then tries their edits, and prints what it said of each when that is done.
tell_all() {
    local line name told crates proved=0 edits tried=0
    crates=$(grep -c '^[a-z]' crates.txt)
    edits=$(find crates -path '*/must-fail/*.edit' | wc -l)
    SECONDS=0
    while IFS= read -r line; do
        name=${line#rt: } told=
        case $line in
        'rt: must-fail '*)
            tried=$((tried + 1)) name=${name#must-fail }
            [[ $line != *': refused, as it must be'* ]] || name=${name%%: *}': refused'
            echo "edit $tried of $edits, $name"
            ;;
        'rt: '*': trying its must-fail edits ('*)
            line=${line##*(}
            echo "trying the ${line%)} edits of ${name%%: *}, $(span $SECONDS) so far"
            ;;
        'rt: '*': '*' proved' | 'rt: '*': '*' NOT PROVED') ;;
        'rt: '*' is kept: '*) told=kept name=${name%% *} ;;
        'rt: '*' NOT PROVED'*) told='NOT PROVED' name=${name%% *} ;;
        'rt: '*' proved') told=proved name=${name%% *} ;;
        esac
        if [[ -n $told ]]; then
            proved=$((proved + 1))
            echo "$proved of $crates, $name: $told, $(span $SECONDS) so far"
        fi
    done
}

# what_went_wrong LOG: the prover's words but for what went right
what_went_wrong() {
    grep -vE ': proved$|: refused, as it must be|^rt: \w+ (proved$|is kept: )|^rt: chose |^(checked|so far|statements|library|crate|axioms|logic|linked|only=0 proved=0|empty contracts|==|note: large solution)\b' "$1" | tail -n 200
}

# need_rt: for a script that has the prover work
need_rt() {
    command -v rt >/dev/null && return
    echo "the Rattle toolchain is missing: its command 'rt' must be on the PATH (docs/DECISIONS.md names the version)" >&2
    return 1
}

# prove LOG CRATE COMMAND..: has the prover work on a crate and those that it needs, by a command that is run in the crate's folder, and says on standard error how
# far that is; all that the prover said goes to target/LOG
prove() {
    local log=target/$1 crate=$2
    shift 2
    need_rt || return 1
    mkdir -p target
    if ! (cd "crates/$crate" && "$@") 2>&1 </dev/null | tee "$log" | tell "$crate" >&2; then
        what_went_wrong "$log" >&2 || true
        echo "$log has all that the prover said" >&2
        return 1
    fi
}

# make_from CRATE LOG MADE FILE COMMAND..: FILE, which is crates/CRATE/out/MADE as that command makes it, unless it is newer than all that it is made from.
# What is edited meanwhile is newer than FILE.
make_from() {
    local crate=$1 log=$2 made=$3 file=$4 start
    shift 4
    [[ ! -f $file || -n $(find crates.txt crates/*/src crates/*/specs crates/*/proofs -newer "$file" -print -quit) ]] || return 0
    start=$(mktemp)
    prove "$log" "$crate" "$@" || { rm "$start"; return 1; }
    mkdir -p "$(dirname "$file")"
    cp -f "crates/$crate/out/$made" "$file"
    touch -r "$start" "$file"
    rm "$start"
}

# prove_verdicts: target/bin/verdicts, unless it is newer than all that it is made from. The run that makes it is on the empty table.
prove_verdicts() {
    make_from verdicts run.log verdicts target/bin/verdicts rt run
}

# prove_library: the static library, unless it is newer than all that it is made from
prove_library() {
    make_from pierstride_c library.log libpierstride_c.a target/staticlib/libpierstride.a rt lib
}
