# What the programs of this repository are made of, and where they are kept once they are built. bip_run, prove, test and tools/ read this.
#
# A program is kept under a name that ends in the sum of its sources: out/KIND/NAME-SUM, of the kind `proved` or `unproved`. So a program
# of other sources is never taken for one of these, however files came to be as they are, and a program is there whole or not at all.

root=$(cd "$(dirname "$(readlink -f "${BASH_SOURCE[0]}")")/.." && pwd) || exit 3
# What ./prove takes from nothing, in minutes: as measured on four cores, for a part of it beside other work.
minutes_to_prove=44

# The repository's crates with the libraries that each uses, from crates.txt, and those that are static libraries, for programs in C.
declare -A uses
statics=()
while IFS=: read -r name libraries; do
    [[ $name == *" staticlib" ]] && statics+=("${name%% *}")
    name=${name%% *}
    [[ -n $name && $name != \#* ]] && uses[$name]=$libraries
done < "$root/crates.txt"

is_ours() { [[ -n ${uses[$1]+is} ]]; }
is_static() { [[ " ${statics[*]} " == *" $1 "* ]]; }

# Lists in `order` the repository's crates that these stand on, each behind those that it uses, and these themselves.
list_below() {
    local -A listed=()
    order=()
    local name
    for name; do
        list_one "$name"
    done
}
list_one() {
    local name=$1 library
    [[ -n ${listed[$name]:-} ]] && return
    listed[$name]=1
    for library in ${uses[$name]}; do
        is_ours "$library" && list_one "$library"
    done
    order+=("$name")
}

# Sets `words` to those by which the kit builds a crate on so many processors, over the libraries that it uses: ours are where `library_of` says.
build_words() {
    local name=$1 library order
    words=(--crate-name "$name" --jobs "$2" --links "$name=" --antt-project "$kit/rattle/logic/antt-project.json"
        --logic-built "$kit/logic_built" --extern "std=$kit/rlibs/std.rlib" -L "dependency=$kit/rlibs")
    is_static "$name" && words+=(--crate-type staticlib)
    for library in ${uses[$name]}; do
        is_ours "$library" && words+=(--extern "$library=$(library_of "$library")") || words+=(--extern "$library=$kit/rlibs/$library.rlib")
    done
    list_below "$name"
    for library in "${order[@]}"; do
        words+=(-L "dependency=$(dirname "$(library_of "$library")")")
    done
}

# The sum of the sources of a crate and of all that it stands on, and of its own sources alone. No definition of a contract and no proof
# changes an unproved build, but the script that makes it does.
sum_of() {
    local order
    list_below "$2"
    sum_of_all "$1" "${order[@]}"
}
own_sum() { sum_of_all "$1" "$2"; }
sum_of_all() {
    local kind=$1 name part folders=()
    shift
    for name; do
        for part in src specs proofs; do
            [[ -d $root/crates/$name/$part && ($kind == proved || $part == src) ]] && folders+=("crates/$name/$part")
        done
    done
    [[ $kind == unproved ]] && folders+=(tools/unproved)
    {
        for name; do
            echo "$name:${uses[$name]}"
        done
        cd "$root" && LC_ALL=C find "${folders[@]}" -type f -print0 | LC_ALL=C sort -z | xargs -0 sha256sum
    } | sha256sum | cut -c 1-16
}

# Tells the program of this kind and name that is made of the sources as they are, if it is kept. Where there is none of any sources, no
# sum is needed.
kept() {
    local program
    (cd "$root/out/$1" 2> /dev/null && compgen -G "$2-*") > /dev/null && program=$root/out/$1/$2-$(sum_of "$1" "$2") && [[ -x $program ]] && echo "$program"
}

# The same of a program without a proof, or of the one that was compiled quickly until this is there.
kept_or_quick() {
    local program
    program=$root/out/unproved/$1-$(sum_of unproved "$1")
    [[ -x $program ]] || program+=.quick
    [[ -x $program ]] && echo "$program"
}

# Keeps a program that was built of the sources with this sum in place of the earlier ones of its kind and name. If one that was compiled quickly is there, its name
# is one more for this one, since somebody may just be about to run it.
keep() {
    local kind=$1 name=$2 sum=$3 built=$4 made=$root/out/$1/$2-$3 new=$root/out/$1/new-$$ earlier
    mkdir -p "$root/out/$kind" && cp "$built" "$new" && mv "$new" "$made" || return 1
    [[ ! -e $made.quick ]] || { ln "$made" "$new" && mv "$new" "$made.quick"; } || return 1
    for earlier in "$root/out/$kind/$name"-*; do
        [[ $earlier == "$made" || $earlier == "$made.quick" ]] || rm -f "$earlier"
    done
}

# The folder of the kit whose command rt is on the PATH.
find_kit() {
    if ! command -v rt > /dev/null; then
        echo "$1: the command rt is not on the PATH. It belongs to the kit of the language Rattle, which proves and compiles this repository" >&2
        return 1
    fi
    kit=$(dirname "$(rt doc)")
}
