#!/usr/bin/env bash
# Proof economy: what each crate holds, in lines without blank and comment lines, and the sums.
#   code         src/*.rt but for contracts and ghost imports
#   contracts    lines of src/*.rt that are a requires, an ensures or a ghost import
#   definitions  specs/*.antt: what the contracts cite
#   laws         proofs/*.antt: what is proved once and cited
#   by function  proofs/**/Answers.antt, Invariants.antt: what is left of each function's own proof
set -u
CDPATH='' cd -- "$(dirname -- "${BASH_SOURCE[0]}")/.." || exit 2

lines() { # COMMENT_MARK FILE...: lines that are neither blank nor a comment
    local mark=$1
    shift
    (($# > 0)) || { echo 0; return; }
    cat -- "$@" | grep -v -c -E "^[[:space:]]*($mark|$)"
}
ghost='^[[:space:]]*(ghost |requires |ensures )'

shopt -s nullglob globstar
row='%-10s %5s %9s %11s %5s %11s %9s %5s\n'
# shellcheck disable=SC2059
printf "$row" crate code contracts definitions laws 'by function' functions edits
sums=(0 0 0 0 0 0 0)
while IFS=: read -r crate _; do
    crate=${crate%% *}
    [[ -z $crate || $crate == \#* ]] && continue
    src=(crates/"$crate"/src/**/*.rt)
    all=$(lines '//' "${src[@]}")
    contracts=$(cat "${src[@]}" | grep -c -E "$ghost")
    specs=(crates/"$crate"/specs/*.antt)
    laws=(crates/"$crate"/proofs/*.antt)
    own=(crates/"$crate"/proofs/**/Answers.antt crates/"$crate"/proofs/**/Invariants.antt)
    functions=$(cat "${src[@]}" | grep -c -E '^(pub )?(extern "C" )?fn ')
    edits=(crates/"$crate"/must-fail/*.edit)
    cells=($((all - contracts)) "$contracts" "$(lines -- "${specs[@]}")" "$(lines -- "${laws[@]}")" "$(lines -- "${own[@]}")" "$functions" "${#edits[@]}")
    # shellcheck disable=SC2059
    printf "$row" "$crate" "${cells[@]}"
    for i in "${!cells[@]}"; do sums[i]=$((sums[i] + cells[i])); done
done <crates.txt
# shellcheck disable=SC2059
printf "$row" all "${sums[@]}"
