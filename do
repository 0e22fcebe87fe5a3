#!/usr/bin/env bash
# The commands of the repository. Without a name it lists them; what stands after a name goes to its script.
set -euo pipefail
self=$(readlink -f "${BASH_SOURCE[0]}")
cd "$(dirname "$self")"

build() {
    NORILADLE_ANEW=1 ./gs1_hub --version
    bindings/python/build
    page/build
}

case ${1:-} in
    build) build "${@:2}" ;; #                        make the program, the Python module and the web page ready for use
    test) tests/run "${@:2}" ;; #                     run tests; [fast, all or NAME..]: without a name list them
    bench) bench/run "${@:2}" ;; #                    measure the program; [--against PROGRAM]
    limit) bench/limit "${@:2}" ;; #                  compare the program with what C needs at least
    docs) docs/build "${@:2}" ;; #                    make the site of the pages; [--check or FOLDER]
    package) package/build "${@:2}" ;; #              make the packages; [--key KEY] [FOLDER]
    prove) rt all check "${@:2}" ;; #                 prove every crate, over what earlier checks kept
    edits) tests/edits/run "${@:2}" ;; #              try each must-fail edit by itself; [CRATE..]
    gate) .ci/run "${@:2}" ;; #                       the gate: all proofs, edits and tests; [--anew: take nothing from earlier runs]
    release) package/release "${@:2}" ;; #            prove and build what release/ has; [FOLDER]
    *)
        echo "Usage: ./do NAME [WORDS..]"
        sed -nE 's/^    ([a-z]+)\) (.*) "[^"]*" ;; # +(.*)/\1|\2|\3/p' "$self" |
            awk -F'|' '{ printf "  %-9s %-16s %s\n", $1, $2, $3 }'
        [ $# -eq 0 ]
        ;;
esac
