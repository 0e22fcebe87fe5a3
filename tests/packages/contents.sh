#!/usr/bin/env bash
# Compares what Debian packages of a folder depend on with what dpkg-shlibdeps and objdump find, and looks for pages, links, services and the menu.
#
#   tests/packages/contents.sh FOLDER
#
# Needs apt-get install binutils dpkg-dev gcc libc6-dev. Its last line is the counts.
set -euo pipefail
folder=$(realpath "$1")
work=$(mktemp -d)
trap 'rm -rf "$work"' EXIT
passed=0 failed=0

same() {
    if [ "$2" = "$3" ]; then passed=$((passed + 1)); else echo "$1: '$3', not '$2'" >&2 && failed=$((failed + 1)); fi
}

for name in noriladle libgs1-1 libgs1-dev python3-noriladle; do
    dpkg-deb -x "$folder/${name}"_*_amd64.deb "$work/$name"
    dpkg-deb -e "$folder/${name}"_*_amd64.deb "$work/$name.control"
done
printf '#include <gs1.h>\n#include <stdio.h>\nint main(void) { return puts(gs1_version()) < 0; }\n' >"$work/it.c"
cc -I"$work/libgs1-dev/usr/include" "$work/it.c" "$work"/libgs1-1/usr/lib/*/libgs1.so.1 -o "$work/it"
mkdir "$work/debian"
printf 'Source: it\n\nPackage: it\nArchitecture: amd64\n' >"$work/debian/control"
told=$(cd "$work" && dpkg-shlibdeps -O -L"$work/libgs1-1.control/shlibs" -l"$(echo "$work"/libgs1-1/usr/lib/*)" it 2>/dev/null)
same "what a program depends on" "libgs1-1 (>= 2.0.0)" "$(tr , '\n' <<<"${told#shlibs:Depends=}" | sed 's/^ *//' | grep libgs1)"
same "the calls of the header have versions" \
    "$(sed -nE 's/^[a-z].* \*?(gs1_[a-z_0-9]+)\(.*/\1/p' "$work/libgs1-dev/usr/include/gs1.h" | sort)" \
    "$(objdump -T "$work"/libgs1-1/usr/lib/*/libgs1.so.1 | sed -nE 's/.* GS1_[0-9.]+ +(gs1_.*)/\1/p' | sort)"
version=$(dpkg-deb -f "$folder"/libgs1-1_*_amd64.deb Version)
same "the version of the package has it" yes "$(dpkg --compare-versions "$version" ge 2.0.0 && echo yes)"
same "the pages of libgs1-dev" "C.md FAULTS.md" "$(cd "$work/libgs1-dev/usr/share/doc/libgs1-dev" && echo ./*.md | sed 's|\./||g')"
# The newest version of the C library that a file needs.
libc_of() {
    objdump -T "$1" | grep -o 'GLIBC_[0-9.]*' | sort -V | tail -n 1 | sed 's/GLIBC_\(.*\)/libc6 (>= \1)/'
}
same "what the program depends on" "$(libc_of "$work/noriladle/usr/bin/gs1_hub")" "$(dpkg-deb -f "$folder"/noriladle_*_amd64.deb Depends)"
same "what the library depends on" "$(libc_of "$work"/libgs1-1/usr/lib/*/libgs1.so.1)" "$(dpkg-deb -f "$folder"/libgs1-1_*_amd64.deb Depends)"

links_to_nothing() {
    (cd "$1" && grep -roE --include='*.md' '(\]\(|src=")[^()#" ]+' . | while IFS=: read -r page link; do
        target=${link#']('} target=${target#'src="'}
        [[ $target == *:* ]] || [ -e "$(dirname "$page")/$target" ] || echo "$page: $target"
    done)
}
for name in noriladle libgs1-dev; do
    same "links of $name to pages that are not there" "" "$(links_to_nothing "$work/$name/usr/share/doc/$name")"
done
same "services and the menu" "70-noriladle-scanner.rules common.conf gateway.toml noriladle-gateway.service noriladle-scanner@.service \
noriladle-worker@.service noriladle.conf noriladle.desktop noriladle.svg worker.toml" "$(cd "$work/python3-noriladle" &&
    find etc usr/lib/{systemd,udev,sysusers.d} usr/share/{applications,icons} -type f -printf '%f\n' | LC_ALL=C sort | paste -sd ' ')"
echo "$passed passed, $failed failed"
[ "$failed" -eq 0 ]
