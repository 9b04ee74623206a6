#!/usr/bin/env bash
# install.sh FOLDER VERSION SONAME: installs to a relative PREFIX, works with what was installed alone, outside the source tree, and takes it away
# again.
set -euo pipefail
folder=$1 version=$2 soname=$3 here=$PWD make=${MAKE:-make}
work=$(mktemp -d)
trap 'rm -rf "$work"' EXIT
rm -rf "$folder"
$make --no-print-directory install PREFIX="$folder" 2> "$work/said" || { cat "$work/said"; exit 1; }
at=$here/$folder
cp -r examples/rules.c examples/*.rule tools "$work"
cd "$work"
grep -qx "prefix=$at" "$at/lib/pkgconfig/mulgreddi.pc"
grep -qx "Version: $version" "$at/lib/pkgconfig/mulgreddi.pc"
export PKG_CONFIG_PATH=$at/lib/pkgconfig
if command -v pkg-config > /dev/null; then
    flags=$(pkg-config --cflags mulgreddi) libs=$(pkg-config --libs mulgreddi)
else
    flags=-I$at/include libs="-L$at/lib -lmulgreddi"
fi
# the linker takes the shared library, which the loader then has to find; the archive where it is named
export LD_LIBRARY_PATH=$at/lib
archive="-L$at/lib -l:libmulgreddi.a"
${CC:-cc} -std=c11 $flags -o rules rules.c $libs
${CC:-cc} -std=c11 $flags -o rules_alone rules.c $archive
readelf -d rules | grep -qF "[$soname]"
if readelf -d rules_alone | grep -q mulgreddi; then echo 'a program linked with the archive needs the shared library'; exit 1; fi
[ "$(readlink "$at/lib/$soname")" = "libmulgreddi.so.$version" ]
diff <(./rules .) "$here/examples/rules.expected"
diff <(env -u LD_LIBRARY_PATH ./rules_alone .) "$here/examples/rules.expected"
"$here/$(dirname "$folder")/shared" "$soname"
${CC:-cc} -std=c11 -pedantic -Wall -Wextra -Werror $flags -o mulgreddi tools/*.c $libs
for program in ./mulgreddi "$at/bin/mulgreddi"; do
    [ "$($program --version)" = "mulgreddi $version" ]
    [ "$($program judge F.rule 0,1:0)" = "0,1:0 yes masks 01,01:00" ]
done
unset LD_LIBRARY_PATH
[ "$("$at/bin/mulgreddi" judge F.rule 0,1:0)" = "0,1:0 yes masks 01,01:00" ]
# README's commands for a program in C, where its $HOME/mulgreddi is what was installed
mkdir home
ln -s "$at" home/mulgreddi
ln -s "$here/examples" examples
commands=$(awk '/^<!-- program/ { on = 1 } /^<!-- end/ { on = 0 } on && sub(/^    \$ /, "")' "$here/README.md")
[ -n "$commands" ]
if command -v pkg-config > /dev/null; then
    diff <(HOME=$work/home bash -euc "$commands") "$here/examples/planner.expected"
    if ./planner nowhere > out 2> said; then echo 'planner without its folder: status 0'; exit 1; fi
    grep -q '^nowhere/F.rule cannot be read; run: planner FOLDER' said
fi
listing=$at/bin/mulgreddi-listing
diff <("$listing" < F.rule) <("$at/bin/mulgreddi" list F.rule)
# what cannot be read or written is status 3; a long input is read as far as the listing needs it, a reader may stop early
expect() { local status=0; "${@:2}" > out 2> said || status=$?; [ $status = "$1" ] || { echo "${*:2}: status $status, not $1"; exit 1; }; }
expect 3 bash -c "'$listing' < F.rule > /dev/full"
expect 3 bash -c "'$listing' < F.rule >&-"
expect 3 bash -c "'$listing' < ."
expect 3 bash -c "'$listing' <&-"
expect 3 "$listing" F.rule
expect 0 bash -c "'$listing' < /dev/zero"
expect 0 bash -c "(trap '' PIPE; '$listing' < /dev/zero)"
chance=$at/bin/mulgreddi-chance
[ "$("$chance" before.rule 3 1 0 0 | sed -n 's/^  chance \([^,]*\),.*/\1/p')" = 0.75 ]
expect 3 bash -c "'$chance' before.rule '*=1' > /dev/full"
expect 3 bash -c "'$chance' before.rule '*=1' >&-"
grep -q "mulgreddi $version" "$at/share/man/man1/mulgreddi.1"
"$here/tests/completion.sh" "$at/bin/mulgreddi" "$at/share/bash-completion/completions/mulgreddi" > /dev/null
export LD_LIBRARY_PATH=$at/lib
echo '#include <mulgreddi.h>' > plus.cc
echo 'int main() { return mulgreddi_check(reinterpret_cast<const uint8_t *>(""), 0).refusal == MULGREDDI_SHORT_FILE ? 0 : 1; }' >> plus.cc
if command -v c++ > /dev/null; then
    c++ -Wall -Wextra -Werror $flags -o plus plus.cc $libs
    ./plus
fi
cd "$here"
$make --no-print-directory uninstall PREFIX="$folder"
[ ! -e "$folder" ] || { echo "left after uninstall: $(find "$folder")"; exit 1; }
echo "installation: mulgreddi $version, used outside the source tree, and taken away again"
