#!/usr/bin/env bash
# places.sh: what `make install` and `make uninstall` do to the places that they are given, and what `make` leaves outside of the tree. Names have
# blanks and quotes in them, folders that were there keep their modes, and files of others stay.
set -euo pipefail
make="${MAKE:-make} --no-print-directory"
work=$(mktemp -d)
trap 'rm -rf "$work"' EXIT
fails() { echo "places: $*"; exit 1; }
runs() { "$@" 2> "$work/said" || { cat "$work/said"; fails "status $? of ${*:2}"; }; }
all() { (cd "$1" && find . -printf '%y %m %p\n' | sort); }

# beside a file whose name is the part before the blank, in folders of modes of their own, by a caller who lets nobody read
at="$work/a/my stuff's"
mkdir -p "$work/a" "$at/lib" "$at/include" "$at/share/man"
echo kept > "$work/a/my"
chmod 700 "$at/lib"
chmod 2775 "$at/share"
chmod 711 "$at"
before=$(all "$work/a")
tree=$(ls -A)
(umask 077 && runs $make install "PREFIX=$at")
[ "$(ls -A)" = "$tree" ] || fails 'install wrote into the tree'
for mode in '700 lib' '2775 share' '711 .' '755 bin' '755 lib/pkgconfig' '755 libexec/mulgreddi'; do
    [ "$(stat -c %a "$at/${mode#* }")" = "${mode% *}" ] || fails "the mode of ${mode#* } is $(stat -c %a "$at/${mode#* }")"
done
unread=$(find "$at" -type f -not -perm -444)
[ -z "$unread" ] || fails "not for all to read: $unread"
[ "$("$at/bin/mulgreddi" --version)" = "$(build/mulgreddi --version)" ]
diff <("$at/bin/mulgreddi-listing" < examples/F.rule) <(build/mulgreddi list examples/F.rule)
if command -v pkg-config > /dev/null; then
    [ "$(PKG_CONFIG_PATH=$at/lib/pkgconfig pkg-config --variable=prefix mulgreddi)" = "$at" ] || fails 'the prefix of the pkg-config file'
    eval "flags=($(PKG_CONFIG_PATH=$at/lib/pkgconfig pkg-config --cflags mulgreddi))"
    [ "${flags[0]}" = "-I$at/include" ] || fails "the flags ${flags[*]}"
fi
# an earlier version's library goes too; what only looks like one does not; nor a folder that was there
touch "$at/lib/libmulgreddi.so.1.0.0" "$at/lib/libmulgreddi.so.1" "$at/lib/libmulgreddi.so.2.2.0.kept"
runs $make install "PREFIX=$at"
runs $make uninstall "PREFIX=$at"
rm "$at/lib/libmulgreddi.so.2.2.0.kept" || fails 'a file that is no library went'
diff <(echo "$before") <(all "$work/a") || fails 'uninstall left another tree than there was'

# staged: all folders were made, so all go, but one that has something else in it
stage="$work/to  pack"
runs $make install "DESTDIR=$stage" "PREFIX=/opt/my stuff"
grep -qx 'prefix=/opt/my stuff' "$stage/opt/my stuff/lib/pkgconfig/mulgreddi.pc"
cp -r "$stage/opt/my stuff" "$work/moved"
echo kept > "$stage/opt/my stuff/bin/other"
runs $make uninstall "DESTDIR=$stage" "PREFIX=/opt/my stuff"
[ "$(cd "$stage" && find . -type f)" = './opt/my stuff/bin/other' ] || fails "staged: left are $(find "$stage")"
rm "$stage/opt/my stuff/bin/other"
# the notes that came with a tree that was moved are about other folders
runs $make uninstall "PREFIX=$work/moved"
[ -z "$(find "$work/moved" -not -type d)" ] && [ -d "$work/moved/bin" ] && [ -d "$stage/opt/my stuff/bin" ] || fails 'a moved tree'
rm -rf "$stage"
runs $make install "DESTDIR=$stage" "PREFIX=/opt/my stuff"
runs $make uninstall "DESTDIR=$stage" "PREFIX=/opt/my stuff"
[ ! -e "$stage" ] || fails "folders are left: $(find "$stage")"

# the folder of a check is gone when it has ended, by itself or by a signal; `make help` makes none
mkdir "$work/tmp"
status=0
folder=$(TMPDIR=$work/tmp tools/scratch.sh bash -c 'echo "$TMPDIR"; touch "$TMPDIR/x"; exit 5') || status=$?
[ $status = 5 ] && [[ $folder == "$work/tmp"/* ]] && [ -z "$(ls -A "$work/tmp")" ] || fails 'scratch.sh left its folder, or lost the status'
folder=$(env -u TMPDIR tools/scratch.sh bash -c 'echo "$TMPDIR"; touch "$TMPDIR/x"')
[ -n "$folder" ] && [ ! -e "$folder" ] || fails "scratch.sh left $folder"
{ TMPDIR=$work/tmp tools/scratch.sh bash -c 'kill -TERM $PPID'; } 2> /dev/null || status=$?
[ $status != 0 ] && [ -z "$(ls -A "$work/tmp")" ] || fails 'scratch.sh left its folder to a signal'
own() { compgen -G "/dev/shm/mulgreddi-$(id -u)-$(printf '%s' "$PWD" | cksum | cut -d' ' -f1)*" || true; }
there=$(own)
env -u TMPDIR $make help > /dev/null
[ "$(own)" = "$there" ] || fails '`make help` left a folder in memory'
echo 'places: names with blanks, modes, earlier libraries, folders made; nothing is left outside of the tree'
