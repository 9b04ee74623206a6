#!/usr/bin/env bash
# install.sh install|uninstall BUILD VERSION: puts what stands in the folder BUILD to its places under $MULGREDDI_DESTDIR$MULGREDDI_PREFIX, or takes
# it away again. Both names come by the environment, so that a blank or a quote in them means nothing.
# Folders that are there stay as they are. Those that are made are noted in libexec/mulgreddi/folders: uninstall takes away these, where they are
# empty, and no others.
set -euo pipefail
shopt -s inherit_errexit
build=$2 version=$3
soname=libmulgreddi.so.${version%%.*}
case $MULGREDDI_PREFIX$MULGREDDI_DESTDIR in
*$'\n'*) echo 'PREFIX and DESTDIR are names of one line' >&2; exit 1 ;;
esac
# PREFIX may be relative: the pkg-config file has it absolute
to=$(realpath -ms -- "${MULGREDDI_PREFIX:-/}")
to=${to%/}
at=$MULGREDDI_DESTDIR$to
case $at/ in
/*) ;;
*) at=$PWD/$at ;;
esac
noted=$at/libexec/mulgreddi/folders

# mode, source, place. bin/mulgreddi-listing runs the listing program, and tells where its input cannot be read or its listing not be written
files="755 $build/mulgreddi bin/mulgreddi
755 tools/mulgreddi-listing bin/mulgreddi-listing
755 $build/listing libexec/mulgreddi/listing
755 $build/chance bin/mulgreddi-chance
644 include/mulgreddi.h include/mulgreddi.h
644 $build/libmulgreddi.a lib/libmulgreddi.a
755 $build/libmulgreddi.so.$version lib/libmulgreddi.so.$version
644 tools/completion.bash share/bash-completion/completions/mulgreddi"
written='lib/pkgconfig/mulgreddi.pc share/man/man1/mulgreddi.1'

# Makes a folder and those above it, where they are not there, and prints which.
make_folder()
{
    if [ -d "$1" ]; then return; fi
    make_folder "$(dirname -- "$1")"
    mkdir -- "$1"
    printf '%s\n' "$1"
}

place() { install -T -m "$1" -- "$2" "$at/$3"; }

put_in_place()
{
    # whatever the caller's umask is, others may read what is new
    umask 022
    local made place mode source
    made=$(make_folder "$at/libexec/mulgreddi"
        for place in $(awk '{ print $3 }' <<< "$files") $written; do make_folder "$at/$(dirname "$place")"; done)
    if [ -n "$made" ]; then printf '%s\n' "$made" >> "$noted"; fi
    while read -r mode source place; do place "$mode" "$source" "$place"; done <<< "$files"
    ln -sfn "libmulgreddi.so.$version" "$at/lib/$soname"
    ln -sfn "$soname" "$at/lib/libmulgreddi.so"
    printf '%s\n' "prefix=$to" 'Name: mulgreddi' 'Description: unambiguous Büchi automata from alternating weak ones' "Version: $version" \
        'Cflags: -I"${prefix}/include"' 'Libs: -L"${prefix}/lib" -lmulgreddi' | place 644 /dev/stdin lib/pkgconfig/mulgreddi.pc
    sed "s/@VERSION@/$version/" docs/mulgreddi.1 | place 644 /dev/stdin share/man/man1/mulgreddi.1
    echo "mulgreddi $version is installed in $at." >&2
}

# The shared library of every version, by the names that versions have.
libraries()
{
    local file
    for file in "$at"/lib/libmulgreddi.so*; do
        if [[ ${file##*/} =~ ^libmulgreddi\.so(\.[0-9]+(\.[0-9]+\.[0-9]+)?)?$ ]]; then printf '%s\n' "$file"; fi
    done
}

take_away()
{
    local made='' file folder
    if [ -f "$noted" ]; then made=$(cat -- "$noted"); fi
    for file in $(awk '{ print $3 }' <<< "$files") $written; do rm -f -- "$at/$file"; done
    libraries | while IFS= read -r file; do rm -f -- "$file"; done
    rm -f -- "$noted"
    # a folder before the one that it is in; a note from elsewhere, as a packed tree brings it, is about other folders
    printf '%s\n' "$made" "$at/libexec/mulgreddi" | LC_ALL=C sort -ru | while IFS= read -r folder; do
        if [[ $folder/ == "$at"/* || $at/ == "$folder"/* ]]; then rmdir -- "$folder" 2> /dev/null || true; fi
    done
}

case $1 in
install) put_in_place ;;
uninstall) take_away ;;
esac
