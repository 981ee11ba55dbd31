#!/bin/sh
# Builds a Debian package of radio: sh packaging/deb.sh [OUTDIR]
#
# The package radio-sessions has what install.sh installs, below /usr, with the plain build, which
# runs on every amd64 processor. Of the same program and version it is the same bytes each time; its
# date is SOURCE_DATE_EPOCH, or else that of the last commit.
set -eu
umask 022
top=$(cd "$(dirname "$0")/.." && pwd)
out=${1:-.}
version=$("$top/crates/radio/out/radio" --version | cut -d " " -f 2)
[ -n "$version" ] || { echo "deb.sh: build the program first (README.md)" >&2; exit 1; }
name=radio-sessions_${version}_amd64.deb
command -v dpkg-deb > /dev/null || { echo 'deb.sh: dpkg-deb is not there' >&2; exit 1; }
[ -d "$out" ] || { echo "deb.sh: $out is no folder" >&2; exit 1; }
if [ -z "${SOURCE_DATE_EPOCH:-}" ]; then
  SOURCE_DATE_EPOCH=$(git -C "$top" log -1 --format=%ct 2> /dev/null || date +%s)
fi
export SOURCE_DATE_EPOCH
stage=$(mktemp -d)
trap 'rm -rf "$stage" "$out/$name.part"' EXIT
trap 'exit 1' HUP INT TERM
chmod 755 "$stage"
DESTDIR=$stage sh "$top/install.sh" --plain /usr > /dev/null
# dpkg has a list of its own
rm -r "$stage/usr/share/radio-sessions"
gzip -9n "$stage/usr/share/man/man1/radio.1"
mkdir "$stage/DEBIAN"
(cd "$stage" && find usr -type f | LC_ALL=C sort | xargs md5sum > DEBIAN/md5sums)
size=$(find "$stage/usr" -type f -exec cat {} + | wc -c)
cat > "$stage/DEBIAN/control" << END
Package: radio-sessions
Version: $version
Architecture: amd64
Maintainer: Davonelume maintainers <maintainers@users.noreply.davonelume.example>
Installed-Size: $(((size + 1023) / 1024))
Depends: libc6
Conflicts: radio
Section: sound
Priority: optional
Description: nondestructive multitrack editor whose sessions are replicated
 Editors of one programme work offline, each on a log of edits, and exchange
 these logs as ordinary files. Everyone who has the same edits sees the same
 session and renders the same file, byte for byte.
END
find "$stage" -exec touch -h -d "@$SOURCE_DATE_EPOCH" {} +
dpkg-deb --root-owner-group -Zgzip -z9 --build "$stage" "$out/$name.part" > /dev/null
mv -f "$out/$name.part" "$out/$name"
echo "$out/$name"
