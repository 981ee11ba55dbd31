#!/bin/sh
# Installs radio, its page of the manual and its completions: sh install.sh [--plain] [PREFIX]
# Removes what it installed: sh install.sh --uninstall [PREFIX]
#
# PREFIX is /usr/local where none is named. DESTDIR stands before it, as for packages. Where
# radio-quick is built and runs on this processor, it is installed as radio, unless --plain is
# said.
#
# What is installed is listed, with its sums, in PREFIX/share/radio-sessions/manifest. A file that
# is there and is not listed so is somebody else's: then nothing is installed. All is made beside
# its place first; where one thing fails, everything is as before. Status: 0 done, 1 refused,
# 2 for words that it does not know.
set -u
umask 022
top=$(cd "$(dirname "$0")" && pwd) || exit 1
work='' moved='' undo='' prefix='' doing=install build=any
MANIFEST=share/radio-sessions/manifest

say() { printf 'install.sh: %s\n' "$*" >&2; }

usage() {
  echo 'usage: sh install.sh [--plain] [PREFIX] | sh install.sh --uninstall [PREFIX]' >&2
  exit 2
}

# Every file that is installed, below PREFIX. zsh looks for a package's in another folder.
files() {
  zsh=site-functions
  [ "$prefix" = /usr ] && zsh=vendor-completions
  echo bin/radio
  echo share/man/man1/radio.1
  echo share/bash-completion/completions/radio
  echo "share/zsh/$zsh/_radio"
  echo share/fish/vendor_completions.d/radio.fish
}

# Undoes what was done so far, last things first, and ends.
fail() {
  [ $# -gt 0 ] && say "$*"
  trap '' HUP INT TERM
  if [ -n "$undo" ]; then
    for file in $moved; do
      rm -f "$root/$file"
      [ -e "$root/$file.radio-old" ] && mv -f "$root/$file.radio-old" "$root/$file"
    done
    for file in $(files) $MANIFEST; do
      rm -f "$root/$file.radio-new" "$root/$file.radio-old"
    done
    remove_folders "$work/folders"
    say 'nothing is changed'
  fi
  [ -n "$work" ] && rm -rf "$work"
  exit 1
}

sum_of() { sha256sum < "$1" | cut -d ' ' -f 1; }

# Whether a file is as this script installed it.
is_ours() {
  [ -f "$root/$1" ] && [ ! -L "$root/$1" ] && [ -f "$root/$MANIFEST" ] &&
    grep -qxF "$(sum_of "$root/$1")  $1" "$root/$MANIFEST"
}

# Removes the folders that a list names, one a line, the last first, where they are empty.
remove_folders() {
  sed -n '1!G;h;$p' "$1" | while IFS= read -r folder; do
    rmdir "${DESTDIR:-}$folder" 2>/dev/null || :
  done
}

# Makes a folder and those above it, and notes which were not there.
make_folder() {
  [ -d "${DESTDIR:-}$1" ] && return
  case $1 in ?*/*) make_folder "${1%/*}" || return 1 ;; esac
  mkdir "${DESTDIR:-}$1" && printf '%s\n' "$1" >> "$work/folders"
}

# The program that this processor runs: the quick one where it tells the plain one's version.
choose() {
  plain=$top/crates/radio/out/radio quick=$top/radio-quick
  [ -f "$plain" ] || fail "$plain is not there: build it first (README.md)"
  version=$({ "$plain" --version; } 2>/dev/null) || fail "$plain does not run here"
  chosen=$plain name='the plain build'
  [ $build = plain ] || [ ! -f "$quick" ] && return
  if [ "$({ "$quick" --version; } 2>/dev/null)" = "$version" ]; then
    chosen=$quick name='the build for AVX2'
  fi
}

# Makes all that is installed in the folder of work, where nothing sees it yet.
make_all() {
  for file in $(files); do
    mkdir -p "$work/new/${file%/*}" || fail
    case $file in
      bin/*) cp "$chosen" "$work/new/$file" && chmod 755 "$work/new/$file" ;;
      */man1/*) "$chosen" man > "$work/new/$file" ;;
      */bash-completion/*) "$chosen" completions bash > "$work/new/$file" ;;
      */zsh/*) "$chosen" completions zsh > "$work/new/$file" ;;
      */fish/*) "$chosen" completions fish > "$work/new/$file" ;;
    esac || fail "$file cannot be made"
  done
}

# The manifest: the sums of the new files, of those that are replaced, and the folders made.
write_manifest() {
  for file in $(files); do printf '%s  %s\n' "$(sum_of "$work/new/$file")" "$file"; done
  [ "$1" = both ] && [ -f "$root/$MANIFEST" ] && grep '^[0-9a-f]\{64\}  ' "$root/$MANIFEST"
  {
    [ -f "$work/old" ] && grep '^folder ' "$work/old"
    sed 's/^/folder /' "$work/folders"
  } | sort -u
}

# Lays a file beside its place.
lay() {
  make_folder "$prefix/${2%/*}" && cp "$1" "$root/$2.radio-new" ||
    fail "$prefix/$2 cannot be written: be root, or name a PREFIX of your own"
}

# Gives a file that lies beside its place its name, and keeps the old one until all is done.
place() {
  if [ -e "$root/$1" ]; then
    ln -f "$root/$1" "$root/$1.radio-old" || cp -p "$root/$1" "$root/$1.radio-old" ||
      fail "$prefix/$1 cannot be put aside"
  fi
  moved="$1 $moved"
  mv -f "$root/$1.radio-new" "$root/$1" || fail "$prefix/$1 cannot be put in its place"
}

install() {
  choose
  for file in $(files); do
    if [ -e "$root/$file" ] || [ -L "$root/$file" ]; then
      is_ours "$file" || fail "$prefix/$file is there, and not from here: nothing is installed"
    fi
  done
  make_all
  undo=yes
  [ -z "${DESTDIR:-}" ] || mkdir -p "$DESTDIR" || fail "$DESTDIR cannot be made"
  [ -f "$root/$MANIFEST" ] && cp "$root/$MANIFEST" "$work/old"
  for file in $(files); do lay "$work/new/$file" "$file"; done
  chmod 755 "$root/bin/radio.radio-new" || fail
  make_folder "$prefix/${MANIFEST%/*}" || fail "$prefix/$MANIFEST cannot be written"
  # a run that is killed from here on leaves files that one of the sums fits
  write_manifest both > "$work/manifest" && lay "$work/manifest" $MANIFEST
  place $MANIFEST
  for file in $(files); do place "$file"; done
  write_manifest new > "$work/manifest" && cp "$work/manifest" "$root/$MANIFEST.radio-new" || fail
  mv -f "$root/$MANIFEST.radio-new" "$root/$MANIFEST" || fail
  trap '' HUP INT TERM
  for file in $moved; do rm -f "$root/$file.radio-old"; done
  echo "installed $version, $name, below $prefix"
}

uninstall() {
  [ -f "$root/$MANIFEST" ] || fail "nothing from here is installed below $prefix"
  left=0
  grep '^[0-9a-f]\{64\}  ' "$root/$MANIFEST" | cut -c 67- | sort -u > "$work/files"
  while IFS= read -r file; do
    if is_ours "$file"; then
      rm -f "$root/$file" || fail "$prefix/$file cannot be removed"
    elif [ -e "$root/$file" ]; then
      say "$prefix/$file was changed since, and stays"
      left=1
    fi
  done < "$work/files"
  sed -n 's/^folder //p' "$root/$MANIFEST" | sort > "$work/folders"
  rm -f "$root/$MANIFEST" || fail "$prefix/$MANIFEST cannot be removed"
  remove_folders "$work/folders"
  [ $left = 0 ] && echo "radio is removed from $prefix"
  rm -rf "$work"
  exit $left
}

for word in "$@"; do
  case $word in
    --uninstall) doing=uninstall ;;
    --plain) build=plain ;;
    -*) usage ;;
    '' | *'
'*) usage ;;
    *) [ -z "$prefix" ] || usage; prefix=$word ;;
  esac
done
prefix=${prefix:-/usr/local}
case $prefix in /*) ;; *) prefix=$(pwd)/$prefix ;; esac
case $prefix in /?*/) prefix=${prefix%/} ;; esac
root=${DESTDIR:-}$prefix
work=$(mktemp -d) || exit 1
: > "$work/folders"
trap 'fail interrupted' HUP INT TERM
$doing
rm -rf "$work"
