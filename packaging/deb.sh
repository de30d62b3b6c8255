#!/usr/bin/env bash
# Builds a Debian package of the shipped program, and prints its path. It needs dpkg-deb.
#
#   packaging/deb.sh [FOLDER]     FOLDER: where the package is put, the working folder where none is given
#
# Its version is what the program says of itself, or VERSION; MAINTAINER says who made it. The same program and pages make the same bytes, at any
# time and in any folder: SOURCE_DATE_EPOCH says which time all files have, without it that of the last commit.
set -euo pipefail
umask 022
export LC_ALL=C TZ=UTC
top=$(cd -- "$(dirname -- "$(readlink -f -- "${BASH_SOURCE[0]}")")/.." && pwd)
folder=$(realpath -- "${1:-.}")
version=${VERSION:-$("$top/dist/dagrun" version | cut -d ' ' -f 2)}
epoch=${SOURCE_DATE_EPOCH:-$(git -C "$top" log -1 --format=%ct 2>/dev/null || stat -c %Y "$top/dist/dagrun")}
stage=$(mktemp -d)
trap 'rm -rf "$stage"' EXIT
chmod 755 "$stage"

"$top/install.sh" --condor "$stage/usr" >/dev/null
# Where Debian has zsh look for completions of packages.
mkdir -p "$stage/usr/share/zsh/vendor-completions" "$stage/DEBIAN"
mv "$stage/usr/share/zsh/site-functions/_dagrun" "$stage/usr/share/zsh/vendor-completions/_dagrun"
rmdir "$stage/usr/share/zsh/site-functions"
gzip -9n "$stage"/usr/share/man/man1/*.1
# A program that is linked dynamically names its loader, and needs the C library that it was linked to.
depends=
if grep -q /lib64/ld-linux-x86-64.so.2 "$top/dist/dagrun"; then depends='Depends: libc6 (>= 2.34)'; fi
# In KiB, of the bytes of the files: what folders and blocks take differs from one file system to the next.
size=$(find "$stage/usr" -type f -printf '%s\n' | awk '{ sum += $1 } END { print int((sum + 1023) / 1024) }')
sed '/^$/d' >"$stage/DEBIAN/control" <<END
Package: dagrun
Version: $version
Architecture: amd64
Maintainer: ${MAINTAINER:-dagrun <root@localhost>}
Installed-Size: $size
$depends
Suggests: slurm-client, openssh-client
Section: science
Priority: optional
Description: workflow manager for job graphs on one machine
 dagrun runs graphs of dependent jobs in the language of HTCondor's DAGMan,
 with retries, limits, rescue files and a journal by which a run goes on
 after a crash.
END
find "$stage" -type d -exec chmod 755 {} +
find "$stage" -exec touch -h -d "@$epoch" {} +
package=$folder/dagrun_${version}_amd64.deb
# One thread: how many there are changes what xz writes.
SOURCE_DATE_EPOCH=$epoch DPKG_DEB_THREADS_MAX=1 dpkg-deb -Zxz --root-owner-group --build "$stage" "$package" >/dev/null
echo "$package"
