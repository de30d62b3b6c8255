#!/usr/bin/env bash
# Makes a release of the last commit: a tar.gz, a Debian package, and their sums. It needs git, tar, gzip and dpkg-deb.
#
#   packaging/release.sh [FOLDER]     FOLDER: where they are put, the working folder where none is given
#
# What is not committed is no part of it. Of one commit the same tools make the same bytes at any time, in any clone: names are sorted, all files
# have the time of the commit and belong to number 0, and their modes are fixed. The version is what the program says of itself.
# With DAGRUN_DYNAMIC=1 a program that is linked dynamically is taken, too: it doesn't run everywhere, and no release has one.
set -euo pipefail
umask 022
export LC_ALL=C TZ=UTC
top=$(cd -- "$(dirname -- "$(readlink -f -- "${BASH_SOURCE[0]}")")/.." && pwd)
folder=$(realpath -- "${1:-.}")

# Ends with a line on standard error.
refuse() {
    printf 'release.sh: %s\n' "$1" >&2
    exit 1
}

for tool in git tar gzip dpkg-deb sha256sum; do
    if ! command -v "$tool" >/dev/null; then refuse "$tool is missing"; fi
done
if [ ! -d "$folder" ]; then refuse "there is no folder $folder"; fi
if ! SOURCE_DATE_EPOCH=$(git -C "$top" log -1 --format=%ct 2>/dev/null); then
    refuse "$top is no clone: git says which files are a release, and when they were committed"
fi
export SOURCE_DATE_EPOCH
stage=$(mktemp -d)
trap 'rm -rf "$stage"' EXIT
chmod 755 "$stage"

mkdir "$stage/clone"
git -C "$top" archive HEAD | tar -x -C "$stage/clone"
cd -- "$stage/clone"
if grep -q /lib64/ld-linux-x86-64.so.2 dist/dagrun && [ "${DAGRUN_DYNAMIC-}" != 1 ]; then
    refuse 'dist/dagrun is linked dynamically: ./dist.sh links it statically'
fi
version=$(dist/dagrun version | cut -d ' ' -f 2)
if ! grep -q "^version: $version\$" CITATION.cff; then refuse "CITATION.cff has another version than the program, which is $version"; fi
# Before 1.0.0 the parts of the page are days.
case $version in
0.*) ;;
*) if ! grep -q "^## $version\b" CHANGELOG.md; then refuse "CHANGELOG.md has no part '## $version'"; fi ;;
esac

# What whoever doesn't change dagrun has a use for. The object file is there for those who link it with another C library (NOTICE).
parts=(dagrun install.sh dist/dagrun dist/SOURCES packaging/man packaging/completion packaging/condor_submit_dag examples docs README.md
    CHANGELOG.md NOTICE SECURITY.md CITATION.cff)
for part in dist/dagrun.o launchers LICENSE; do
    if [ -e "$part" ]; then parts+=("$part"); fi
done
name=dagrun-$version-linux-x86_64
mkdir "$stage/$name"
cp -a --parents "${parts[@]}" "$stage/$name/"
tar -c -C "$stage" --sort=name --format=ustar --mtime="@$SOURCE_DATE_EPOCH" --owner=0 --group=0 --numeric-owner --mode=u=rwX,go=rX "$name" |
    gzip -9n >"$folder/$name.tar.gz"
package=$(VERSION=$version packaging/deb.sh "$folder")
cd -- "$folder"
sha256sum "$name.tar.gz" "${package##*/}" >"dagrun-$version.sha256"
printf '%s\n' "$folder/$name.tar.gz" "$package" "$folder/dagrun-$version.sha256"
