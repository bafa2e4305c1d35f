#!/usr/bin/env bash
# Unpacks VICE, the emulator of the Commodore 64, in a folder: from the section contrib of Debian, with the libraries that
# it needs installed. Prints the folder of its programs. The ROMs of the machine are not in it. If VICE can't be had, says
# why and ends with status 1.
#
#     tools/get_vice.sh DIR
set -eu
[ $# = 1 ] || { echo "tools/get_vice.sh takes a folder" >&2; exit 2; }
fail() { echo "VICE can't be had: $*" >&2; exit 1; }
for it in apt-get dpkg-deb; do command -v "$it" >/dev/null || fail "$it is not there"; done
mkdir -p "$1/lists/partial" "$1/cache/archives/partial"
cd "$1"
as=
[ "$(id -u)" = 0 ] || as=sudo

# The first source of this system that is Debian's own: where it is, and its suite
debian() {
    # shellcheck disable=SC2016 # apt-get fills in the names
    apt-get indextargets --format '$(REPO_URI) $(RELEASE)' 'Created-By: Packages' 'Component: main' |
        awk '$1 ~ /\/debian\/?$/ { print; exit }'
}
# (they are told once the lists of packages have been fetched)
read -r uri suite < <(debian) || { $as apt-get update -qq >&2 && read -r uri suite < <(debian); } ||
    fail "this system has no source of Debian"
keys=/usr/share/keyrings/debian-archive-keyring.gpg
[ ! -r "$keys" ] || signed="[signed-by=$keys]"
echo "deb ${signed-} $uri $suite main contrib" >sources.list
own=(-o "Dir::Etc::sourcelist=$PWD/sources.list" -o Dir::Etc::sourceparts=/dev/null -o "Dir::State::lists=$PWD/lists"
    -o "Dir::Cache=$PWD/cache" -o APT::Sandbox::User=root -qq)
apt-get "${own[@]}" update >&2 || fail "$uri can't be reached"
apt-get "${own[@]}" download vice >&2 || fail "$uri $suite contrib has no vice"
dpkg-deb -x vice_*.deb .
$as env DEBIAN_FRONTEND=noninteractive apt-get "${own[@]}" satisfy -y --no-install-recommends \
    "$(dpkg-deb -f vice_*.deb Depends)" >&2 </dev/null || fail "what it needs can't be installed"
rm -rf lists cache vice_*.deb
usr/bin/x64sc --version >/dev/null 2>&1 || fail "x64sc does not start"
echo "$PWD/usr/bin"
