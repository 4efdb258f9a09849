#!/bin/sh
# Writes what can be installed into dist/, or into the folder that is named: a wheel, a tar and a Debian package of the shipped
# programs, with man page, completions, examples and checksums.
#
#     tools/release.sh [FOLDER]
#
# What comes before it is in docs/build/adding.md.
# It needs dpkg-deb, and a Python with pip, setuptools and wheel; on Debian: apt install python3-pip python3-setuptools python3-wheel
set -eu
top=$(CDPATH='' cd -- "$(dirname -- "$0")/.." && pwd)
mkdir -p "${1:-$top/dist}"
dist=$(CDPATH='' cd -- "${1:-$top/dist}" && pwd)
cd "$top"
if [ ! -r python/stabsim/programs/shipped.txt ]; then
    echo "release: no program is shipped: run tools/ship.sh" >&2
    exit 1
fi
version=$(sed -n 's/^version //p' python/stabsim/programs/shipped.txt)
python=$(tools/find_python.sh setuptools wheel pip)
made=$(mktemp -d)
trap 'rm -rf "$made"' EXIT
trap 'exit 130' INT TERM

# Puts program, man page, completions and examples below a folder.
install_below() {
    install -d "$1/bin" "$1/lib/stabsim" "$1/share/doc/stabsim"
    install -m 755 python/stabsim/programs/* "$1/lib/stabsim"
    chmod 644 "$1/lib/stabsim/shipped.txt"
    ln -s ../lib/stabsim/stabsim "$1/bin/stabsim"
    install -D -m 644 man/stabsim.1 "$1/share/man/man1/stabsim.1"
    install -D -m 644 completions/stabsim.bash "$1/share/bash-completion/completions/stabsim"
    install -D -m 644 completions/_stabsim "$1/share/zsh/$2/_stabsim"
    cp -R examples "$1/share/doc/stabsim/examples"
    # Examples run the stabsim that is beside their folder.
    ln -s ../../../bin/stabsim "$1/share/doc/stabsim/stabsim"
    find "$1/share/doc/stabsim" -name __pycache__ -prune -exec rm -r {} +
}

# A build leaves files beside the sources, which would come into the next wheel, so it is made of copies.
mkdir "$made/source"
cp -R python man completions docs examples "$made/source"
rm -rf "$made/source/python/build" "$made/source/python"/*.egg-info
find "$made/source" -name __pycache__ -prune -exec rm -r {} +
"$python" -m pip wheel --quiet --no-deps --no-index --no-build-isolation -w "$dist" "$made/source/python"

name=stabsim-$version-x86_64-linux
install_below "$made/$name" site-functions
(cd "$made/$name" && find . -type f ! -name SHA256SUMS | LC_ALL=C sort | xargs sha256sum >"$made/SHA256SUMS")
mv "$made/SHA256SUMS" "$made/$name"
tar -C "$made" --sort=name --owner=0 --group=0 --numeric-owner -czf "$dist/$name.tar.gz" "$name"

package=$made/package
install_below "$package/usr" vendor-completions
gzip -9 -n "$package/usr/share/man/man1/stabsim.1"
mkdir "$package/DEBIAN"
(cd "$package" && find usr -type f | LC_ALL=C sort | xargs md5sum >DEBIAN/md5sums)
cat >"$package/DEBIAN/control" <<END_OF_CONTROL
Package: stabsim
Version: $version
Architecture: amd64
Maintainer: the makers of stabsim <stabsim@localhost>
Depends: libc6 (>= 2.34)
Section: science
Priority: optional
Description: proved simulator of Clifford circuits
 It reads circuits in the text of Stim without noise, samples them, and
 edits them with their recorded runs. What it answers is proved right.
END_OF_CONTROL
dpkg-deb --build --root-owner-group "$package" "$dist/stabsim_${version}_amd64.deb" >/dev/null
(cd "$dist" && ls -1 "stabsim-$version"*.whl "$name.tar.gz" "stabsim_${version}_amd64.deb")
