#!/bin/sh
# Makes a Debian package of the program, the companion, their man pages and completions: sh tools/deb.sh. It prints its path.
: "${DEB_FOLDER:=out}"
tree=out/deb
version=$(sed -n 's/^__version__ = "\(.*\)"$/\1/p' companion/si_history/__init__.py)

if ! command -v dpkg-deb >/dev/null 2>&1; then
    echo "make deb: there is no command dpkg-deb" >&2
    exit 1
fi
umask 022
rm -rf "$tree"
DESTDIR=$tree PREFIX=/usr sh tools/install.sh >out/deb.log 2>&1 || {
    cat out/deb.log >&2
    exit 1
}
# The manifests are for make uninstall. Here dpkg knows what is installed.
rm -f "$tree"/usr/share/si_audit/*.manifest
share=$tree/usr/share
docs=$share/doc/si-audit
mkdir -p "$docs" "$tree/DEBIAN" "$DEB_FOLDER" || exit 1
# Debian's zsh looks for what packages complete in a folder of its own.
mv "$share/zsh/site-functions" "$share/zsh/vendor-completions" || exit 1
cp packaging/copyright LICENSE-MIT LICENSE-APACHE LICENSE-THIRD-PARTY "$docs" && gzip -9n -c CHANGELOG.md >"$docs/changelog.gz" || exit 1
gzip -9n "$share"/man/man1/*.1 || exit 1
cp packaging/prerm "$tree/DEBIAN/prerm" && chmod -R u=rwX,go=rX "$tree" && chmod 755 "$tree/DEBIAN/prerm" || exit 1
size=$(du -sk "$tree/usr" | cut -f 1)
sed -e "s/@VERSION@/$version/" -e "s/@SIZE@/$size/" packaging/control >"$tree/DEBIAN/control" || exit 1
deb=$DEB_FOLDER/si-audit_${version}_amd64.deb
dpkg-deb --root-owner-group --build "$tree" "$deb" >out/deb.log 2>&1 || {
    cat out/deb.log >&2
    exit 1
}
rm -rf "$tree"
echo "$deb"
