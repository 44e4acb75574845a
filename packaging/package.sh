#!/bin/sh
# Makes a Debian package of a built program.
#
#     packaging/package.sh PROGRAM [FOLDER]
#
# The package osb-broker_VERSION_ARCHITECTURE.deb is put into the folder, without one into the working folder. Its
# version is the program's own, its maintainer is $MAINTAINER ('Name <mail>'), or else the author of the last commit, and
# its dates are that commit's, where the sources are a checkout. It needs dpkg-deb, readelf, strip and python3.
set -eu

program=$1
target=${2:-.}
here=$(cd "$(dirname "$0")" && pwd)
checkout=$(dirname "$here")
maintainer=${MAINTAINER:-$(git -C "$checkout" log -1 --format='%an <%ae>' 2>/dev/null || echo 'Nobody <nobody@localhost>')}
version=$("$program" --version | cut -d ' ' -f 2)
architecture=$(dpkg --print-architecture)
commit=$(git -C "$checkout" rev-parse --short HEAD 2>/dev/null || echo 'not known')
SOURCE_DATE_EPOCH=$(git -C "$checkout" log -1 --format=%ct 2>/dev/null || date +%s)
export SOURCE_DATE_EPOCH
date=$(LC_ALL=C date -R -d "@$SOURCE_DATE_EPOCH")

umask 022
root=$(mktemp -d)
trap 'rm -rf "$root"' EXIT
chmod 755 "$root"
doc=$root/usr/share/doc/osb-broker

fill() {
    sed -e "s|@VERSION@|$version|; s|@ARCHITECTURE@|$architecture|; s|@MAINTAINER@|$maintainer|" \
        -e "s|@YEAR@|$(date -d "$date" +%Y)|; s|@DATE@|$(LC_ALL=C date -d "$date" '+%B %-d, %Y')|" \
        -e "s|@SIZE@|$(du -ks "$root" | cut -f 1)|; s|@LIBC@|${libc:-}|" "$1"
}

install -D -m 755 -s "$program" "$root/usr/bin/osb-broker"
install -D -m 644 -t "$root/lib/systemd/system" "$here/osb-broker.service" "$here/osb-broker@.service"
mkdir -p "$doc/examples" "$root/usr/share/man/man1" "$root/DEBIAN"
fill "$here/osb-broker.1" | gzip -9n > "$root/usr/share/man/man1/osb-broker.1.gz"
for each in settings.json queues.json postgresql.json resent.http nginx.conf nginx-kept.conf haproxy.cfg haproxy-kept.cfg haproxy-shards.cfg \
    osb-backend.service drbd-osb.res standby.conf kubernetes.yaml; do
    install -m 644 "$checkout/examples/$each" "$doc/examples"
done
install -m 755 "$checkout/examples/"*.py "$checkout/examples/osb-fence-peer" "$checkout/examples/osb-take-over" "$doc/examples"
"$here/pages.py" "$doc"
fill "$here/debian/copyright" > "$doc/copyright"
printf 'osb-broker (%s) unstable; urgency=medium\n\n  * Commit %s.\n\n -- %s  %s\n' \
    "$version" "$commit" "$maintainer" "$date" | gzip -9n > "$doc/changelog.gz"

# It links to the C library only, in the version of the newest symbol that it uses.
libc=$(readelf -V "$root/usr/bin/osb-broker" | grep -o 'GLIBC_[0-9.]*' | sort -uV | tail -1 | cut -d _ -f 2)
fill "$here/debian/control" > "$root/DEBIAN/control"
(cd "$root" && find usr lib -type f -print0 | sort -z | xargs -0 md5sum > DEBIAN/md5sums)
for script in postinst prerm postrm; do
    install -m 755 "$here/debian/$script" "$root/DEBIAN"
done
package=$target/osb-broker_${version}_$architecture.deb
dpkg-deb --root-owner-group -Zxz --build "$root" "$package" >/dev/null
echo "$package"
