#!/bin/sh
# Makes a container image of a built program.
#
#     packaging/image.sh PROGRAM [NAME]
#
# Without a name it is localhost/osb-broker:VERSION, with the program's own version. The C library is that of this
# machine. It needs podman, ldd and strip.
set -eu

program=$1
name=${2:-localhost/osb-broker:$("$program" --version | cut -d ' ' -f 2)}
here=$(cd "$(dirname "$0")" && pwd)

umask 022
root=$(mktemp -d)
trap 'rm -rf "$root"' EXIT
mkdir "$root/records"
install -D -m 755 -s "$program" "$root/program/usr/bin/osb-broker"
for each in $(ldd "$program" | grep -o '/[^ ]*'); do
    install -D -m 755 "$each" "$root/program$each"
done
# Images of the other format, OCI, have no health check.
podman build --format docker -q -f "$here/Containerfile" -t "$name" "$root" >/dev/null
echo "$name"
