#!/bin/sh
# Runs the proved program; tools/build proves and builds it first if it is not built from the files as they are. Status 70: that
# failed. It may be called through a symbolic link.
root=$(readlink -f -- "$0") && root=${root%/*} || exit 70
exec "$root/tools/build" --then "$root/out/cats" "$@"
