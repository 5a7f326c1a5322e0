#!/usr/bin/env bash
# Builds the C examples into the folder that is named, over the static library and the kit's three allocator functions:
#     build.sh LIBRARY.a LIBC.a FOLDER
# where LIBRARY.a is crates/lock_runtime_c/out/liblock_runtime_c.a, and LIBC.a is liblibc_c.a of the kit's folder c/. CC and CFLAGS are taken over.
set -eu
library=$1 libc=$2 to=$3
here=$(cd "$(dirname "$0")" && pwd)
mkdir -p "$to"
for name in counter buffer misuse measure; do
    # shellcheck disable=SC2086
    ${CC:-cc} -std=c11 -D_DEFAULT_SOURCE -Wall -Wextra ${CFLAGS:--O2} -I "$here/../../include" \
        "$here/$name.c" "$library" "$libc" -lpthread -o "$to/$name"
done
