#!/usr/bin/env bash
# Measures the proved library beside OpenSSL and libsodium, and prints a table.
# CAPI names an archive to measure instead of the one that `rt lib` makes of crates/capi.
set -euo pipefail
cd "$(dirname "${BASH_SOURCE[0]}")/.."

if [ ! -e /usr/include/sodium.h ] || [ ! -e /usr/include/openssl/evp.h ]; then
    apt-get update -qq
    apt-get install -y -qq libssl-dev libsodium-dev >/dev/null
fi

if [ -n "${CAPI:-}" ]; then
    library=$CAPI
else
    library=crates/capi/out/libcapi.a
    (cd crates/capi && rt lib >/dev/null)
fi

# An exported function that allocates calls rattle_alloc and rattle_dealloc, which are the toolchain's
# C code over malloc and free. The linker takes from this archive only what is asked for.
heap=$(dirname "$(rt doc)")/c/liblibc_c.a

mkdir -p target/bench
cc -O2 -std=c11 -Wall -Wextra -o target/bench/bench bench/bench.c "$library" "$heap" -lcrypto -lsodium

sed -n 's/^model name[[:space:]]*: //p' /proc/cpuinfo | head -n 1
target/bench/bench
