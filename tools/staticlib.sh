#!/usr/bin/env bash
# Proves the crate rascal_c, builds it as a static library, and puts that under the name that its callers link: target/staticlib/librascal.a.
set -e
cd "$(dirname "$0")/.."
(cd crates/rascal_c && rt lib)
mkdir -p target/staticlib
cp crates/rascal_c/out/librascal_c.a target/staticlib/librascal.a
