#!/usr/bin/env bash
# Builds the archives and the programs of the proved crates: target/staticlib/libgazrieksne.a with the C calls, target/staticlib/libprogram.a with the two
# programs as calls for C, and target/bin/plan, target/bin/tidy_sheet and target/bin/describe. What is not proved yet is proved first.
set -euo pipefail
cd "$(dirname "$0")/.."
mkdir -p target/staticlib target/bin
for crate in gazrieksne program_c; do
    (cd "crates/$crate" && rt lib)
done
cp crates/gazrieksne/out/libgazrieksne.a target/staticlib/libgazrieksne.a
cp crates/program_c/out/libprogram_c.a target/staticlib/libprogram.a
for program in plan tidy_sheet describe; do
    (cd "crates/$program" && rt run < stdin > /dev/null)
    cp "crates/$program/out/$program" target/bin/
done
