#!/usr/bin/env bash
# Compares the proved heap with the plain one, from outside: the archive of C functions is built and linked to the
# comparing programs of peer/compare and to the C example, and the proved trace program, where it is built, is compared
# with the plain one. Each part that fails fails the script; its last line says what passed.
# HEAP_ARCHIVE_DIR names the folder of an archive that is already built. COMPARE_SEED and COMPARE_CALLS set another seed
# and a longer run.
set -u
cd "$(dirname "$0")/.." || exit 1
program=crates/play/out/play
package=(--manifest-path peer/compare/Cargo.toml --target-dir peer/compare/target)
built=peer/compare/target/release
work=$(mktemp -d)
trap 'rm -rf "$work"' EXIT

passed=()
failed=()

# part NAME COMMAND...: runs one part and notes how it went
part() {
  local name=$1
  shift
  echo "== $name"
  if "$@"; then
    passed+=("$name")
  else
    failed+=("$name")
    echo "$name failed"
  fi
}

finish() {
  local names
  names=$(printf ', %s' "${passed[@]+"${passed[@]}"}")
  if [ "${#failed[@]}" -gt 0 ]; then
    echo "did not pass: $(printf '%s. ' "${failed[@]}")"
  fi
  echo "${#passed[@]} passed, ${#failed[@]} failed: ${names:2}"
  [ "${#failed[@]}" -eq 0 ]
  exit
}

c_example() {
  "${CC:-cc}" -std=c99 -O2 -Wall -Wextra -Werror -pedantic -Iinclude -o "$work/cycle" \
    examples/cycle.c "$HEAP_ARCHIVE_DIR/libheap.a" &&
    "$work/cycle" > "$work/cycle.out"
  local status=$?
  tail -n 1 "$work/cycle.out"
  return "$status"
}

if [ -z "${HEAP_ARCHIVE_DIR:-}" ]; then
  part "archive" tools/archive
  export HEAP_ARCHIVE_DIR=$PWD/target/staticlib
fi
# without the archive nothing below can be linked
if [ ! -f "$HEAP_ARCHIVE_DIR/libheap.a" ]; then
  failed+=("no libheap.a to link")
  finish
fi

part "C example" c_example
part "comparing programs built" cargo build --release "${package[@]}"
if [ -x "$built/compare" ] && [ -x "$built/traces" ]; then
  part "their own tests" cargo test --release --quiet "${package[@]}"
  part "wrong heaps found out" "$built/compare" --self-check
  part "heaps equal" "$built/compare"
  if [ -x "$program" ]; then
    part "trace programs equal" "$built/traces" --play "$program"
  else
    echo "== $program is not built (rt run in crates/play, or rt ci): no trace was compared"
  fi
fi
finish
