# shellcheck shell=bash
# What the scripts share that measure a crate by a small program, which they source. The program is made in a copy of the repository,
# since a source file stands only in a crate.
#
#   begin COMMIT LIBRARIES CRATES..   makes the copy of these crates as they stand in the commit, with a program that uses the
#                                     libraries, whose main.rt is to be written to $main
#   build                             proves and builds it, as $program
#   instructions WORDS..              the instructions of a run with these words
cd "$(dirname "$(readlink -f "${BASH_SOURCE[0]}")")/.."
copy=$(mktemp -d)
trap 'rm -rf "$copy"' EXIT
main=$copy/crates/rounds/src/main.rt
program=$copy/crates/rounds/out/rounds

# Libraries of these crates that are built here: rt takes those that were made from the same sources.
kept() {
  local name
  for name in "$@"; do
    [ -d "crates/$name/out/rlib" ] || continue
    mkdir -p "$copy/crates/$name/out"
    cp -al "crates/$name/out/rlib" "$copy/crates/$name/out/" 2>/dev/null || cp -a "crates/$name/out/rlib" "$copy/crates/$name/out/"
  done
}

begin() {
  local commit=$1 libraries=$2 names
  shift 2
  git archive "$commit" "${@/#/crates/}" crates.txt | tar -x -C "$copy"
  kept "$@"
  names=$(printf '%s|' "$@")
  grep -E "^(${names%|}):" "$copy/crates.txt" >"$copy/listed"
  mv "$copy/listed" "$copy/crates.txt"
  (cd "$copy" && rt new crates/rounds start_io >/dev/null)
  rm -rf "$copy"/crates/rounds/{src,stdin,stdout,proofs,specs,BUILD.bazel} "$copy"/{BUILD,MODULE}.bazel
  mkdir "$copy/crates/rounds/src"
  echo "rounds: $libraries" >>"$copy/crates.txt"
}

build() {
  (cd "$copy/crates/rounds" && rt run >"$copy/log" 2>&1) || { cat "$copy/log" >&2; exit 1; }
}

instructions() {
  valgrind --tool=callgrind --callgrind-out-file=/dev/null "$program" "$@" 2>"$copy/err" >/dev/null
  awk '/Collected/ { print $4 }' "$copy/err"
}
