# Read by the commands of this folder, from the repository's root. It sets
#   compare  the comparison's program
#   replay   our program: REPLAY, or else crates/replay/out/replay
# and need_compare or need_both builds them. The original's files are read from ROQSHYN_ORIGINAL, or else from ../shared/docs/src beside the
# checkout.
. tools/needs.sh
. tools/prove.sh
replay="${REPLAY:-$PWD/crates/replay/out/replay}"
compare="$PWD/target/compare/release/compare"

need_compare() {
  needs cargo rustc cc
  needs_original
  finds_pixman
  cargo build --release --offline --quiet --manifest-path compare/Cargo.toml --target-dir target/compare
}

# Ours is proved and built where a file has changed; another one has to be there.
need_both() {
  if [ -n "${REPLAY:-}" ]; then
    [ -f "$replay" ] && [ -x "$replay" ] || stop "REPLAY is $replay, which is no program"
    need_compare
  else
    needs rt cargo rustc cc
    need_compare
    prove replay
  fi
}
