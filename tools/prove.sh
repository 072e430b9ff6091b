# Read by the commands that need a proved program or archive, from the repository's root.
replay=crates/replay/out/replay
archive=crates/roqshyn/out/libroqshyn.a

# crates_of CRATE: those that it rests on, each behind those that it uses, and itself.
crates_of() {
  local name=$1 used
  [[ " ${seen:-} " != *" $name "* ]] || return 0
  for used in $(sed -n "s/^$name\( staticlib\)\?: *//p" crates.txt); do
    [ ! -d "crates/$used" ] || crates_of "$used"
  done
  [[ " ${seen:-} " == *" $name "* ]] || { seen+=" $name" && printf '%s\n' "$name"; }
}

# stale FILE: it is missing, or older than a file that it may come from.
stale() {
  [ ! -f "$1" ] || [ -n "$(find crates crates.txt -path 'crates/*/out' -prune -o \
    -path 'crates/*/must-fail' -prune -o \( -type f -o -path 'crates/*/*' \) -newer "$1" -print -quit)" ]
}

# announce WHAT: says of a proof that begins how long it may take.
announce() {
  printf 'proving and building %s: from nothing this takes long, %s\n' "$1" \
    'after an edit as long as what it touches' >&2
}

# prove replay, or prove roqshyn: the program, or the archive, as `rt` proves and builds it, in the crate's out/. What it
# says is on standard error: its own lines, and where the crate is not proved all.
prove() {
  local made verb
  case $1 in
    replay) made=$replay verb=run ;;
    roqshyn) made=$archive verb=lib ;;
  esac
  stale "$made" || return 0
  announce "$1, $(seen='' crates_of "$1" | wc -l) crates in all"
  (cd "crates/$1" && rt "$verb" </dev/null 2>&1) | alive 20 | told >&2
  # It stays where nothing has changed.
  [ ! -f "$made" ] || touch "$made"
}

# archive_of_ci: makes the archive over the libraries that `rt ci` has left in out/. These lack the mark by which `rt lib`
# takes a library: it would prove each of them once more. Where all have it, they are those of `rt check`.
archive_of_ci() {
  local kit below name here=$PWD words=()
  below=$(seen='' crates_of roqshyn | grep -vx roqshyn)
  for name in $below; do
    [ -f "crates/$name/out/rlib/stamp" ] || words+=("$name")
  done
  if [ ${#words[@]} -eq 0 ]; then
    prove roqshyn
    return
  fi
  kit=$(dirname "$(dirname "$(realpath "$(command -v rt)")")")
  words=(--extern "std=$kit/rlibs/std.rlib" -L "dependency=$kit/rlibs")
  for name in $(sed -n 's/^roqshyn staticlib: *//p' crates.txt); do
    words+=(--extern "$name=$here/crates/$name/out/rlib/$name.rlib")
  done
  for name in $below; do
    words+=(-L "dependency=$here/crates/$name/out/rlib")
  done
  mkdir -p crates/roqshyn/out
  (cd crates/roqshyn && "$kit/bin/rattle" build --crate-name roqshyn src/lib.rt "${words[@]}" \
    --antt-project "$kit/rattle/logic/antt-project.json" --logic-built "$kit/logic_built" --jobs "$(nproc)" \
    --links roqshyn= --crate-type staticlib --toolchain "$kit/toolchain" --backend llvm -o "$here/$archive")
}

# alive SECONDS: hands on the lines that it reads; whenever none has come for so many seconds, says on standard error
# that the proof goes on.
alive() {
  local line= part status began=$SECONDS
  while true; do
    status=0
    IFS= read -r -t "$1" part || status=$?
    line+=$part
    if [ "$status" -eq 0 ]; then
      printf '%s\n' "$line"
      line=
    elif [ "$status" -gt 128 ]; then
      printf 'still proving, for %d s now\n' $((SECONDS - began)) >&2
    else
      printf '%s' "$line"
      return
    fi
  done
}

# told: of what `rt` says its own lines and a line for each crate that is proved; of one that is not proved all since the
# one before.
told() {
  local line said=
  while IFS= read -r line; do
    said+=$line$'\n'
    case $line in
      logic=proved*)
        printf '%s\n' "${line%% sum=*}"
        said=
        ;;
      'rt: '*) printf '%s\n' "$line" ;;
    esac
  done
  grep -v '^rt: ' <<<"$said" | grep -E 'error|not proved|no proof|^logic=' || true
}
