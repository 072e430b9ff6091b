# Read by every command, from the repository's root, after its one `cd`: its help, what it needs, and the one sentence
# that it ends with where a tool is missing or a word is wrong.

# stop SENTENCE: ends the command.
stop() {
  printf '%s: %s\n' "${0#./}" "$*" >&2
  exit 2
}

# helps "$@": where a word is --help, prints the command's own head comment and ends it.
helps() {
  local word
  for word in "$@"; do
    case $word in
      -h | --help)
        (cd "$OLDPWD" && sed -n '2,${/^#/!q;s/^# \{0,1\}//p}' "$0")
        exit
        ;;
    esac
  done
}
helps "$@"

# Where a tool comes from.
origin() {
  case $1 in
    rt) printf 'the Rattle kit, see README.md' ;;
    cc) printf 'Debian package gcc' ;;
    c++) printf 'Debian package g++' ;;
    ar | objdump) printf 'Debian package binutils' ;;
    sdl2-config) printf 'Debian package libsdl2-dev' ;;
    Xvfb) printf 'Debian package xvfb' ;;
    cargo | cmake | pkg-config | python3 | rustc | valgrind | xdotool) printf 'Debian package %s' "$1" ;;
    *) printf 'named by CC or CXX' ;;
  esac
}

# missing TOOL…: those that are not on the PATH, each with where it comes from; nothing where all are.
missing() {
  local tool comma=
  for tool in "$@"; do
    command -v "$tool" >/dev/null && continue
    printf '%s%s (%s)' "$comma" "$tool" "$(origin "$tool")"
    comma=', '
  done
}

# needs TOOL…: all of them are on the PATH; and for `rt`, target/ can be written.
needs() {
  local names
  names=$(missing "$@")
  [ -z "$names" ] || stop "needs what is not installed here: $names"
  [[ " $* " != *' rt '* ]] || needs_target
}

# needs_target: what is proved and built can be written to target/.
needs_target() {
  mkdir -p target 2>/dev/null && [ -z "$(find target -maxdepth 1 -type d ! -writable -print -quit)" ] ||
    stop "$PWD/target cannot be written, where what is proved and built goes: clone the repository into a folder of your own"
}

# needs_original: sets ROQSHYN_ORIGINAL, where the original's files are: as it was set, or else ../shared/docs/src beside
# the checkout.
needs_original() {
  local from
  export ROQSHYN_ORIGINAL="${ROQSHYN_ORIGINAL:-$PWD/../shared/docs/src}"
  [ -d "$ROQSHYN_ORIGINAL/Kernel" ] && return
  from=$(tr '\n' ' ' <NOTICE | sed -n 's/.* repository \([^ ]*\), commit \([^ ,]*\),.*/github.com\/\1, commit \2/p')
  stop "no files of the original under $ROQSHYN_ORIGINAL: they are from $from (NOTICE names them);" \
    "set ROQSHYN_ORIGINAL to a folder that has its Kernel/"
}

# finds_pixman: sets ROQSHYN_PIXMAN, the linker's words for pixman, of which there are none where pixman or pkg-config is
# not installed. What would be held against it is left out then.
finds_pixman() {
  ROQSHYN_PIXMAN=$(pkg-config --libs pixman-1 2>/dev/null) || ROQSHYN_PIXMAN=
  export ROQSHYN_PIXMAN
}

# takes 'WORDS' MOST "$@": at most so many words were given; WORDS names them.
takes() {
  local words=$1 most=$2
  shift 2
  [ $# -le "$most" ] || stop "it is called as ${0#./}${words:+ $words}, and not with $# words"
}

# whole NAME NUMBER: a word that is a whole number, and not 0.
whole() {
  [[ $2 =~ ^[1-9][0-9]{0,8}$ ]] || stop "$1 is a whole number from 1 to 999999999, and not '$2'"
}
