# Read by run and test, from the repository's root, for the desk in C.
. include/build.sh
. tools/record/build.sh
parts='desk draw keep screen touch'

# object SOURCE FILE.o
object() {
  "${CC:-cc}" -std=c11 -O1 -Wall -Wextra -Werror -pedantic -I include -I examples/desk $(sdl2-config --cflags) -c "$1" -o "$2"
}

# link PROGRAM WORDS…: with the library and SDL2.
link() {
  link_with "$archive" "$@"
}

# link_recorded PROGRAM WORDS…: with the recorder too.
link_recorded() {
  build_recorder
  link_with "@$record/record.link" "$@"
}

link_with() { # LIBRARY PROGRAM WORDS…
  local library=$1 program=$2
  shift 2
  "${CC:-cc}" "$@" "$library" $(sdl2-config --libs) -z now -o "$program"
}

# record_in FILE: a recorded desk that is started then writes there. The file holds two snapshots of eight displays and
# of a wrong desk beside one of them.
record_in() {
  export ROQSHYN_RECORD=$1 ROQSHYN_RECORD_BYTES=${ROQSHYN_RECORD_BYTES:-268435456}
}
