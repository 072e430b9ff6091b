# Read by the commands that record or play, from the repository's root, after include/build.sh. Both are built in
# target/record, where they are older than a file that they come from.
record=target/record
strict=(-std=c11 -O2 -Wall -Wextra -Wconversion -pedantic -Werror -I include -I tools/record -I "$record")

# is_older FILE: it is missing, or older than the archive, the header or a file of tools/record.
is_older() {
  [ ! -f "$1" ] || [ -n "$(find tools/record include/roqshyn.h "$archive" -newer "$1" -print -quit)" ]
}

wrappers() {
  mkdir -p "$record"
  python3 -B tools/record/wrappers.py include/roqshyn.h crates "$record"
}

# build_recorder: libroqshyn_record.a, and record.link, the linker's words for a station.
build_recorder() {
  local file objects=()
  ! is_older "$record/libroqshyn_record.a" && return
  wrappers
  for file in tools/record/{recording,ring,recorder}.c "$record/wrapped.c"; do
    objects+=("$record/$(basename "$file" .c).o")
    "${CC:-cc}" "${strict[@]}" -fPIC -c "$file" -o "${objects[-1]}"
  done
  rm -f "$record/libroqshyn_record.a"
  ar rcs "$record/libroqshyn_record.a" "${objects[@]}"
  link_words "$PWD/$record" "$PWD/$archive" >"$record/record.link"
}

# link_words FOLDER ARCHIVE: each call goes to its wrapper, and the wrappers' calls to the archive.
link_words() {
  sed 's/.*/-Wl,--wrap=&/' "$record/names"
  printf '"%s"\n' "$1/libroqshyn_record.a" "$2"
  printf '%s\n' -pthread -Wl,-z,now
}

player_files=(tools/record/{play_station,reading,arguments,memories,script,picture,recording}.c "$record"/{played,paddings}.c)
build_player() {
  ! is_older "$record/play-station" && return
  wrappers
  "${CC:-cc}" "${strict[@]}" "${player_files[@]}" "$archive" -o "$record/play-station"
}
