# Read by install, from the repository's root. What is put in place: under `stage`, which is empty or DESTDIR, for a
# `prefix` and a `libdir` that are absolute.

# folders: makes them, and sees that all can be written.
folders() {
  local folder
  share=$prefix/share/roqshyn
  for folder in "$prefix/include" "$libdir" "$libdir/pkgconfig" "$libdir/cmake/roqshyn" "$share" "$share"/rust/{build,src}; do
    mkdir -p -- "$stage$folder" 2>/dev/null && [ -w "$stage$folder" ] || stop "$stage$folder cannot be written"
  done
}

# put FILE… FOLDER: whoever may enter the folder may read the files.
put() {
  command install -m 644 -- "${@:1:$#-1}" "$stage${!#}"
}

# header_version: as 1.1.0.
header_version() {
  sed -n 's/^#define ROQ_VERSION_\(MAJOR\|MINOR\|PATCH\) //p' include/roqshyn.h | paste -sd .
}

# filled NAME FOLDER: puts packaging/NAME.in there, with the version and the way from LIBDIR to PREFIX.
filled() {
  local way
  way=$(realpath -ms --relative-to="$libdir" -- "$prefix")
  sed -e "s|@VERSION@|$version|" -e "s|@MAJOR@|${version%%.*}|" -e "s|@PREFIX@|$way|" "packaging/$1.in" >"$stage$2/$1"
  chmod 644 "$stage$2/$1"
}

# build_info: what the archive is, and what it was made from.
build_info() {
  local kit sum
  kit=$(rt version)
  sum=$(sha256sum <"$archive")
  printf 'version: %s\ncommit: %s\nkit: %s\nsha256 of libroqshyn.a: %s\n' "$version" "$(commit)" "$kit" "${sum%% *}"
}

# commit: that of the checkout, and whether a file that is installed or built from is another one.
commit() {
  local hash
  [ -e .git ] && hash=$(git -c safe.directory="$PWD" rev-parse HEAD 2>/dev/null) || { printf unknown && return; }
  printf '%s' "$hash"
  git -c safe.directory="$PWD" status --porcelain -- crates crates.txt include bindings/rust packaging | grep -q . || return 0
  printf ', with changes that are not committed'
}

files() {
  local version
  version=$(header_version)
  put include/roqshyn.h "$prefix/include"
  put "$archive" "$libdir"
  filled roqshyn.pc "$libdir/pkgconfig"
  filled roqshyn-config.cmake "$libdir/cmake/roqshyn"
  filled roqshyn-config-version.cmake "$libdir/cmake/roqshyn"
  put LICENSE NOTICE "$share"
  build_info >"$stage$share/BUILD-INFO"
  chmod 644 "$stage$share/BUILD-INFO"
  rm -f -- "$stage$share"/rust/{build,src}/*
  put bindings/rust/Cargo.toml "$share/rust"
  put bindings/rust/build/* "$share/rust/build"
  put bindings/rust/src/* "$share/rust/src"
  # build/main.rs finds the archive by this link.
  ln -sfn -- "$(realpath -ms --relative-to="$share/rust" -- "$libdir/libroqshyn.a")" "$stage$share/rust/libroqshyn.a"
}

# next_lines: what a program's own build needs, to be copied.
next_lines() {
  printf 'installed in %s%s\n' "$prefix" "${stage:+, under $stage}"
  printf 'C, C++: cc station.c $(PKG_CONFIG_PATH=%q pkg-config --cflags --libs roqshyn) -o station\n' "$libdir/pkgconfig"
  printf 'CMake:  cmake -B build -Droqshyn_DIR=%q # find_package(roqshyn REQUIRED), roqshyn::roqshyn\n' "$libdir/cmake/roqshyn"
  printf 'Cargo:  roqshyn = { path = "%s" }\n' "$share/rust"
}
