# Read by the commands that link the library, from the repository's root. Proves and builds `archive`, which is
# crates/roqshyn/out/libroqshyn.a, where it is missing or older than a file that it may come from.
. tools/prove.sh
prove roqshyn
