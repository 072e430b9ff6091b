# Read by the commands that play random lists: `. random.sh NAME WORD NUMBER "$@"`. NAME is the word of the
# comparison's program, WORD what is counted, NUMBER how many there are if the command is given none. The first word of
# the command is another number, the second a SEED.
set -euo pipefail
cd "$(dirname "$0")/.."
. compare/build.sh
name=$1 word=$2 number=$3
shift 3
takes "[$word] [SEED]" 2 "$@"
set -- "${1:-$number}" "${2:-1}"
whole "$word" "$1"
whole SEED "$2"
need_both
exec "$compare" "$name" "$replay" "$@"
