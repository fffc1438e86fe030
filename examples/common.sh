# Sourced by each example's run.sh: the program, Python, and one run into a folder.
#
#   MODELNET   a program to use; without it the one in crates/modelnet is built (which proves it first, some minutes)
#   PYTHON     a Python with the packages that tools/README.md names (/usr/bin/python3)
set -eu
here=$(cd "$(dirname "$0")" && pwd)
root=$(cd "$here/../.." && pwd)
tools=$root/tools
python=${PYTHON:-/usr/bin/python3}
export PYTHONPATH=$tools PYTHONDONTWRITEBYTECODE=1
if [ -z "${MODELNET:-}" ]; then
  (cd "$root/crates/modelnet" && rt run -- workload --number 7 --packets 1 > /dev/null)
  MODELNET=$root/crates/modelnet/out/modelnet
fi
MODELNET=$(realpath "$MODELNET")
export MODELNET
cd "$here"
mkdir -p out

# run NAME TOPOLOGY TRACE "OPTIONS OF DISTILL" OPTION..   one run, in out/NAME: pipes.txt, journal.txt, report.txt and out.pcap
run() {
  local name=$1 topology=$2 trace=$3 distilled=$4
  shift 4
  mkdir -p "out/$name"
  # shellcheck disable=SC2086 # options of distill are words
  "$MODELNET" distill --topology "$topology" $distilled > "out/$name/pipes.txt"
  # shellcheck disable=SC2086
  "$MODELNET" journal --topology "$topology" --trace "$trace" --out "out/$name/journal.txt" $distilled "$@"
  # shellcheck disable=SC2086
  "$MODELNET" rehearse --topology "$topology" --trace "$trace" --out "out/$name/out.pcap" --report "out/$name/report.txt" $distilled "$@"
}
