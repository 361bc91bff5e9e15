# What the scripts of this folder begin with: the top of the repository, a folder that goes when the script ends, and the program: the one that the
# script was given, or else the one that ./wdl runs.
top=$(CDPATH= cd -- "$(dirname -- "$0")/.." && pwd) || exit 1
# In memory where that is had: a disk makes new folders slowly for some seconds after others were deleted, which would be measured too.
[ -n "${TMPDIR:-}" ] || [ ! -w /dev/shm ] || TMPDIR=/dev/shm
work=$(TMPDIR=${TMPDIR:-/tmp} mktemp -d) || exit 1
trap 'rm -rf "$work"' EXIT
program=${1:-$("$top/tools/program.sh")} || exit 1

# clock: prints which time says most on this machine now: `wall-clock`, or `processor` where other work takes more than a quarter of the processors.
clock() {
  { head -n 1 /proc/stat && sleep 1 && head -n 1 /proc/stat; } | awk '
    { idle = $5 + $6; all = 0; for (i = 2; i <= 9; i++) all += $i }
    NR == 1 { idle_before = idle; all_before = all }
    END { print (idle - idle_before < 0.75 * (all - all_before)) ? "processor" : "wall-clock" }'
}
