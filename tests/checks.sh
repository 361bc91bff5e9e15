# What each script of tests/ begins with: `top` is the repository, `work` a directory that goes when the script ends, and the checks are counted.

top=$(CDPATH= cd -- "$(dirname -- "$0")/.." && pwd) || exit 1
work=$(mktemp -d) || exit 1
passed=0
failed=0
skipped=0
# What a user may have set is not tested.
unset WDL_NOTES WDL_SHELL WDL_MOUNTS WDL_IMAGE WDL_IMAGE_SHELL WDL_NODE_SHELL WDL_SRUN_ARGS WDL_APPTAINER_ARGS WDL_DOCKER_ARGS WDL_PODMAN_ARGS WDL_LIMITS WDL_GRACE

# clean_up: what is done when the script ends. `also` is what goes beside `work`.
also=
clean_up() {
  chmod -R u+w "$work"
  rm -rf "$work" ${also:+"$also"}
}
trap clean_up EXIT
trap 'exit 1' HUP INT TERM

pass() { passed=$((passed + 1)); }

# fail WORDS..: counts a check that failed, and says so.
fail() {
  failed=$((failed + 1))
  echo "FAILED $*"
}

# skip WHAT WHY: counts what cannot be checked on this machine, and says so.
skip() {
  skipped=$((skipped + 1))
  echo "skipped: $1: $2"
}

# same NAME WANTED GOT
same() {
  if [ "$2" = "$3" ]; then pass; else fail "$1: $3, wanted $2"; fi
}

# has TOOL..: whether these programs are installed.
has() {
  for tool in "$@"; do command -v "$tool" >/dev/null 2>&1 || return; done
}

# A signal that is ignored when a shell starts stays so, as INT in a background job and HUP below nohup. `env` of the GNU tools can change that.
as_by_default=
! env --default-signal=INT true 2>/dev/null || as_by_default='env --default-signal=HUP,INT,QUIT,TERM'

# heard SIGNAL: whether a shell that the scripts are started by can handle the signal.
heard() {
  [ "$1" != KILL ] || return 0
  $as_by_default sh -c 'trap "exit 9" "$0"; kill -s "$0" $$; exit 0' "$1"
  [ $? = 9 ]
}

# conclude: the last line, 'N passed, M failed', and ', K skipped' where something was. It fails where a check failed.
conclude() {
  [ "$skipped" = 0 ] && rest= || rest=", $skipped skipped"
  echo "$passed passed, $failed failed$rest"
  [ "$failed" = 0 ]
}
