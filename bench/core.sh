#!/bin/sh
# How the time and the memory of the core of a run grow with its jobs: workflows of 1,250 to 20,000 jobs in five shapes, one answer for all,
# and no children. It ends non-zero where a doubling takes more than 2.3 times the time, in the mean of the four of a shape, or 20,000 jobs more than
# 3 processor seconds or 1 GB.
#
#   bench/core.sh
#
# The program, core/main.txt, is no crate of this repository, so nothing of it is proved: `rt try` of a copy of the kit compiles it with the crates here,
# with its checks of bounds and overflows, but optimized and without the address sanitizer. Times are processor seconds of the core alone,
# the least of three runs; memory is that of the whole program, which reads and checks its document too.
top=$(CDPATH= cd -- "$(dirname -- "$0")/.." && pwd) || exit 1
work=$(mktemp -d) || exit 1
trap 'rm -rf "$work"' EXIT
kit=$(dirname -- "$(dirname -- "$(realpath -- "$(command -v rt)")")") || exit 1

# links FROM TO NAME..: links of all that stands in a folder, but for these names.
links() {
  from=$1 to=$2
  shift 2
  mkdir -p "$to"
  for path in "$from"/*; do
    name=${path##*/}
    case " $* " in *" $name "*) ;; *) ln -s "$path" "$to/$name" ;; esac
  done
}

# a kit whose compiler optimizes, and whose linker leaves out the sanitizer and keeps what it made
make_kit() {
  links "$kit" "$work/kit" bin toolchain
  links "$kit/bin" "$work/kit/bin" rt rtlib.py
  cp "$kit/bin/rt" "$kit/bin/rtlib.py" "$work/kit/bin"
  links "$kit/toolchain" "$work/kit/toolchain" bin
  links "$kit/toolchain/bin" "$work/kit/toolchain/bin" clang ld.lld
  cat >"$work/kit/toolchain/bin/clang" <<END
#!/bin/bash
words=()
sanitized=0
for word in "\$@"; do [ "\$word" = -fsanitize=address ] && sanitized=1; done
for word in "\$@"; do
  case \$word in
    -fsanitize=*) ;;
    -O0) [ \$sanitized = 1 ] && words+=(-O2) || words+=(-O0) ;;
    *) words+=("\$word") ;;
  esac
done
exec "$kit/toolchain/bin/clang" "\${words[@]}"
END
  cat >"$work/kit/toolchain/bin/ld.lld" <<END
#!/bin/bash
words=()
whole=0
for word in "\$@"; do
  case \$word in
    --whole-archive) whole=1 ;;
    --no-whole-archive) whole=0 ;;
    *) [ \$whole = 1 ] || words+=("\$word") ;;
  esac
done
"$kit/toolchain/bin/ld.lld" "\${words[@]}" && cp program "$work/program"
END
  chmod +x "$work/kit/toolchain/bin/clang" "$work/kit/toolchain/bin/ld.lld"
}

# a repository of the crates here and the program
make_repository() {
  mkdir -p "$work/repository/crates/core_bench/src"
  for crate in "$top"/crates/*; do
    mkdir "$work/repository/crates/${crate##*/}" && cp -r "$crate/src" "$work/repository/crates/${crate##*/}"
  done
  cp "$top/bench/core/main.txt" "$work/repository/crates/core_bench/src/main.rt"
  cp "$top/HANDLES" "$work/repository"
  below=$(sed -n 's/^workflow_cli [^:]*: //p' "$top/crates.txt")
  { cat "$top/crates.txt" && echo "core_bench: $below"; } >"$work/repository/crates.txt"
}

make_kit && make_repository || exit 1
(cd "$work/repository/crates/core_bench" && "$work/kit/bin/rt" try --steps 1000 -- chain 50 >"$work/said" 2>&1)
if [ ! -x "$work/program" ]; then cat "$work/said" >&2; exit 1; fi
python3 "$top/bench/core.py" "$kit/toolchain/lib" "$work/program"
