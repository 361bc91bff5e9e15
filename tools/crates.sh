#!/bin/sh
# Prints the crates that the program is built of, each after those that it uses.
cd "$(dirname -- "$0")/.." || exit 1
awk '
  function visit(name,    words, count, k) {
    seen[name]
    count = split(uses[name], words)
    for (k = 1; k <= count; k++) if (words[k] in uses && !(words[k] in seen)) visit(words[k])
    print name
  }
  /^[a-z0-9_]+( [a-z_]+=[^ :]+)*:/ { name = $1; sub(/:$/, "", name); sub(/^[^:]*:/, ""); uses[name] = $0 }
  END { visit("wdl") }' crates.txt
