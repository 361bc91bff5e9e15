version 1.1
# A step that fails at times and is tried again, and a search that may find nothing.

task fetch {
  input {
    String name
  }
  # Stands for a step that fails at times: it fails in its first attempt. Each attempt has a directory of its own, and those of the
  # further ones end in -retry-1, -retry-2 and so on.
  command <<<
    case $PWD in
      *-retry-*) echo '~{name} is there' ;;
      *) echo 'no connection' >&2; exit 75 ;;
    esac
  >>>
  output {
    String said = read_string(stdout())
  }
  runtime {
    # At most two attempts more.
    maxRetries: 2
  }
}

task search {
  input {
    String pattern
    File list
  }
  # grep ends with 1 where it finds nothing, which is no fault here; with 2 where it cannot read the file, which is one.
  command <<<
    grep -c -e '~{pattern}' '~{list}'
  >>>
  output {
    Int found = read_int(stdout())
  }
  runtime {
    returnCodes: [0, 1]
  }
}

workflow retries {
  input {
    File list
    Array[String] patterns = ["AC", "AAA"]
  }
  call fetch { input: name = basename(list) }
  # `after` holds the searches back until the call is done, though they use nothing of it.
  scatter (pattern in patterns) {
    call search after fetch { input: pattern, list }
  }
  output {
    String said = fetch.said
    Map[String, Int] found = as_map(zip(patterns, search.found))
  }
}
