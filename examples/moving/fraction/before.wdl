version 1.1

task keep_frequent {
  input {
    File variants
    Float least = 0.05
  }
  command <<<
    awk '$5 >= ~{least}' '~{variants}' > kept.txt
    awk -v kept="$(wc -l < kept.txt)" 'END { print kept / NR }' '~{variants}'
  >>>
  output {
    File kept = "kept.txt"
    Float share = read_float(stdout())
  }
}
