version 1.1

task keep_frequent {
  input {
    File variants
    String least = "0.05"
  }
  command <<<
    awk '$5 >= ~{least}' '~{variants}' > kept.txt
    awk -v kept="$(wc -l < kept.txt)" 'END { print kept / NR }' '~{variants}'
  >>>
  output {
    File kept = "kept.txt"
    String share = read_string(stdout())
  }
}
