version 1.1

task summary {
  input {
    File quality
  }
  command <<<
    jq .passed '~{quality}' > passed.txt
    jq -r 'to_entries[] | [.key, .value] | @tsv' '~{quality}' > counts.tsv
  >>>
  output {
    Int passed = read_int("passed.txt")
    Map[String, String] counts = read_map("counts.tsv")
  }
}
