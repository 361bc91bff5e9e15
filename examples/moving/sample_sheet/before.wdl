version 1.1

task count {
  input {
    String id
    File reads
  }
  command <<<
    echo '~{id}' "$(wc -l < '~{reads}')"
  >>>
  output {
    String told = read_string(stdout())
  }
}

workflow count_samples {
  input {
    File sheet
  }
  Array[Array[String]] rows = read_tsv(sheet)
  scatter (row in rows) {
    call count { input: id = row[0], reads = row[1] }
  }
  output {
    Array[String] told = count.told
  }
}
