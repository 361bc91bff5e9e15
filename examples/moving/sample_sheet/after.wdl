version 1.1

task read_sheet {
  input {
    File sheet
  }
  command <<<
    cat '~{sheet}'
  >>>
  output {
    Array[Array[String]] rows = read_tsv(stdout())
  }
}

task count {
  input {
    String id
    File reads
  }
  command <<<
    echo '~{id}' "$(wc -l < '~{reads}')"
  >>>
  output {
    String told = read_string(stdout())
  }
}

workflow count_samples {
  input {
    File sheet
  }
  call read_sheet { input: sheet }
  scatter (row in read_sheet.rows) {
    call count { input: id = row[0], reads = row[1] }
  }
  output {
    Array[String] told = count.told
  }
}
