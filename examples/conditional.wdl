version 1.1
# Counts barcodes, each once where that is asked for: a step that may be left out.

task unique {
  input {
    File list
  }
  command <<<
    sort -u '~{list}' > unique.txt
  >>>
  output {
    File sorted = "unique.txt"
  }
}

task count_lines {
  input {
    File list
  }
  command <<<
    wc -l < '~{list}'
  >>>
  output {
    Int lines = read_int(stdout())
  }
}

workflow conditional {
  input {
    File barcodes
    Boolean once = false
  }
  if (once) {
    call unique { input: list = barcodes }
  }
  # Behind the `if` its output is a `File?`: undefined where the step was left out.
  File counted = select_first([unique.sorted, barcodes])
  call count_lines { input: list = counted }
  output {
    Int number = count_lines.lines
    File? list = unique.sorted
    String told = "~{number} ~{if defined(list) then "distinct " else ""}barcodes"
  }
}
