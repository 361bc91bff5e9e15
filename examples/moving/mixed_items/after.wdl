version 1.1

task report {
  input {
    String id
    Int reads
  }
  Array[String] row = [id, "~{reads}"]
  command <<<
    echo '~{sep="," row}'
  >>>
  output {
    String line = read_string(stdout())
  }
}
