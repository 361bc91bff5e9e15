version 1.1

task is_enough {
  input {
    String quality
    String least
  }
  command <<<
    awk -v quality='~{quality}' -v least='~{least}' 'BEGIN { print (quality + 0 >= least + 0 ? "true" : "false") }'
  >>>
  output {
    Boolean enough = read_boolean(stdout())
  }
}

workflow filter {
  input {
    String quality = "9.5"
    String least = "20.0"
  }
  call is_enough { input: quality, least }
  output {
    Boolean enough = is_enough.enough
  }
}
