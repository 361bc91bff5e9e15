version 1.1

task sort_names {
  input {
    File names
    Int disk = 10
  }
  command <<<
    sort '~{names}' > sorted.txt
  >>>
  output {
    File sorted = "sorted.txt"
  }
  runtime {
    disks: "local-disk ~{disk} HDD"
  }
}
