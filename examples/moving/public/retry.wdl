version 1.0

# The program itself uses `maxRetries`, so what that needs stays.
task Retry {
  input {
    File list
    Float mem_gb = 1.5
    Int attempts = ceil(2.5)
  }
  command <<<
    sort '~{list}'
  >>>
  output {
    File sorted = stdout()
  }
  runtime {
    maxRetries: attempts
    memory: ceil(mem_gb * 2) + " GB"
    disks: size(list, "GB") * 2 + "~{ceil(mem_gb)} HDD"
    note: "~{mem_gb}"
  }
}
