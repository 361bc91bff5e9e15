version 1.0

task KeepFrequent {
  input {
    File variants
    Float least = 0.05
    Float? most
    Float mem_gb = 3.75
  }
  command <<<
    awk -v least=~{least} -v most='~{most}' '$5 >= least && (most == "" || $5 <= most)' ~{variants} > kept.txt
  >>>
  output {
    File kept = "kept.txt"
  }
  runtime {
    docker: "ubuntu:22.04"
    memory: mem_gb + " GB"
  }
}
