version 1.0

# The size is not only one of the machine: the command has it, too.
task Merge {
  input {
    Array[File] vcfs
    File largest
    Float heap_fraction = 0.8
  }

  Int machine_mem = ceil(size(largest, "GB") * 4) + 3
  Int heap = floor(machine_mem * heap_fraction)

  command <<<
    java -Xmx~{heap}g -jar merge.jar ~{sep=" " prefix("I=", vcfs)} O=merged.vcf
  >>>

  output {
    File merged = "merged.vcf"
  }

  runtime {
    memory: machine_mem + " GB"
  }
}
