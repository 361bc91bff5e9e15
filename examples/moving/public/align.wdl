version 1.0

# Aligns reads, with resources that grow with the input.
task Align {
  input {
    File reads
    File reference
    String prefix = "aligned"
    Int threads = 4
    Int timeMinutes = 1 + ceil(size(reads, "G") * 60 / threads)  # an hour for each GB
    String memory = "~{1 + ceil(size(reference, "G") * 4)}G"
    String dockerImage = "quay.io/example/aligner:0.7.17"
  }

  command {
    set -e
    aligner -t ~{threads} ~{reference} ~{reads} > ~{prefix}.sam
  }

  output {
    File sam = prefix + ".sam"
  }

  runtime {
    cpu: threads
    memory: memory
    time_minutes: timeMinutes
    docker: dockerImage
  }

  parameter_meta {
    timeMinutes: {description: "The maximum time in minutes, as 1.5", category: "advanced"}
    memory: {description: "See ceil and size.", category: "advanced"}
  }
}
