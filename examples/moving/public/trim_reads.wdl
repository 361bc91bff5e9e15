version 1.0

# Trims adapters and low qualities from paired reads.

struct Adapters {
  String forward
  String reverse
}

task Trim {
  input {
    File forward
    File reverse
    Adapters adapters
    Int min_length = 36
    Boolean keep_singletons = false
    String docker_image = "quay.io/example/trimmer:1.4--py39_0"
  }

  command {
    set -e
    trimmer \
      -a ~{adapters.forward} -A ~{adapters.reverse} \
      ~{true="--keep" false="" keep_singletons} \
      --min-length ${min_length} \
      -o trimmed_1.fastq.gz -p trimmed_2.fastq.gz \
      ~{forward} ~{reverse}
  }

  output {
    File forward_trimmed = "trimmed_1.fastq.gz"
    File reverse_trimmed = "trimmed_2.fastq.gz"
  }

  runtime {
    docker: docker_image
    memory: "4 GB"
    cpu: 2
  }
}
