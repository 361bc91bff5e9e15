# Counts the reads of a FASTQ file.
task CountReads {
  File fastq
  Int? lines_of_read
  # How often the scheduler may try it again.
  Int preemptible_tries = 3
  String name = basename(fastq)

  command {
    echo ${name} >&2
    expr $(wc -l < ${fastq}) / ${default=4 lines_of_read}
  }

  runtime {
    docker: "ubuntu:16.04"
    preemptible: preemptible_tries
  }

  output {
    Int reads = read_int(stdout())
  }
}
