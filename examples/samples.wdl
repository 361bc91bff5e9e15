version 1.1
# For each sample, joins the FASTQ files of its lanes and counts the reads that are long enough.

struct Sample {
  String id
  Array[File]+ lanes
  # The fewest bases of a read that counts; the workflow's default where it is left out.
  Int? shortest
}

task join_lanes {
  input {
    String id
    Array[File]+ lanes
  }
  command <<<
    cat ~{sep=" " squote(lanes)} > '~{id}.fastq'
  >>>
  output {
    File reads = "~{id}.fastq"
  }
  runtime {
    # Containers and resources are checked and not used: the command runs on this machine.
    docker: "ubuntu:22.04"
    memory: "1 GB"
  }
}

task count_reads {
  input {
    File reads
    Int shortest
  }
  command <<<
    awk 'NR % 4 == 2 && length($0) >= ~{shortest} { n++ } END { print n + 0 }' '~{reads}'
  >>>
  output {
    Int number = read_int(stdout())
  }
}

workflow samples {
  input {
    Array[Sample] samples
    Int shortest = 4
  }
  scatter (sample in samples) {
    call join_lanes { input: id = sample.id, lanes = sample.lanes }
    call count_reads {
      input:
        reads = join_lanes.reads,
        shortest = select_first([sample.shortest, shortest])
    }
    Pair[String, Int] row = (sample.id, count_reads.number)
  }
  output {
    Map[String, Int] long_reads = as_map(row)
    Array[File] joined = join_lanes.reads
  }
}
