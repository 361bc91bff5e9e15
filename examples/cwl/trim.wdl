version 1.1

## Trims the reads of each lane and counts what is left.

task trim {
  input {
    File reads
    Int length = 4
  }

  command <<<
    awk 'NR % 2 == 0 { print substr($0, 1, ~{length}); next } { print }' ~{reads} > trimmed.fastq
  >>>

  output {
    File trimmed = "trimmed.fastq"
  }
}

task count {
  input {
    File reads
    String label
  }

  command <<<
    awk 'NR % 4 == 1 { n++ } END { print label, n + 0 }' label=~{label} ~{reads}
  >>>

  output {
    File counted = stdout()
  }
}

workflow trim_lanes {
  input {
    Array[File]+ lanes
    String run
    Int length
  }

  scatter (lane in lanes) {
    call trim { input: reads = lane, length }
    call count { input: reads = trim.trimmed, label = run }
  }

  output {
    Array[File] trimmed = trim.trimmed
    Array[File] counts = count.counted
  }
}
