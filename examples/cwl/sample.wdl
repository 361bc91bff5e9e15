version 1.1

## Trims the reads of a sample, a struct with a struct in it, and counts what is left where that is asked for.

struct Library {
  String name
  Int length
}

struct Sample {
  File reads
  Library library
}

task trim {
  input {
    File reads
    Int length = 4
  }

  command <<<
    awk 'NR % 2 == 0 { print substr($0, 1, ~{length}); next } { print }' ~{reads} > trimmed.fastq
  >>>

  output {
    File trimmed = "trimmed.fastq"
  }
}

task count {
  input {
    File reads
    String label
  }

  command <<<
    awk 'NR % 4 == 1 { n++ } END { print label, n + 0 }' label=~{label} ~{reads}
  >>>

  output {
    File counted = stdout()
  }
}

workflow trim_sample {
  input {
    Sample sample
    Boolean counted
  }

  File reads = sample.reads
  String label = sample.library.name

  call trim { input: reads, length = sample.library.length }

  File trimmed = trim.trimmed

  if (counted) {
    call count { input: reads = trimmed, label }
  }

  output {
    File kept = trimmed
    File? counts = count.counted
  }
}
