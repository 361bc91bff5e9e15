version 1.1
# Checks each file by a workflow of another document, and adds up by one of its tasks.

import "parts/quality.wdl" as quality

workflow subworkflow {
  input {
    Array[File]+ files
  }
  scatter (file in files) {
    call quality.read_quality as checked { input: fastq = file }
  }
  call quality.add as all { input: numbers = checked.reads }
  output {
    Array[Int] reads = checked.reads
    Array[Boolean] usable = checked.usable
    Int total = all.sum
  }
}
