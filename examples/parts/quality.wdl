version 1.1
# Parts of other workflows: what a FASTQ file holds.

task statistics {
  input {
    File fastq
  }
  command <<<
    awk '
      NR % 4 == 2 { reads++; if (length($0) > longest) longest = length($0) }
      END { print reads + 0 > "reads.txt"; print longest + 0 > "longest.txt" }
    ' '~{fastq}'
  >>>
  output {
    Int reads = read_int("reads.txt")
    Int longest = read_int("longest.txt")
  }
}

task add {
  input {
    Array[Int]+ numbers
  }
  command <<<
    echo $(( ~{sep=" + " numbers} ))
  >>>
  output {
    Int sum = read_int(stdout())
  }
}

workflow read_quality {
  input {
    File fastq
    # How many bases the longest read has to have.
    Int needed = 5
  }
  call statistics { input: fastq }
  output {
    Int reads = statistics.reads
    Boolean usable = statistics.longest >= needed
  }
}
