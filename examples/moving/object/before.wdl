version 1.1

struct Sample {
  String id
  File reads
}

task unpack {
  input {
    Sample sample
  }
  command <<<
    gzip -dc '~{sample.reads}' > '~{sample.id}.fastq'
  >>>
  output {
    File fastq = "~{sample.id}.fastq"
  }
}

workflow unpack_one {
  input {
    String id
    File reads
  }
  Sample sample = object {id: id, reads: reads}
  call unpack { input: sample }
  output {
    File fastq = unpack.fastq
  }
}
