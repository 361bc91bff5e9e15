version 1.1

task unpack {
  input {
    File reads
  }
  String sample = basename(reads, ".fastq.gz")
  command <<<
    gzip -dc '~{reads}' > '~{sample}.fastq'
  >>>
  output {
    File fastq = "~{sample}.fastq"
  }
}
