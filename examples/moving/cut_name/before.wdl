version 1.1

task unpack {
  input {
    File reads
  }
  String sample = sub(basename(reads), "_L[0-9]+_R[12].*", "")
  command <<<
    gzip -dc '~{reads}' > '~{sample}.fastq'
  >>>
  output {
    File fastq = "~{sample}.fastq"
  }
}
