version 1.0

task Sample {
  input {
    File fastq
  }
  String sample = sub(basename(fastq), "_R[12]\\.fastq\\.gz$", "")
  Int disk = ceil(size(fastq, "GB"))
  command <<<
    gzip -dc ~{fastq} | head -n 4 > ~{sample}.head.fastq
  >>>
  output {
    File head = "~{sample}.head.fastq"
  }
  runtime {
    disks: "local-disk " + disk + " HDD"
  }
}
