version 1.0

task SortBam {
  input { File bam }
  command <<<
    samtools sort -o sorted.bam ~{bam}
  >>>
  output {
    File sorted = "sorted.bam"
  }
  runtime {
    docker: "quay.io/example/samtools:1.19"
    disks: "local-disk ~{ceil(size(bam, 'GB') * 3.25) + 10} SSD"
    memory: "~{2 * 3.5} GB"
  }
}
