version 1.0

task IndexBam {
  input {
    File bam
  }
  command {
    ln -s ~{bam} sample.bam
    samtools index sample.bam
  }
  output {
    File index = "sample.bam.bai"
  }
  runtime {
    docker: "quay.io/example/samtools:1.19"
    disks: "local-disk " + ceil(size(bam, "GB")) + " HDD"
    memory: size(bam, "GB") * 2 + " GB"
    cpu: 0.5
  }
}
