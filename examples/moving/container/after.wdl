version 1.1

task count_reads {
  input {
    File bam
    String image = "docker://quay.io/biocontainers/samtools:1.19.2--h50ea8bc_0"
  }
  command <<<
    apptainer exec --bind "$PWD,$(dirname '~{bam}')" '~{image}' samtools view -c '~{bam}'
  >>>
  output {
    Int reads = read_int(stdout())
  }
}
