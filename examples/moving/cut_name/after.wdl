version 1.1

task unpack {
  input {
    File reads
  }
  command <<<
    sample=$(basename '~{reads}' | sed -E 's/_L[0-9]+_R[12].*//')
    gzip -dc '~{reads}' > "$sample.fastq"
    echo "$sample"
  >>>
  output {
    String sample = read_string(stdout())
    File fastq = "~{sample}.fastq"
  }
}
