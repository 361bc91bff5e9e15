version 1.0

task Rename {
  input {
    Array[File] bams
    String suffix = ".renamed.bam"
  }

  command {
    for bam in ~{sep=" " bams}; do
      name=$(basename "$bam")
      cp "$bam" "${name%.bam}${suffix}"
    done
    files=(*.bam)
    echo "${#files[@]} files for ${USER:-nobody}"
  }

  output {
    Array[File] renamed = glob("*.renamed.bam")
    String said = read_string(stdout())
  }
}
