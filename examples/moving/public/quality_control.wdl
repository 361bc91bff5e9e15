version 1.0

# A process of a Nextflow pipeline, written as a task.
task FASTQC {
  input {
    Map[String, String] meta_map
    Array[File]+ reads
    String args = ""
    Int cpus = 6
    String container = "quay.io/example/fastqc:0.12.1--hdfd78af_0"
  }

  String prefix = meta_map["id"]

  command <<<
    set -euo pipefail
    mkdir -p out
    fastqc ~{args} --threads ~{cpus} --outdir out ~{sep=" " reads}
    for zip in out/*.zip; do
      mv "${zip}" "out/~{prefix}_${zip##*/}"
    done
    cat <<-END_VERSIONS > versions.yml
    "FASTQC":
        fastqc: $( fastqc --version | sed '/FastQC v/!d; s/.*v//' )
    END_VERSIONS
  >>>

  output {
    Array[File] html = glob("out/*.html")
    Array[File] zip = glob("out/*.zip")
    File versions = "versions.yml"
  }

  runtime {
    container: container
    cpu: cpus
    memory: "36 GB"
  }
}
