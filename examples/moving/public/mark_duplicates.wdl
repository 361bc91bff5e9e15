version 1.0

# Marks the duplicates of a sorted BAM file.
task MarkDuplicates {
  input {
    File input_bam
    String output_name
    Int preemptible_tries = 3
  }

  # The output and the temporary files of the sort need space, too.
  Int disk_size = ceil(size(input_bam, "GB") * 2.5) + 20

  command <<<
    set -eu
    java -Xmx6g -jar /opt/tools/duplicates.jar \
      INPUT=~{input_bam} \
      OUTPUT=~{output_name}.bam \
      METRICS_FILE=~{output_name}.metrics
  >>>

  runtime {
    docker: "us.gcr.io/example/duplicates:2.3.4"
    memory: "7 GB"
    disks: "local-disk " + disk_size + " HDD"
    preemptible: preemptible_tries
  }

  output {
    File output_bam = "~{output_name}.bam"
    File metrics = "~{output_name}.metrics"
  }
}
