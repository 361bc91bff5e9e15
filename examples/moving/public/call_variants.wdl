version 1.0

task CallVariants {
  input {
    File bam
    File bam_index
    File ref_fasta
    File ref_fasta_index
    String sample
    Int? additional_disk
  }

  Float ref_size = size(ref_fasta, "GB") + size(ref_fasta_index, "GB")
  Float bam_size = size(bam, "GB")  # without the index
  Int disk_size = ceil(bam_size * 2 + ref_size) + select_first([additional_disk, 20])
  Int machine_mem = 8
  Int command_mem = machine_mem - 1

  command <<<
    caller --java-options "-Xmx~{command_mem}g" \
      -R ~{ref_fasta} -I ~{bam} -O ~{sample}.vcf.gz
  >>>

  output {
    File vcf = "~{sample}.vcf.gz"
  }

  runtime {
    docker: "us.gcr.io/example/caller:4.1"
    memory: machine_mem + " GB"
    disks: "local-disk " + disk_size + " HDD"
    bootDiskSizeGb: 15
  }
}

workflow CallOne {
  input {
    File bam
    File bam_index
    File ref_fasta
    File ref_fasta_index
    String sample
  }

  call CallVariants {
    input:
      bam = bam,
      bam_index = bam_index,
      ref_fasta = ref_fasta,
      ref_fasta_index = ref_fasta_index,
      sample = sample
  }

  output {
    File vcf = CallVariants.vcf
  }
}
