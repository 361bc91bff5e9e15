version 1.0

import "sort_bam.wdl" as sorting

workflow SortAll {
  input {
    File sheet
  }
  scatter (row in read_tsv(sheet)) {
    call sorting.SortBam { input: bam = row[1] }
  }
  output {
    Array[File] sorted = SortBam.sorted
  }
}
