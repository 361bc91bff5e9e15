version 1.2

import "https://example.org/tasks/align.wdl" as align

workflow AlignOne {
  input {
    File reads
    File reference
  }
  call align.Align {
    reads,
    reference
  }
}
