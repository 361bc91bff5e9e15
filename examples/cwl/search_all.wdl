version 1.1

import "parts/search.wdl"

## Looks for a word in each of several texts, by a workflow of another document.

workflow search_all {
  input {
    Array[File] texts
    String word
  }

  scatter (text in texts) {
    call search.search as one { input: text, word }
  }

  output {
    Array[File] found = one.found
    Array[File] lines = one.lines
  }
}
