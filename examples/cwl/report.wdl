version 1.1

## A report that is sorted, and packed where that is asked for.

task sort_words {
  input {
    File text
    Boolean reverse = false
  }

  command <<<
    xargs -n 1 < ~{text} | sort -u > words.txt
    if ~{reverse}; then sort -r words.txt > reversed.txt && mv reversed.txt words.txt; fi
  >>>

  output {
    File words = "words.txt"
  }
}

task pack {
  input {
    File text
  }

  command <<<
    gzip -n -c ~{text} > packed.gz
  >>>

  output {
    File packed = "packed.gz"
  }
}

workflow report {
  input {
    File text
    Boolean reverse
    Boolean packed
  }

  call sort_words { input: text, reverse }

  if (packed) {
    call pack { input: text = sort_words.words }
  }

  output {
    File words = sort_words.words
    File? archive = pack.packed
  }
}
