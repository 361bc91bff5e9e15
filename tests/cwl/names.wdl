version 1.1

## Names of files, inputs and members, and texts, that a CWL runner could take for something else, and takes rightly.

struct Sample {
  File reads
  String basename
  String label
}

task show {
  input {
    File blank
    File percent
    File accent
    String text
    String format
    String listing
    String contents
    String basename
    String label
  }

  command <<<
    cat '~{blank}' '~{percent}' '~{accent}' > shown.txt
    printf '%s,' '~{text}' '~{format}' '~{listing}' '~{contents}' '~{basename}' '~{label}' >> shown.txt
  >>>

  output {
    File shown = "shown.txt"
  }
}

workflow names {
  input {
    Sample sample
    File percent
    File accent
    String text
    String format
    String listing
    String contents
  }

  call show {
    input:
      blank = sample.reads,
      percent,
      accent,
      text,
      format,
      listing,
      contents,
      basename = sample.basename,
      label = sample.label
  }

  output {
    File shown = show.shown
  }
}
