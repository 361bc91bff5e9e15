version 1.1

task keep {
  input {
    String text
  }

  command <<<
    printf %s '~{text}' > out.txt
  >>>

  output {
    File out = "out.txt"
  }
}

workflow inner {
  input {
    String text = "inner default"
  }

  call keep { input: text }

  output {
    File out = keep.out
  }
}
