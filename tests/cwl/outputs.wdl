version 1.1

import "parts/inner.wdl"

## Outputs of one name from two calls, from the jobs of a scatter and from an inner workflow with a default; and a link as an output.

task put {
  input {
    String text
  }

  command <<<
    printf %s '~{text}' > out.txt
  >>>

  output {
    File out = "out.txt"
  }
}

task link {
  input {
    String text
  }

  command <<<
    printf %s '~{text}' > kept.txt
    ln -s kept.txt link.txt
  >>>

  output {
    File linked = "link.txt"
  }
}

workflow outputs {
  input {
    Array[String] texts
    String a
    String b
  }

  scatter (text in texts) {
    call put { input: text }
  }

  call put as first { input: text = a }
  call put as again { input: text = b }
  call link { input: text = a }
  call inner.inner

  output {
    Array[File] scattered = put.out
    File of_first = first.out
    File of_again = again.out
    File of_link = link.linked
    File of_inner = inner.out
  }
}
