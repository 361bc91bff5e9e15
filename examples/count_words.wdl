version 1.1
# Counts the words of each text, and of all texts together.

task count {
  input {
    File text
  }
  command <<<
    wc -w < '~{text}'
  >>>
  output {
    # wc pads the number with blanks; read_int takes them.
    Int words = read_int(stdout())
  }
}

task add {
  input {
    Array[Int]+ numbers
  }
  command <<<
    echo $(( ~{sep=" + " numbers} ))
  >>>
  output {
    Int sum = read_int(stdout())
  }
}

workflow count_words {
  input {
    Array[File]+ texts
  }
  # Each text has a job of its own.
  scatter (text in texts) {
    String name = basename(text, ".txt")
    call count { input: text }
  }
  # Outside the scatter `name` and `count.words` are arrays, in the order of `texts`.
  call add { input: numbers = count.words }
  output {
    Map[String, Int] words = as_map(zip(name, count.words))
    Int total = add.sum
  }
}
