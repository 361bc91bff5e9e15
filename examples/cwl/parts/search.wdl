version 1.1

## The lines of a file that hold a word, and how many they are. A file without such a line is no fault.

task find_lines {
  input {
    File text
    String word
  }

  command <<<
    grep -e ~{word} ~{text}
  >>>

  output {
    File found = stdout()
  }

  runtime {
    returnCodes: [0, 1]
  }
}

task count_lines {
  input {
    File text
  }

  command <<<
    wc -l < ~{text} | xargs > lines.txt
  >>>

  output {
    File lines = "lines.txt"
  }
}

workflow search {
  input {
    File text
    String word
  }

  call find_lines { input: text, word }
  call count_lines { input: text = find_lines.found }

  output {
    File found = find_lines.found
    File lines = count_lines.lines
  }
}
