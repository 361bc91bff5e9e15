version 1.0

task Columns {
  input {
    File table
    String separator = "}"
  }

  command {
    awk -F '~{separator}' '{ print $2 }' ~{table} | sort | uniq -c > counts.txt
    awk '{ if ($1 > 1) { print $2 } }' counts.txt > ${basename(table, ".txt")}.repeated.txt
  }

  output {
    File repeated = basename(table, ".txt") + ".repeated.txt"
  }
}
