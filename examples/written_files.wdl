version 1.1
# Hands lists and tables of the workflow to commands, as files that are written for them.

task select_rows {
  input {
    Array[String]+ ids
    Array[Array[String]] table
  }
  # Each function writes its argument to a file in the directory of the job, and gives the file's path.
  command <<<
    grep -w -F -f ~{write_lines(ids)} ~{write_tsv(table)} | cut -f 1,3
  >>>
  output {
    Array[Array[String]] rows = read_tsv(stdout())
  }
}

task rename {
  input {
    Array[String] ids
    Map[String, String] names
  }
  # A declaration between the inputs and the command, for a file that is used more than once.
  File table = write_map(names)
  command <<<
    for id in ~{sep=" " squote(ids)}; do
      awk -F '\t' -v id="$id" '$1 == id { print $2 }' ~{table}
    done
    echo "$(wc -l < ~{table} | tr -d ' ') names are known" > summary.txt
  >>>
  output {
    Array[String] renamed = read_lines(stdout())
    String summary = read_string("summary.txt")
  }
}

workflow written_files {
  input {
    Array[Array[String]] table = [
      ["s1", "lung", "12"],
      ["s2", "liver", "7"],
      ["s3", "lung", "30"]
    ]
    Map[String, String] names = { "s1": "first", "s2": "second", "s3": "third" }
  }
  call select_rows { input: ids = ["lung"], table }
  scatter (row in select_rows.rows) {
    String id = row[0]
  }
  call rename { input: ids = id, names }
  output {
    Array[Array[String]] rows = select_rows.rows
    Array[String] renamed = rename.renamed
    String summary = rename.summary
  }
}
