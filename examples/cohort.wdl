version 1.1
# Counts the genes of a cohort from a sample sheet with a row for each lane: fetches the lanes, joins those of a sample, and reports all samples in one table.

task read_sheet {
  input {
    File sheet
  }
  command <<<
    awk -F '\t' '
      NF != 3 { print "line " NR " of the sheet has not three columns" > "/dev/stderr"; exit 65 }
      NR > 1
    ' '~{sheet}'
  >>>
  output {
    Array[Array[String]] rows = read_tsv(stdout())
  }
}

# Stands for a transfer from a store that is busy at times: it fails in its first attempt.
task fetch {
  input {
    File lane
  }
  command <<<
    case $PWD in *-retry-*) ;; *) echo 'the store is busy' >&2; exit 75 ;; esac
    cp '~{lane}' lane.txt
    gzip lane.txt
  >>>
  output {
    File copy = "lane.txt.gz"
  }
  runtime {
    maxRetries: 2
  }
}

task count_genes {
  input {
    Array[File]+ lanes
  }
  command <<<
    gzip -dc ~{sep=" " squote(lanes)} > reads.txt
    LC_ALL=C sort reads.txt | uniq -c | awk '{ print $2 "\t" $1 }' > counts.tsv
  >>>
  output {
    File counts = "counts.tsv"
  }
}

# grep ends with 1 where it finds nothing, which is no fault here.
task find_control {
  input {
    File counts
  }
  command <<<
    grep -c '^control' '~{counts}'
  >>>
  output {
    Boolean found = read_int(stdout()) > 0
  }
  runtime {
    returnCodes: [0, 1]
  }
}

task per_thousand {
  input {
    File counts
  }
  command <<<
    awk -F '\t' '
      FNR == NR { reads += $2; next }
      { print $1 "\t" int(1000 * $2 / reads + 0.5) }
    ' '~{counts}' '~{counts}' > scaled.tsv
  >>>
  output {
    File scaled = "scaled.tsv"
  }
}

# A row for each gene, and a column for each sample.
task report {
  input {
    Array[String] ids
    Array[File] tables
  }
  # A file with a line for each sample: its name, a tab, the path of its table.
  File list = write_map(as_map(zip(ids, tables)))
  command <<<
    tab=$(printf '\t')
    while IFS=$tab read -r id table; do
      awk -F '\t' -v id="$id" '{ print id "\t" $0 }' "$table"
    done < ~{list} > all.tsv
    cut -f 2 all.tsv | LC_ALL=C sort -u > genes.txt
    awk -F '\t' '
      FILENAME == ARGV[1] { ids[++count] = $1; next }
      FILENAME == ARGV[2] { reads[$1, $2] = $3; next }
      FNR == 1 { printf "gene"; for (i = 1; i <= count; i++) printf "\t%s", ids[i]; print "" }
      { printf "%s", $1; for (i = 1; i <= count; i++) printf "\t%d", reads[ids[i], $1]; print "" }
    ' ~{list} all.tsv genes.txt > report.tsv
  >>>
  output {
    File table = "report.tsv"
    Array[Array[String]] rows = read_tsv("report.tsv")
  }
}

workflow cohort {
  input {
    File sheet
    # The folder of the files that the sheet names.
    String folder
    Boolean scale = false
  }
  call read_sheet { input: sheet }
  scatter (row in read_sheet.rows) {
    call fetch { input: lane = "~{folder}/~{row[2]}" }
    Pair[String, File] fetched = (row[0], fetch.copy)
  }
  # The lanes of each sample, in the order in which the sheet has the samples first.
  Map[String, Array[File]] lanes = collect_by_key(fetched)
  scatter (sample in as_pairs(lanes)) {
    String id = sample.left
    call count_genes { input: lanes = sample.right }
    call find_control { input: counts = count_genes.counts }
    if (scale) {
      call per_thousand { input: counts = count_genes.counts }
    }
    File counted = select_first([per_thousand.scaled, count_genes.counts])
  }
  call report { input: ids = id, tables = counted }
  output {
    Array[Array[String]] rows = report.rows
    Map[String, Boolean] controlled = as_map(zip(id, find_control.found))
    File table = report.table
  }
}
