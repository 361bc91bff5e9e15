version 1.1
# Matches the reads of each sample, lane by lane, against a reference with its index, and reports all samples in one table.

struct Sample {
  String id
  Array[File]+ lanes
}

# Many tools look for an index beside the file that it belongs to. A link gives the reference a place where its index can be written.
task index_reference {
  input {
    File reference
  }
  command <<<
    ln -s '~{reference}' reference.fa
    awk '
      /^>/ { name = substr($1, 2); names[++count] = name; next }
      { bases[name] += length($0) }
      END { for (i = 1; i <= count; i++) print names[i] "\t" bases[names[i]] }
    ' reference.fa > reference.fa.index
  >>>
  output {
    # A link to a file is a file of the job.
    File fasta = "reference.fa"
    File index = "reference.fa.index"
  }
}

task filter_lane {
  input {
    File lane
    Int shortest
  }
  String name = basename(lane, ".fastq")
  command <<<
    awk 'NR % 4 == 2 && length($0) >= ~{shortest}' '~{lane}' > '~{name}.reads'
    gzip '~{name}.reads'
  >>>
  output {
    File reads = "~{name}.reads.gz"
  }
}

# Writes sequence, place and read for each match.
task match_reads {
  input {
    String id
    Array[File]+ lanes
    File fasta
    File index
  }
  command <<<
    ln -s '~{fasta}' reference.fa
    ln -s '~{index}' reference.fa.index
    gzip -dc ~{sep=" " squote(lanes)} > reads.txt
    awk '
      FILENAME == "reference.fa.index" { names[++count] = $1; next }
      FILENAME == "reference.fa" && /^>/ { name = substr($1, 2); next }
      FILENAME == "reference.fa" { bases[name] = bases[name] $0; next }
      { for (i = 1; i <= count; i++) if (place = index(bases[names[i]], $0)) print names[i] "\t" place "\t" $0 }
    ' reference.fa.index reference.fa reads.txt > matches.tsv
    LC_ALL=C sort -k 1,1 -k 2,2n matches.tsv > '~{id}.tsv'
  >>>
  output {
    File matches = "~{id}.tsv"
  }
}

# Keeps one read of those that match at one place.
task unique_places {
  input {
    String id
    File matches
  }
  command <<<
    awk -F '\t' '!seen[$1, $2]++' '~{matches}' > '~{id}.unique.tsv'
  >>>
  output {
    File unique = "~{id}.unique.tsv"
  }
}

task count_matches {
  input {
    File matches
    File index
  }
  command <<<
    awk -F '\t' '
      FILENAME == ARGV[1] { reads[$1]++; next }
      { print $1 "\t" reads[$1] + 0 }
    ' '~{matches}' '~{index}' > counts.tsv
  >>>
  output {
    File counts = "counts.tsv"
  }
}

# A row for each sequence, and a column for each sample.
task report {
  input {
    Array[String]+ ids
    Array[File]+ tables
  }
  command <<<
    printf 'sequence\t%s\n' '~{sep="\t" ids}' > report.tsv
    paste ~{sep=" " squote(tables)} > side_by_side.tsv
    awk -F '\t' '{ printf "%s", $1; for (i = 2; i <= NF; i += 2) printf "\t%s", $i; print "" }' side_by_side.tsv >> report.tsv
    awk -F '\t' 'NR > 1 { for (i = 2; i <= NF; i++) reads += $i } END { print reads + 0 }' report.tsv
  >>>
  output {
    File table = "report.tsv"
    Array[Array[String]] rows = read_tsv("report.tsv")
    Int matched = read_int(stdout())
  }
}

workflow panel {
  input {
    Array[Sample]+ samples
    File reference
    Int shortest = 4
    Boolean unique = false
  }
  call index_reference { input: reference }
  scatter (sample in samples) {
    String id = sample.id
    scatter (lane in sample.lanes) {
      call filter_lane { input: lane, shortest }
    }
    call match_reads {
      input:
        id,
        lanes = filter_lane.reads,
        fasta = index_reference.fasta,
        index = index_reference.index
    }
    if (unique) {
      call unique_places { input: id, matches = match_reads.matches }
    }
    File counted = select_first([unique_places.unique, match_reads.matches])
    call count_matches { input: matches = counted, index = index_reference.index }
  }
  call report { input: ids = id, tables = count_matches.counts }
  output {
    Array[File] matches = counted
    Array[Array[String]] rows = report.rows
    Int matched = report.matched
    File table = report.table
  }
}
