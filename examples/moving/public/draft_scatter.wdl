import "draft_count.wdl" as counting

# Counts the reads of all lanes.
workflow CountLanes {
  Array[File] lanes # one file for each lane
  Map[String, String]
    labels = {"title": "lanes"}
  Boolean verbose = false

  scatter (lane in lanes) {
    call counting.CountReads as Count {
      input:
        fastq = lane
    }
  }

  if (verbose) {
    call Say { input: text = labels["title"] }
  }

  output {
    Array[Int] reads = Count.reads
  }
}

task Say { String text command { echo "${text}" } output { String said = read_string(stdout()) } }
