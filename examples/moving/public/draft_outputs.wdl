task Split {
  File list
  command { split -l 100 ${list} part. }
  output { Array[File] parts = glob("part.*") }
}

workflow SplitList {
  File list
  call Split { input: list = list }
  output {
    Split.*
  }
}
