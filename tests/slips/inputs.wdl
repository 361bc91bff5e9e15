version 1.1

struct Run {
  String sample
  Int replicate
  File? reads
}

workflow proteo {
  input {
    Array[Run]+ runs = [Run { sample: "s", replicate: 1 }]
    Int cap = 3
    Map[String, Int] weights = {}
    Pair[Int, String] edge = (1, "a")
    Array[Array[Int]] grid = []
    Boolean strict = false
    String tag = "x"
    Map[Int, Run] by_number = {}
    File? reference
  }
}
