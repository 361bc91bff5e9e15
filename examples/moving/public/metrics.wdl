version 1.0

struct Limits {
  Float contamination
  Int depth
}

task Metrics {
  input {
    File bam
    Limits limits
  }
  command <<<
    metrics --json --limit ~{limits.contamination} ~{bam} > metrics.json
  >>>
  output {
    Map[String, String] metrics = read_json("metrics.json")
  }
  runtime {
    memory: "3.5 GB"
  }
}
