version 1.1

task summary {
  input {
    File quality
  }
  command <<<
    cp '~{quality}' quality.json
  >>>
  output {
    Map[String, Int] counts = read_json("quality.json")
  }
}
