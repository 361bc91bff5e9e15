version 1.1
task say {
  input { String s }
  command <<<
    echo ~{s}
  >>>
  output { String r = read_string(stdout()) }
}
workflow w { call say { input: s = "hi" } output { String r = say.r } }
