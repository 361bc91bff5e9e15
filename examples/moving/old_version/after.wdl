version 1.1

task sort_names {
  input {
    File names
  }
  command {
    sort ${names} > sorted.txt
  }
  output {
    File sorted = "sorted.txt"
  }
}
