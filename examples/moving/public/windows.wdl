version 1.0

task Lines {
  input {
    File text
  }
  Int disk = ceil(size(text, "GB"))
  command {
    awk '{ print }' ~{text}
  }
  runtime {
    disks: "local-disk ${disk} HDD"
  }
}
