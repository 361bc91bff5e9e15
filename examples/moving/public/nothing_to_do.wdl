version 1.1

# version 1.0 had `ceil(size(bam, "GB"))` here, in a `command { .. }`.

task report {
  input {
    File counts
    String title = "version 1.0: sub(x, 'a', 'b') costs 2.50"
  }

  command <<<
    # command { ceil(size(x)) * 2.5 }
    printf '%s\n' '~{title}' "${HOME:+at home}"
    awk '{ total += $2 } END { print total / 2.5 }' '~{counts}'
  >>>

  output {
    String text = read_string(stdout())
  }

  runtime {
    docker: "ubuntu:22.04" # Float, sub and size in a comment
    memory: "2.5 GB"
  }

  meta {
    version: 1.5
    object: "read_json"
  }
}
