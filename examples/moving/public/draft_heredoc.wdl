task Depth {
    File bam
    Array[String]+ regions
    String? flags

    command <<<
        set -eu
        for region in ${sep=" " regions}; do
            samtools depth ${flags} -r "$region" ${bam}
        done | awk '{ total += $3; n++ } END { print total / n }' > depth.txt
    >>>

    output {
        String depth = read_string("depth.txt")
    }

    runtime { docker: "quay.io/example/samtools:1.19" }
}
