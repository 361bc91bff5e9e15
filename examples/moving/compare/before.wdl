version 1.1

workflow filter {
  input {
    String quality = "9.5"
    String least = "20.0"
  }
  output {
    Boolean enough = quality >= least
  }
}
