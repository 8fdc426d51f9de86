{ print NR ": " $0; print > "out" }
