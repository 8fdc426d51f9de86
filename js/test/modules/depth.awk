function down(n) { return n ? down(n - 1) : "bottom" }
BEGIN { print down(depth) }
