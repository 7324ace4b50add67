-- A first program: a variable, an assignment and a print.
-- ./regent run examples/first.rg
-- prints: 7

import "regent"

task main()
  var x : int64 = 3
  x = x * 2 + 1
  regentlib.c.printf("%lld\n", x)
end

regentlib.start(main)
