-- How many steps a number takes to 1: numbers and loops alone.
-- ./regent run examples/steps.rg 27
-- prints: 111

import "regent"

-- how many steps it takes from n to 1
task main(n : int64)
  var k = n
  var steps = 0
  while k ~= 1 do
    if k % 2 == 0 then k = k / 2 else k = 3 * k + 1 end
    steps += 1
  end
  regentlib.c.printf("%d\n", steps)
end

regentlib.start(main)
