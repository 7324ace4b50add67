-- Numbers counted in bins by reductions.
-- ./regent run --dump examples/histogram.rg 16
-- prints: five bins, the last `4: 1, up to 15`, then the dump

import "regent"

fspace bin { count : int, greatest : int64 }

-- how many of the binary digits of k are 1
task ones(k : int64) : int
  var rest = k
  var count = 0
  while rest > 0 do
    count += int(rest % 2)
    rest = rest / 2
  end
  return count
end

-- the numbers from 0 to below n, each in the bin of its ones
task main(n : int64)
  var c = ispace(int1d, 5)
  var bins = region(c, bin)
  for k = 0, n do
    var b = ones(k)
    bins[b].count += 1
    bins[b].greatest max= k
  end
  for b in c do
    regentlib.c.printf("%d: %d, up to %lld\n", int(b), bins[b].count, bins[b].greatest)
  end
end

regentlib.start(main)
