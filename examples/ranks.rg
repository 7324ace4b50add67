-- How many items come before each one, by loops over pointers.
-- ./regent run examples/ranks.rg 6
-- prints: 0 1 2 2 4 4

import "regent"

fspace item { value : int64, rank : int }

-- the rank of an item is how many come before it: smaller ones, and equal ones that stand earlier
task rank(items : region(ispace(int1d), item))
where reads(items.value), reduces +(items.rank) do
  for a in items do
    for b in items do
      if b.value < a.value or b.value == a.value and int(b) < int(a) then a.rank += 1 end
    end
  end
end

-- the numbers k * k % 7 for k below n, in order
task main(n : int64)
  var places = ispace(int1d, n)
  var items = region(places, item)
  var sorted = region(places, item)
  for a in items do
    a.value = int64(a) * int64(a) % 7
  end
  rank(items)
  for a in items do
    sorted[a.rank].value = a.value
  end
  for s in sorted do
    regentlib.c.printf("%lld ", s.value)
  end
  regentlib.c.printf("\n")
end

regentlib.start(main)
