-- A rod of cells in three tasks that read, write and reduce.
-- ./regent run examples/rod.rg 5 2
-- prints: 1472, at most 1024

import "regent"

fspace cell { heat : int64, next : int64 }
fspace sum { all : int64, most : int64 }

-- each inner cell becomes a mean of itself and of its two neighbours
task step(rod : region(ispace(int1d), cell), n : int64)
where reads(rod.heat), writes(rod.next) do
  for i = 1, n - 1 do
    rod[i].next = (rod[i - 1].heat + 2 * rod[i].heat + rod[i + 1].heat) / 4
  end
end

task back(rod : region(ispace(int1d), cell), n : int64)
where reads(rod.next), writes(rod.heat) do
  for i = 1, n - 1 do rod[i].heat = rod[i].next end
end

-- what the cells have together, and the most that one has
task measure(rod : region(ispace(int1d), cell), n : int64, into : region(ispace(int1d), sum))
where reads(rod.heat), reduces +(into.all), reduces max(into.most) do
  for i = 0, n do
    into[0].all += rod[i].heat
    into[0].most max= rod[i].heat
  end
end

-- a rod of n cells, of which the first one is kept hot
task main(n : int64, rounds : int)
  var rod = region(ispace(int1d, n), cell)
  rod[0].heat = 1024
  for t = 0, rounds do
    step(rod, n)
    back(rod, n)
  end
  var s = region(ispace(int1d, 1), sum)
  measure(rod, n, s)
  regentlib.c.printf("%lld, at most %lld\n", s[0].all, s[0].most)
end

regentlib.start(main)
