-- Particles sorted into cells by a field, and measured cell by cell.
-- ./regent run examples/particles.rg 6 3 2
-- prints: three cells, the first `cell 0: 3, the fastest 16`

import "regent"

fspace particle { place : int64, speed : int64, cell : int }
fspace cell { count : int, fastest : int64 }

-- each particle moves around a ring of cells, ten places each
task move(all : region(ispace(int1d), particle), cells : int)
where reads(all.{place, speed}), writes(all.{place, cell}) do
  for p in all do
    p.place = (p.place + p.speed) % (int64(cells) * 10)
    p.cell = int(p.place / 10)
  end
end

-- counts the particles of a cell, and finds the fastest
task measure(
  here : region(ispace(int1d), particle),
  cells : region(ispace(int1d), cell),
  k : int1d
)
where reads(here.speed), reduces +(cells.count), reduces max(cells.fastest) do
  for p in here do
    cells[k].count += 1
    cells[k].fastest max= p.speed
  end
end

-- n particles move, and are then sorted into cells by the one that each has reached
task main(n : int64, cells : int, rounds : int)
  var all = region(ispace(int1d, n), particle)
  for p in all do p.speed = int64(p) * 3 + 1 end
  for t = 0, rounds do move(all, cells) end
  var sums = region(ispace(int1d, cells), cell)
  var sorted = partition(all.cell, ispace(int1d, cells))
  for k in sorted.colors do measure(sorted[k], sums, k) end
  for c in sums do
    regentlib.c.printf("cell %d: %d, the fastest %lld\n", int(c), c.count, c.fastest)
  end
end

regentlib.start(main)
