-- A ring of cells relaxed in one task.
-- ./regent run examples/stencil.rg 2
-- prints: 3000 2000 500 0 0 0 500 2000

import "regent"

fspace cell { now : int64, next : int64 }

-- In each round a cell of the ring becomes a mean of itself and of its two neighbours.
task main(rounds : int)
  var c = ispace(int1d, 8)
  var ring = region(c, cell)
  ring[0].now = 8000
  for t = 0, rounds do
    for k in c do
      ring[k].next = (ring[(k + 7) % 8].now + 2 * ring[k].now + ring[(k + 1) % 8].now) / 4
    end
    for k in c do ring[k].now = ring[k].next end
  end
  for k in c do regentlib.c.printf("%lld ", ring[k].now) end
  regentlib.c.printf("\n")
end

regentlib.start(main)
