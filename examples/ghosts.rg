-- A ring of cells in blocks with ghost cells: each block reads two more parts, by image.
-- ./regent run examples/ghosts.rg 8 2 2
-- prints: 3000 2000 500 0 0 0 500 2000

import "regent"

fspace cell { heat : int64, next : int64, left : int1d, right : int1d }

-- each cell knows its neighbours in the ring
task join(ring : region(ispace(int1d), cell), n : int64)
where writes(ring.{left, right}) do
  for x in ring do
    x.left = (x + n - 1) % n
    x.right = (x + 1) % n
  end
end

-- each cell of a block becomes a mean of itself and its neighbours in two other parts, the ghosts
task relax(
  own : region(ispace(int1d), cell),
  left : region(ispace(int1d), cell),
  right : region(ispace(int1d), cell)
)
where reads(own.{heat, left, right}), writes(own.next), reads(left.heat), reads(right.heat) do
  for x in own do
    x.next = (left[x.left].heat + 2 * x.heat + right[x.right].heat) / 4
  end
end

task back(own : region(ispace(int1d), cell))
where reads(own.next), writes(own.heat) do
  for x in own do x.heat = x.next end
end

-- a ring of n cells in some blocks; the first cell is hot
task main(n : int64, count : int64, rounds : int64)
  var ring = region(ispace(int1d, n), cell)
  join(ring, n)
  ring[0].heat = 8000
  var blocks = partition(equal, ring, ispace(int1d, count))
  var left = image(ring, blocks, ring.left)
  var right = image(ring, blocks, ring.right)
  for t = 0, rounds do
    for b in blocks.colors do relax(blocks[b], left[b], right[b]) end
    for b in blocks.colors do back(blocks[b]) end
  end
  for x in ring do regentlib.c.printf("%lld ", x.heat) end
  regentlib.c.printf("\n")
end

regentlib.start(main)
