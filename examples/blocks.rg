-- A rod of cells in blocks, each relaxed by a task of its own that reads the whole rod.
-- ./regent run examples/blocks.rg 8 3 4
-- prints: what is left in each block, the last line `block 2 has 0`

import "regent"

fspace cell { heat : int64, next : int64 }

-- each cell of a block becomes a mean of itself and its neighbours, which may be in other blocks
task relax(
  block : region(ispace(int1d), cell),
  rod : region(ispace(int1d), cell),
  n : int64
)
where block <= rod, reads(rod.heat), writes(rod.next) do
  for x in block do
    if int64(x) == 0 or int64(x) == n - 1 then
      x.next = x.heat
    else
      x.next = (rod[x - 1].heat + 2 * x.heat + rod[x + 1].heat) / 4
    end
  end
end

task back(block : region(ispace(int1d), cell))
where reads(block.next), writes(block.heat) do
  for x in block do x.heat = x.next end
end

-- the heat of a block
task heat_of(block : region(ispace(int1d), cell)) : int64
where reads(block.heat) do
  var sum : int64 = 0
  for x in block do sum += x.heat end
  return sum
end

-- a rod of n cells in some blocks; the first cell is hot
task main(n : int64, count : int64, rounds : int64)
  var rod = region(ispace(int1d, n), cell)
  var blocks = partition(equal, rod, ispace(int1d, count))
  rod[0].heat = 1024
  for t = 0, rounds do
    for b in blocks.colors do relax(blocks[b], rod, n) end
    for b in blocks.colors do back(blocks[b]) end
  end
  for b in blocks.colors do
    regentlib.c.printf("block %lld has %lld\n", int64(b), heat_of(blocks[b]))
  end
end

regentlib.start(main)
