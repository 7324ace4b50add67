-- A sparse matrix in compressed rows, multiplied with a vector again and again, in blocks of rows.
-- ./regent run examples/sparse.rg 6 2 3
-- prints: 13 22 26 26 22 13

import "regent"

-- a row has the entries from `first` up to below `last`
fspace row { first : int64, last : int64, before : int64, after : int64 }
fspace entry { row : int1d, column : int1d, value : int64 }

-- the product of a block of rows: its own entries, and the numbers of the vector in their columns
task multiply(
  rows : region(ispace(int1d), row),
  entries : region(ispace(int1d), entry),
  vector : region(ispace(int1d), row)
)
where
  reads(rows.{first, last}), writes(rows.after),
  reads(entries.{column, value}), reads(vector.before)
do
  for r in rows do
    var sum : int64 = 0
    for k = r.first, r.last do
      sum += entries[k].value * vector[entries[k].column].before
    end
    r.after = sum
  end
end

task advance(rows : region(ispace(int1d), row))
where reads(rows.after), writes(rows.before) do
  for r in rows do r.before = r.after end
end

-- the matrix with 1 on the diagonal and on both sides of it
task lay_out(rows : region(ispace(int1d), row), entries : region(ispace(int1d), entry), n : int64)
where writes(rows.{first, last, before}), writes(entries) do
  var k : int64 = 0
  for r in rows do
    r.before = 1
    r.first = k
    for c = int64(r) - 1, int64(r) + 2 do
      if c >= 0 and c < n then
        entries[k].row = r
        entries[k].column = c
        entries[k].value = 1
        k += 1
      end
    end
    r.last = k
  end
end

-- n rows in so many blocks
task main(n : int64, count : int64, rounds : int64)
  var rows = region(ispace(int1d, n), row)
  var entries = region(ispace(int1d, 3 * n - 2), entry)
  lay_out(rows, entries, n)
  var blocks = ispace(int1d, count)
  var own = partition(equal, rows, blocks)
  -- the entries of a block of rows, and the elements of the vector in their columns
  var parts = preimage(entries, own, entries.row)
  var needed = image(rows, parts, entries.column)
  for t = 0, rounds do
    for b in blocks do multiply(own[b], parts[b], needed[b]) end
    for b in blocks do advance(own[b]) end
  end
  for r in rows do regentlib.c.printf("%lld ", r.before) end
  regentlib.c.printf("\n")
end

regentlib.start(main)
