-- Products of square matrices, each a region with one element for each entry.
-- ./regent run examples/matrix.rg 3
-- prints: trace 24, corner 6

import "regent"

fspace entry { value : int64 }

-- the entry in a row and a column of a square matrix of n rows is at row * n + column
task fill_in(a : region(ispace(int1d), entry), n : int64)
where writes(a.value) do
  for e in a do
    var row = int64(e) / n
    var column = int64(e) % n
    if row == column then
      e.value = 2
    elseif row + 1 == column then
      e.value = -1
    else
      e.value = 0
    end
  end
end

task times(
  a : region(ispace(int1d), entry),
  b : region(ispace(int1d), entry),
  c : region(ispace(int1d), entry),
  n : int64
)
where a * c, b * c, reads(a.value), reads(b.value), writes(c.value) do
  for e in c do
    var sum : int64 = 0
    for k = 0, n do sum += a[int64(e) / n * n + k].value * b[k * n + int64(e) % n].value end
    e.value = sum
  end
end

-- asserts of each entry that (a * a) * a equals a * (a * a)
task main(n : int64)
  var s = ispace(int1d, n * n)
  var a = region(s, entry)
  var square = region(s, entry)
  var one = region(s, entry)
  var other = region(s, entry)
  fill_in(a, n)
  times(a, a, square, n)
  times(square, a, one, n)
  times(a, square, other, n)
  var trace : int64 = 0
  for k = 0, n * n do regentlib.assert(one[k].value == other[k].value, "products associate") end
  for k = 0, n do trace += one[k * n + k].value end
  regentlib.c.printf("trace %lld, corner %lld\n", trace, one[n - 1].value)
end

regentlib.start(main)
