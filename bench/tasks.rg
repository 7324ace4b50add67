import "regent"
fspace cell { sum : int64 }
-- so many rounds of some instructions, on a part of its own
task work(part : region(ispace(int1d), cell), rounds : int64)
where writes(part.sum) do
  var sum : int64 = 0
  for i = 0, rounds do sum = (sum * 3 + i) % 1000003 end
  for x in part do x.sum = sum end
end
task main(count : int64, rounds : int64)
  var all = region(ispace(int1d, count), cell)
  var parts = partition(equal, all, ispace(int1d, count))
  for c in parts.colors do work(parts[c], rounds) end
  var sum : int64 = 0
  for x in all do sum += x.sum end
  regentlib.c.printf("%lld\n", sum)
end
regentlib.start(main)
