import "regent"
fspace cell { count : int64 }
-- one step on a part of its own
task step(part : region(ispace(int1d), cell))
where reads writes(part.count) do
  for x in part do x.count += 1 end
end
task main(count : int64, rounds : int64)
  var all = region(ispace(int1d, count), cell)
  var parts = partition(equal, all, ispace(int1d, count))
  for t = 0, rounds do
    for c in parts.colors do step(parts[c]) end
  end
  var sum : int64 = 0
  for x in all do sum += x.count end
  regentlib.c.printf("%lld\n", sum)
end
regentlib.start(main)
