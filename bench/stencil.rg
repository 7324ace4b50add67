import "regent"
fspace cell { now : int64, next : int64 }
task main(n : int64, rounds : int64)
  var r = region(ispace(int1d, n), cell)
  r[0].now = 1000000
  for t = 0, rounds do
    for i = 1, n - 1 do
      r[i].next = (r[i - 1].now + 2 * r[i].now + r[i + 1].now) / 4
    end
    for i = 1, n - 1 do r[i].now = r[i].next end
  end
  regentlib.c.printf("%lld\n", r[1].now)
end
regentlib.start(main)
