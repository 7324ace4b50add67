import "regent"
fspace cell { v : int64 }
fspace sum { all : int64 }
task add(r : region(ispace(int1d), cell), s : region(ispace(int1d), sum))
where reads(r.v), reduces +(s.all) do
  for x in r do s[0].all += x.v end
end
task main(n : int64)
  var r = region(ispace(int1d, n), cell)
  var s = region(ispace(int1d, 1), sum)
  for x in r do x.v = int64(x) end
  add(r, s)
  regentlib.c.printf("%lld\n", s[0].all)
end
regentlib.start(main)
