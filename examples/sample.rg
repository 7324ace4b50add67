import "regent"
fspace cell { v : int64, w : int64, nbr : int1d }
fspace sum { s : int64 }
task setup(r : region(ispace(int1d), cell), n : int64)
where writes(r.{v, nbr}) do
  for x in r do
    x.v = int64(x)
    x.nbr = (x + 1) % n
  end
end
task step(r : region(ispace(int1d), cell), g : region(ispace(int1d), cell))
where reads(r.{v, nbr}, g.v), writes(r.w) do
  for x in r do x.w = x.v + g[x.nbr].v end
end
task back(r : region(ispace(int1d), cell))
where reads(r.w), writes(r.v) do
  for x in r do x.v = x.w end
end
task add(r : region(ispace(int1d), cell), t : region(ispace(int1d), sum))
where reads(r.v), reduces +(t.s) do
  for x in r do t[0].s += x.v end
end
task main()
  var r = region(ispace(int1d, 4096), cell)
  var t = region(ispace(int1d, 1), sum)
  var c = ispace(int1d, 1)
  var p = partition(equal, r, c)
  __demand(__index_launch)
  for k in c do setup(p[k], 4096) end
  var g = image(r, p, r.nbr)
  for i = 0, 4 do
    __demand(__index_launch)
    for k in c do step(p[k], g[k]) end
    __demand(__index_launch)
    for k in c do back(p[k]) end
  end
  __demand(__index_launch)
  for k in c do add(p[k], t) end
  regentlib.c.printf("%lld cells, total %lld\n", 4096, t[0].s)
end
regentlib.start(main)
