import "regent"
task one(k : int64) : int64 return k + 1 end
task main(n : int64)
  var all : int64 = 0
  for i = 0, n do all = one(all) end
  regentlib.c.printf("%lld\n", all)
end
regentlib.start(main)
