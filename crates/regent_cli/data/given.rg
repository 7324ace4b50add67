import "regent"

task main(a : int64, b : int64)
  var sum : int64 = a * 10 + b
  regentlib.c.printf("%lld %lld %lld\n", a, b, sum)
end

regentlib.start(main)
