task main()
  var a : int64 = 0
  var b : int64 = 1
  for i = 0, 100000000 do a = a + b end
  regentlib.c.printf("%lld\n", a)
end
