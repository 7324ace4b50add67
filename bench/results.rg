import "regent"
-- some instructions in so many rounds, and the number that they result in
task work(seed : int64, rounds : int64) : int64
  var sum = seed
  for i = 0, rounds do sum = (sum * 3 + i) % 1000003 end
  return sum
end
-- so many calls, eight by name in each round: they run at once, and their results are waited for in the sum
task main(count : int64, rounds : int64)
  var total : int64 = 0
  for k = 0, count / 8 do
    var a = work(8 * k, rounds)
    var b = work(8 * k + 1, rounds)
    var c = work(8 * k + 2, rounds)
    var d = work(8 * k + 3, rounds)
    var e = work(8 * k + 4, rounds)
    var f = work(8 * k + 5, rounds)
    var g = work(8 * k + 6, rounds)
    var h = work(8 * k + 7, rounds)
    total += a + b + c + d + e + f + g + h
  end
  regentlib.c.printf("%lld\n", total)
end
regentlib.start(main)
