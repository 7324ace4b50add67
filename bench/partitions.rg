import "regent"

fspace point { to : int1d, colour : int64 }

-- the seven operations on n points in so many colours, and how many points the parts have together
task main(n : int64, colours : int64)
  var points = region(ispace(int1d, n), point)
  for p in points do
    p.to = (int64(p) * 7 + 1) % n
    p.colour = int64(p) * 11 % colours
  end
  var cells = ispace(int1d, colours)
  var blocks = partition(equal, points, cells)
  var by_colour = partition(points.colour, cells)
  var reached = image(points, blocks, points.to)
  var leading = preimage(points, blocks, points.to)
  var both = blocks & by_colour
  var either = blocks | by_colour
  var rest = blocks - by_colour
  var sum : int64 = 0
  for c in cells do
    for p in reached[c] do sum += 1 end
    for p in leading[c] do sum += 1 end
    for p in both[c] do sum += 1 end
    for p in either[c] do sum += 1 end
    for p in rest[c] do sum += 1 end
  end
  regentlib.c.printf("%lld\n", sum)
end

regentlib.start(main)
