-- Zones between points on a line: each zone pushes its points, and these move.
-- ./regent run examples/zones.rg 4 2 2
-- prints: 0 75 151 250 350

import "regent"

fspace point { x : int64, speed : int64, force : int64 }
-- a zone lies between two points of a region
fspace zone(points : region(ispace(int1d), point)) {
  left : int1d(point, points), right : int1d(point, points), pressure : int64
}

-- the pressure of a zone rises as its points come together
task press(zones : region(ispace(int1d), zone(wild)), points : region(ispace(int1d), point))
where reads(zones.{left, right}), writes(zones.pressure), reads(points.x) do
  for z in zones do
    var left = dynamic_cast(int1d(point, points), z.left)
    var right = dynamic_cast(int1d(point, points), z.right)
    z.pressure = 10000 / (right.x - left.x)
  end
end

-- a zone pushes its two points apart; points between two blocks of zones get forces of both
task push(zones : region(ispace(int1d), zone(wild)), points : region(ispace(int1d), point))
where reads(zones), reduces +(points.force) do
  for z in zones do
    var left = dynamic_cast(int1d(point, points), z.left)
    var right = dynamic_cast(int1d(point, points), z.right)
    left.force += -z.pressure
    right.force += z.pressure
  end
end

-- points move by their speed, to which forces are added; those at both ends are fixed
task move(own : region(ispace(int1d), point), last : int64)
where reads writes(own) do
  for p in own do
    if p > 0 and p < last then
      p.speed = p.speed + p.force / 10
      p.x = p.x + p.speed
    end
    p.force = 0
  end
end

-- n zones in so many blocks, the first one 50 wide and all others 100
task main(n : int64, count : int64, rounds : int64)
  var points = region(ispace(int1d, n + 1), point)
  var zones = region(ispace(int1d, n), zone(points))
  for p in points do
    p.x = 100 * int64(p)
    if p > 0 then p.x += -50 end
  end
  for z in zones do
    z.left = points[z]
    z.right = points[z + 1]
  end
  var blocks = ispace(int1d, count)
  var own = partition(equal, points, blocks)
  var pieces = partition(equal, zones, blocks)
  var left = image(points, pieces, zones.left)
  var right = image(points, pieces, zones.right)
  var reached = left | right
  for t = 0, rounds do
    for b in blocks do press(pieces[b], reached[b]) end
    for b in blocks do push(pieces[b], reached[b]) end
    for b in blocks do move(own[b], n) end
  end
  for p in points do regentlib.c.printf("%lld ", p.x) end
  regentlib.c.printf("\n")
end

regentlib.start(main)
