-- Triangles whose corners are pointers into a region; pieces reduce into the corners they reach.
-- ./regent run examples/mesh.rg 2 3
-- prints: 1 3 2 3 6 3 2 3 1

import "regent"

fspace corner { x : int64, y : int64, load : int64 }
-- a triangle points to its corners; a use of the field space says into which region
fspace triangle(corners : region(ispace(int1d), corner)) {
  a : int1d(corner, corners), b : int1d(corner, corners), c : int1d(corner, corners)
}

-- a square of n by n squares, each of which is cut into two triangles
task lay_out(
  corners : region(ispace(int1d), corner),
  triangles : region(ispace(int1d), triangle(corners)),
  n : int64
)
where writes(corners.{x, y}), writes(triangles.{a, b, c}) do
  for k in corners do
    k.x = int64(k) % (n + 1)
    k.y = int64(k) / (n + 1)
  end
  for t in triangles do
    var s = int64(t) / 2
    var low = s / n * (n + 1) + s % n
    if int64(t) % 2 == 0 then
      t.a = corners[low]
      t.b = corners[low + 1]
      t.c = corners[low + n + 1]
    else
      t.a = corners[low + n + 2]
      t.b = corners[low + n + 1]
      t.c = corners[low + 1]
    end
  end
end

-- each triangle loads its corners with twice its area; the task takes only the corners that its
-- triangles reach
task load(
  own : region(ispace(int1d), triangle(wild)),
  reached : region(ispace(int1d), corner)
)
where reads(own), reads(reached.{x, y}), reduces +(reached.load) do
  for t in own do
    var a = dynamic_cast(int1d(corner, reached), t.a)
    var b = dynamic_cast(int1d(corner, reached), t.b)
    var c = dynamic_cast(int1d(corner, reached), t.c)
    var area = (b.x - a.x) * (c.y - a.y) - (b.y - a.y) * (c.x - a.x)
    a.load += area
    b.load += area
    c.load += area
  end
end

task main(n : int64, count : int64)
  var corners = region(ispace(int1d, (n + 1) * (n + 1)), corner)
  var triangles = region(ispace(int1d, 2 * n * n), triangle(corners))
  lay_out(corners, triangles, n)
  var pieces = partition(equal, triangles, ispace(int1d, count))
  var first = image(corners, pieces, triangles.a)
  var second = image(corners, pieces, triangles.b)
  var third = image(corners, pieces, triangles.c)
  var two = first | second
  var reached = two | third
  for p in pieces.colors do load(pieces[p], reached[p]) end
  var all : int64 = 0
  for k in corners do
    regentlib.c.printf("%lld ", k.load)
    all += k.load
  end
  regentlib.assert(all == 6 * n * n, "three corners to a triangle")
  regentlib.c.printf("\n")
end

regentlib.start(main)
