-- Charge that flows through a circuit whose wires lead from piece to piece.
-- ./regent run examples/circuit.rg 8 2 2
-- prints: 384 0 64 256 0 256 64 0

import "regent"

fspace node { voltage : int64, charge : int64 }
fspace wire { first : int1d, last : int1d, current : int64 }

-- the current of each wire of a piece, from where it begins to where it ends
task flow(
  wires : region(ispace(int1d), wire),
  from : region(ispace(int1d), node),
  to : region(ispace(int1d), node)
)
where reads(wires.{first, last}), writes(wires.current), reads(from.voltage), reads(to.voltage) do
  for w in wires do
    w.current = (from[w.first].voltage - to[w.last].voltage) / 4
  end
end

-- the current leaves one node and reaches another, which may belong to another piece
task spread(
  wires : region(ispace(int1d), wire),
  from : region(ispace(int1d), node),
  to : region(ispace(int1d), node)
)
where reads(wires.{first, last, current}), reduces +(from.charge), reduces +(to.charge) do
  for w in wires do
    from[w.first].charge += -w.current
    to[w.last].charge += w.current
  end
end

task settle(own : region(ispace(int1d), node))
where reads(own.{voltage, charge}), writes(own.{voltage, charge}) do
  for n in own do
    n.voltage = n.voltage + n.charge
    n.charge = 0
  end
end

-- n nodes in a ring with a chord from each to its opposite; the first node has a voltage
task main(n : int64, count : int64, rounds : int64)
  var nodes = region(ispace(int1d, n), node)
  var wires = region(ispace(int1d, 2 * n), wire)
  for w in wires do
    w.first = int64(w) % n
    if int64(w) < n then w.last = (int64(w) + 1) % n else w.last = (int64(w) + n / 2) % n end
  end
  nodes[0].voltage = 1024
  var owned = partition(equal, nodes, ispace(int1d, count))
  var pieces = preimage(wires, owned, wires.first)
  var reached = image(nodes, pieces, wires.last)
  for t = 0, rounds do
    for p in owned.colors do flow(pieces[p], owned[p], reached[p]) end
    for p in owned.colors do spread(pieces[p], owned[p], reached[p]) end
    for p in owned.colors do settle(owned[p]) end
  end
  var all : int64 = 0
  for k in nodes do
    regentlib.c.printf("%lld ", k.voltage)
    all += k.voltage
  end
  regentlib.assert(all == 1024, "no charge is lost")
  regentlib.c.printf("\n")
end

regentlib.start(main)
