-- A circuit in pieces with private, shared and ghost nodes, by partitions of two levels.
-- ./regent run examples/shared_circuit.rg 12 3 2
-- prints: 6 shared nodes: 256 128 64 128 64 0 0 0 64 128 64 128

import "regent"

fspace node { voltage : int64, charge : int64, piece : int64, is_shared : int64 }
-- a wire begins in its own piece, and may end in another one
fspace wire(
  private : region(ispace(int1d), node),
  shared : region(ispace(int1d), node),
  ghost : region(ispace(int1d), node)
) {
  piece : int64, current : int64,
  first : int1d(node, private, shared),
  last : int1d(node, private, shared, ghost)
}

-- the pointers of a piece's wires go into the regions that the piece takes
task aim(
  private : region(ispace(int1d), node),
  shared : region(ispace(int1d), node),
  ghost : region(ispace(int1d), node),
  wires : region(ispace(int1d), wire(private, shared, ghost))
)
where reads writes(wires.{first, last}) do
  for w in wires do
    w.first = dynamic_cast(int1d(node, private, shared), w.first)
    w.last = dynamic_cast(int1d(node, private, shared, ghost), w.last)
  end
end

-- the current of each wire
task flow(
  private : region(ispace(int1d), node),
  shared : region(ispace(int1d), node),
  ghost : region(ispace(int1d), node),
  wires : region(ispace(int1d), wire(private, shared, ghost))
)
where
  reads(private.voltage, shared.voltage, ghost.voltage, wires.{first, last}),
  writes(wires.current)
do
  for w in wires do w.current = (w.first.voltage - w.last.voltage) / 4 end
end

-- the current leaves one node and reaches another; ghosts are shared nodes of other pieces, and
-- several pieces may reduce into one at the same time
task spread(
  private : region(ispace(int1d), node),
  shared : region(ispace(int1d), node),
  ghost : region(ispace(int1d), node),
  wires : region(ispace(int1d), wire(private, shared, ghost))
)
where reads(wires), reduces +(private.charge, shared.charge, ghost.charge) do
  for w in wires do
    w.first.charge += -w.current
    w.last.charge += w.current
  end
end

task settle(private : region(ispace(int1d), node), shared : region(ispace(int1d), node))
where reads writes(private.{voltage, charge}, shared.{voltage, charge}) do
  for n in private do
    n.voltage = n.voltage + n.charge
    n.charge = 0
  end
  for n in shared do
    n.voltage = n.voltage + n.charge
    n.charge = 0
  end
end

-- n nodes in a ring with a chord from each to the next but one, in so many pieces; the first node
-- has a voltage
task lay_out(
  nodes : region(ispace(int1d), node),
  wires : region(ispace(int1d), wire(wild, wild, wild)),
  n : int64,
  count : int64
)
where
  reads writes(nodes.{piece, is_shared}), writes(nodes.voltage),
  writes(wires.{piece, first, last})
do
  for k in nodes do k.piece = int64(k) * count / n end
  for w in wires do
    var from = int64(w) % n
    var to = (from + 1) % n
    if int64(w) >= n then to = (from + 2) % n end
    w.piece = nodes[from].piece
    w.first = dynamic_cast(int1d(node, nodes), from)
    w.last = dynamic_cast(int1d(node, nodes), to)
    if nodes[from].piece ~= nodes[to].piece then nodes[to].is_shared = 1 end
  end
  nodes[0].voltage = 1024
end

task main(n : int64, count : int64, rounds : int64)
  var nodes = region(ispace(int1d, n), node)
  var wires = region(ispace(int1d, 2 * n), wire(wild, wild, wild))
  lay_out(nodes, wires, n, count)
  -- the first level: nodes that one piece alone uses, and nodes that wires of other pieces reach
  var kinds = partition(nodes.is_shared, ispace(int1d, 2))
  var all_private = kinds[0]
  var all_shared = kinds[1]
  -- the second level: both by pieces; the ghosts of a piece are the shared nodes of other pieces
  -- that its wires reach
  var pieces = ispace(int1d, count)
  var private = partition(all_private.piece, pieces)
  var shared = partition(all_shared.piece, pieces)
  var own = partition(wires.piece, pieces)
  var reached = image(all_shared, own, wires.last)
  var ghost = reached - shared
  for p in pieces do aim(private[p], shared[p], ghost[p], own[p]) end
  for t = 0, rounds do
    __demand(__index_launch)
    for p in pieces do flow(private[p], shared[p], ghost[p], own[p]) end
    __demand(__index_launch)
    for p in pieces do spread(private[p], shared[p], ghost[p], own[p]) end
    __demand(__index_launch)
    for p in pieces do settle(private[p], shared[p]) end
  end
  var count_shared = 0
  var all : int64 = 0
  for k in all_shared do count_shared += 1 end
  regentlib.c.printf("%d shared nodes:", count_shared)
  for k in nodes do
    regentlib.c.printf(" %lld", k.voltage)
    all += k.voltage
  end
  regentlib.assert(all == 1024, "no charge is lost")
  regentlib.c.printf("\n")
end

regentlib.start(main)
