-- Breadth-first search: edges in blocks reduce the least distance into the nodes that they reach.
-- ./regent run examples/search.rg 10 3
-- prints: 0 1 1 2 2 3 3 4 4 5 in 6 rounds

import "regent"

fspace node { distance : int64, next : int64 }
fspace edge { from : int1d, to : int1d }
fspace change { count : int64 }

-- each edge offers its end one step more than its beginning has
task offer(
  edges : region(ispace(int1d), edge),
  from : region(ispace(int1d), node),
  to : region(ispace(int1d), node)
)
where reads(edges, from.distance), reduces min(to.next) do
  for e in edges do to[e.to].next min= from[e.from].distance + 1 end
end

-- the nodes of a block take the least offer, and count the changes
task take(own : region(ispace(int1d), node), changes : region(ispace(int1d), change))
where reads writes(own.{distance, next}), reduces +(changes.count) do
  for k in own do
    if k.next < k.distance then
      k.distance = k.next
      changes[0].count += 1
    end
  end
end

-- n nodes, of which node k leads to k + 1 and k + 2; the search begins at node 0
task main(n : int64, count : int64)
  var nodes = region(ispace(int1d, n), node)
  var edges = region(ispace(int1d, 2 * n), edge)
  var changes = region(ispace(int1d, 1), change)
  fill(nodes.{distance, next}, 2 * n)
  nodes[0].next = 0
  for e in edges do
    e.from = int64(e) / 2
    e.to = (int64(e) / 2 + int64(e) % 2 + 1) % n
  end
  var blocks = ispace(int1d, count)
  var own = partition(equal, nodes, blocks)
  var outgoing = preimage(edges, own, edges.from)
  var reached = image(nodes, outgoing, edges.to)
  var rounds = 0
  var changed = true
  while changed do
    changes[0].count = 0
    for b in blocks do take(own[b], changes) end
    for b in blocks do offer(outgoing[b], own[b], reached[b]) end
    changed = changes[0].count > 0
    if changed then rounds += 1 end
  end
  for k in nodes do regentlib.c.printf("%lld ", k.distance) end
  regentlib.c.printf("in %d rounds\n", rounds)
end

regentlib.start(main)
