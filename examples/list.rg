-- A linked list in a region: pointers in fields, insertion in order, reversal in place.
-- ./regent run examples/list.rg 6
-- prints: sum 15: 0 1 2 3 4 5, and back: 5 4 3 2 1 0

import "regent"

-- an element of a list points to the next one, or to none; a use of the field space says
-- into which region
fspace node(r : region(ispace(ptr), node(wild))) { value : int64, next : ptr(node(wild), r) }

-- the sum of the values from an element to the end of the list
task add_up(
  nodes : region(ispace(ptr), node(wild)),
  first : ptr(node(wild), nodes)
) : int64
where reads(nodes) do
  var sum : int64 = 0
  var at = first
  while not isnull(at) do
    sum += at.value
    at = dynamic_cast(ptr(node(wild), nodes), at.next)
  end
  return sum
end

task main(n : int64)
  var nodes = region(ispace(ptr, n), node(wild))
  fill(nodes.next, null(ptr(node(wild), nodes)))
  -- each element is inserted where it belongs in a sorted list
  var first = null(ptr(node(wild), nodes))
  for x in nodes do
    x.value = (7 * int64(x) + 3) % n
    if isnull(first) then
      first = x
    elseif x.value < first.value then
      x.next = first
      first = x
    else
      var before = first
      var after = dynamic_cast(ptr(node(wild), nodes), before.next)
      var found = false
      while not found do
        if isnull(after) then
          found = true
        elseif x.value < after.value then
          found = true
        else
          before = after
          after = dynamic_cast(ptr(node(wild), nodes), before.next)
        end
      end
      x.next = after
      before.next = x
    end
  end
  regentlib.c.printf("sum %lld:", add_up(nodes, first))
  -- the list is printed, and reversed in place
  var back = null(ptr(node(wild), nodes))
  while not isnull(first) do
    regentlib.c.printf(" %lld", first.value)
    var rest = dynamic_cast(ptr(node(wild), nodes), first.next)
    first.next = back
    back = first
    first = rest
  end
  regentlib.c.printf(", and back:")
  while not isnull(back) do
    regentlib.c.printf(" %lld", back.value)
    back = dynamic_cast(ptr(node(wild), nodes), back.next)
  end
  regentlib.c.printf("\n")
end

regentlib.start(main)
