local n, rounds = tonumber(arg[1]), tonumber(arg[2])
local now, nxt = {}, {}
for i = 0, n - 1 do now[i] = 0; nxt[i] = 0 end
now[0] = 1000000
for t = 1, rounds do
  for i = 1, n - 2 do nxt[i] = (now[i-1] + 2*now[i] + now[i+1]) // 4 end
  for i = 1, n - 2 do now[i] = nxt[i] end
end
print(now[1])
