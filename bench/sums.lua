local n = tonumber(arg[1])
local v, s = {}, {[0] = 0}
for i = 0, n - 1 do v[i] = i end
for i = 0, n - 1 do s[0] = s[0] + v[i] end
print(s[0])
