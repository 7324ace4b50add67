local function touch(r) r[1] = r[1] + 7 end
local r = {}
for i = 0, 999999 do r[i] = 0 end
for k = 1, 100000 do touch(r) end
print(r[1])
