local r = {}
for i = 0, 999999 do r[i] = 0 end
for k = 0, 9 do
  for i = 0, 999999 do r[i] = r[i] + 1 end
end
print(r[7])
