local a, b = 0, 1
for i = 0, 99999999 do a = a + b end
print(a)
