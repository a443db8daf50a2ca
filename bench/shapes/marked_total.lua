local a = {}
for i = 0, 999 do a[i] = 0 end
total = 0
for r = 0, 199 do for i = 0, 999 do total = total + a[i] + i end end
print(total)
