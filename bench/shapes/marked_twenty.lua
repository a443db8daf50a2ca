local a = {}
for i = 0, 19 do a[i] = 0 end
for r = 0, 4999 do for i = 0, 19 do a[i] = a[i] + r end end
print(a[2])
