local a = {}
for i = 0, 9 do a[i] = 0 end
for r = 0, 9999 do for i = 0, 9 do a[i] = a[i] + r end end
print(a[2])
