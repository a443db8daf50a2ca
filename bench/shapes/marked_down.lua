local a = {}
for i = 0, 999 do a[i] = 0 end
for r = 0, 199 do for i = 999, 0, -1 do a[i] = a[i] + i end end
print(a[999])
