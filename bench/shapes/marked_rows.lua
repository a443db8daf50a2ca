local a = {}
for i = 0, 9999 do a[i] = 0 end
for r = 0, 19 do for i = 0, 99 do for j = 0, 99 do a[i * 100 + j] = a[i * 100 + j] + i * j end end end
print(a[9999])
