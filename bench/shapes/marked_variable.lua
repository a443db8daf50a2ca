local n = 1000
local a = {}
for i = 0, 999 do a[i] = 0 end
for r = 0, 299 do for i = 0, n - 1 do a[i] = (a[i] * 3 + i) & 0xffffffff end end
print(a[999])
