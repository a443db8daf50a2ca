local a, b, count = {}, {}, {}
local seed = 3
for i = 0, 3999 do seed = (seed * 1309 + 13849) % 65536; a[i] = seed end
for shift = 0, 12, 4 do
  for k = 0, 16 do count[k] = 0 end
  for i = 0, 3999 do local d = ((a[i] >> shift) & 15) + 1; count[d] = count[d] + 1 end
  for k = 0, 15 do count[k + 1] = count[k + 1] + count[k] end
  for i = 0, 3999 do local d = (a[i] >> shift) & 15; b[count[d]] = a[i]; count[d] = count[d] + 1 end
  for i = 0, 3999 do a[i] = b[i] end
end
print(a[0]); print(a[1999]); print(a[3999])
