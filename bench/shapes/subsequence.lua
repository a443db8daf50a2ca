local a, b, d = {}, {}, {}
local seed = 7
for i = 0, 40400 do d[i] = 0 end
for i = 0, 199 do seed = (seed * 1103 + 12345) % 65536; a[i] = seed % 4 end
for i = 0, 199 do seed = (seed * 1103 + 12345) % 65536; b[i] = seed % 4 end
for i = 1, 200 do
  for j = 1, 200 do
    if a[i - 1] == b[j - 1] then d[i * 201 + j] = d[(i - 1) * 201 + j - 1] + 1
    else
      local u = d[(i - 1) * 201 + j]
      local v = d[i * 201 + j - 1]
      if u > v then d[i * 201 + j] = u else d[i * 201 + j] = v end
    end
  end
end
print(d[40400])
