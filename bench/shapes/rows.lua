local m = {}
for i = 0, 9999 do m[i] = 0 end
local s = 0
for r = 0, 9 do
  for i = 0, 99 do
    for j = 0, 99 do
      m[i * 100 + j] = i + j + r
      s = s + m[j * 100 + i]
    end
  end
end
print(s)
