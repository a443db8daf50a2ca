local m = {}
for i = 0, 9999 do m[i] = i % 97 end
for r = 0, 9 do
  for i = 0, 99 do
    for j = 0, i - 1 do
      local t = m[i * 100 + j]
      m[i * 100 + j] = m[j * 100 + i]
      m[j * 100 + i] = t
    end
  end
end
local s = 0
for i = 0, 99 do s = s + m[i * 100 + 3] * i end
print(s)
