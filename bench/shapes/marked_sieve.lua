local p = {}
for i = 0, 19999 do p[i] = 0 end
local count = 0
for i = 2, 19999 do
  if p[i] == 0 then
    count = count + 1
    if i < 150 then
      local j = i * i
      while j < 20000 do p[j] = 1 j = j + i end
    end
  end
end
print(count)
