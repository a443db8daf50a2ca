local composite = {}
local found = 0
for round = 0, 19 do
  for i = 2, 59999 do composite[i] = 0 end
  local i = 2
  while i * i < 60000 do
    if composite[i] == 0 then
      local j = i * i
      while j < 60000 do composite[j] = 1; j = j + i end
    end
    i = i + 1
  end
  found = 0
  for k = 2, 59999 do if composite[k] == 0 then found = found + 1 end end
end
print(found)
