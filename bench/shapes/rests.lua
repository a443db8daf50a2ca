local n = 0
local k = 77
for i = 0, 99999 do
  if i % 3 ~= 0 then n = n + 1 end
  if i - 5 ~= 0 then n = n + 1 end
  if i ~ k ~= 0 then n = n + 1 end
end
print(n)
