local hits = {}
for w = 0, 15 do
  local seed, inside = w * 977 + 1, 0
  for k = 0, 3999 do
    seed = (seed * 1309 + 13849) % 65536
    local x = seed >> 6
    seed = (seed * 1309 + 13849) % 65536
    local y = seed >> 6
    if x * x + y * y < 1048576 then inside = inside + 1 end
  end
  hits[w] = inside
end
local s = 0
for w = 0, 15 do s = s + hits[w] end
print(s)
