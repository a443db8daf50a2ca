local parent = {}
local function root(x)
  while parent[x] ~= x do parent[x] = parent[parent[x]]; x = parent[x] end
  return x
end
for i = 0, 4999 do parent[i] = i end
local seed, joined = 5, 0
for k = 0, 5999 do
  seed = (seed * 1309 + 13849) % 65536
  local a = root(seed % 5000)
  seed = (seed * 1309 + 13849) % 65536
  local b = root(seed % 5000)
  if a ~= b then parent[a] = b; joined = joined + 1 end
end
print(joined)
