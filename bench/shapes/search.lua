local a = {}
local function find(x)
  local lo, hi = 0, 1024
  while lo < hi do
    local mid = (lo + hi) // 2
    if a[mid] < x then lo = mid + 1 else hi = mid end
  end
  return lo
end
for i = 0, 1023 do a[i] = i * 3 end
local s = 0
for k = 0, 19999 do s = s + find(k % 3072) end
print(s)
