local function f(x) return x + 1 end
local s = 0
for r = 0, 9999 do
  local i = 0
  while i < 12 do
    s = s + f(i)
    i = i + 1
  end
end
print(s)
