local next = {}
for i = 0, 999 do next[i] = (i + 7) % 1000 end
local at, s, k = 0, 0, 0
while k < 200000 do s = s + at; at = next[at]; k = k + 1 end
print(s)
