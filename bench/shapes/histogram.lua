local count = {}
for k = 0, 255 do count[k] = 0 end
local x = 1
for i = 0, 999999 do
  x = (x * 75 + 74) % 65537
  local k = x & 255
  count[k] = count[k] + 1
end
local most = 0
for k = 0, 255 do if count[k] > most then most = count[k] end end
print(most)
