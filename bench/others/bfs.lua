local dist, queue = {}, {}
local total = 0
for s = 0, 5 do
  for i = 0, 4095 do dist[i] = -1 end
  local head, tail = 0, 1
  queue[0] = s * 600; dist[s * 600] = 0
  while head < tail do
    local u = queue[head]; head = head + 1
    local x, y, d = u & 63, u >> 6, dist[u] + 1
    if x > 0 then if dist[u - 1] < 0 then if (u * 7) % 5 ~= 0 then dist[u - 1] = d; queue[tail] = u - 1; tail = tail + 1 end end end
    if x < 63 then if dist[u + 1] < 0 then dist[u + 1] = d; queue[tail] = u + 1; tail = tail + 1 end end
    if y > 0 then if dist[u - 64] < 0 then dist[u - 64] = d; queue[tail] = u - 64; tail = tail + 1 end end
    if y < 63 then if dist[u + 64] < 0 then if (u * 3) % 4 ~= 0 then dist[u + 64] = d; queue[tail] = u + 64; tail = tail + 1 end end end
  end
  for i = 0, 4095 do total = total + dist[i] end
end
print(total)
