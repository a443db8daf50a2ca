local best={}
for i=0,2000 do best[i]=0 end
for k=1,60 do
  local w=k*13%47+5
  local v=k*29%101
  for c=2000,w,-1 do
    local t=best[c-w]+v
    if t>best[c] then best[c]=t end
  end
end
print(best[2000])
