local h={}
for i=0,12 do h[i]=0 end
local seed=7
local function roll() seed=(seed*421+1663)%7875; return seed%6+1 end
for i=0,39999 do local x=roll(); local y=roll(); h[x+y]=h[x+y]+1 end
for i=2,12 do print(h[i]) end
