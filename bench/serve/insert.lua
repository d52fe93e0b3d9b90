-- Each request inserts a joint at a point of its own. Each thousandth validates instead, so that the dirty areas never fill up.
local threads = 0

function setup(thread)
  thread:set("number", threads)
  threads = threads + 1
end

local count = 0

function request()
  count = count + 1
  local body
  if count % 1000 == 0 then
    body = '{"do":"validate","extent":[0,0,1000000000,1000000000]}'
  else
    body = string.format('{"do":"insert","kind":"joint","points":[[%d,%d,0]]}', 1000 * (count % 300), 1000000 * number + 1000 * math.floor(count / 300))
  end
  return wrk.format("POST", "/commands", nil, body)
end
