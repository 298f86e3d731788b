-- The body of short.p3l.
for line in io.lines() do
  local x = math.tointeger(tonumber(line))
  local t = x * 2 + 1
  local y = t * t - x
  y = y ~ t
  print(y)
end
