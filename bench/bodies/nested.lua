-- The body of nested.p3l.
for line in io.lines() do
  local n = math.tointeger(tonumber(line))
  local sum = 0
  local a = {}
  for i = 0, 255 do
    a[i] = i * 7 % 13
  end
  local k = 0
  while k < n do
    local i = 0
    while i < 256 do
      a[i] = a[i] * 3 + (a[(i + k) & 255] ~ i)
      sum = sum + a[i]
      i = i + 1
    end
    k = k + 1
  end
  print(sum)
end
