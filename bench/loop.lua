local function mix(x, y) return (x * 31 + y) % 10007 end
local sum = 0
for _ = 1, REPEAT do
    for i = 0, 499 do
        for j = 0, 499 do sum = mix(sum, i + j) end
    end
end
print(sum)
