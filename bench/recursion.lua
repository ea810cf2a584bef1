local function fib(n)
    if n < 2 then return n end
    local a = fib(n - 1)
    local b = fib(n - 2)
    return a + b
end
local sum = 0
for _ = 1, REPEAT do sum = (sum + fib(23)) % 10007 end
print(sum)
